//! The unchanged Rust behind C functions, for the sizes that are measured. The stand-ins are the oracle's, and a key that does no work.
#![allow(dead_code)]

extern crate self as p256;
pub mod ecdsa {
    #[derive(Debug, Clone)]
    pub struct VerifyingKey;
}

mod bitfields;
mod gst;
mod message;
mod navmessage;
mod state;
mod storage;
mod svn;
mod tesla;
mod types;
mod validation;

pub use gst::Gst;
pub use svn::Svn;

use bitfields::{Adkd, Mack, NmaStatus, Prnd, Tag};
use navmessage::CollectNavMessage;
use state::{Size, write_room};
use tesla::Key;
use types::{BitSlice, InavBand};
use validation::Validated;

type Small = CollectNavMessage<Size<typenum::U3, typenum::U12>>;
type Yard = CollectNavMessage<Size<typenum::U13, typenum::U36>>;
type Large = CollectNavMessage<Size<typenum::U16, typenum::U36>>;

pub enum Store {
    Small(Small),
    Yard(Yard),
    Large(Large),
}

macro_rules! each {
    ($store:expr, $s:ident => $body:expr) => {
        match $store {
            Store::Small($s) => $body,
            Store::Yard($s) => $body,
            Store::Large($s) => $body,
        }
    };
}

#[unsafe(no_mangle)]
pub extern "C" fn beside_fresh(d: u8, n: u8) -> *mut Store {
    Box::into_raw(Box::new(match (d, n) {
        (3, 12) => Store::Small(CollectNavMessage::new()),
        (13, 36) => Store::Yard(CollectNavMessage::new()),
        (16, 36) => Store::Large(CollectNavMessage::new()),
        _ => panic!("not a size that is measured"),
    }))
}

#[unsafe(no_mangle)]
pub unsafe extern "C" fn beside_feed(store: *mut Store, word: *const [u8; 16], sat: u8, week: u16, time: u32, band: u8) {
    let store = unsafe { &mut *store };
    let word = unsafe { &*word };
    let svn = Svn::try_from(sat).unwrap();
    let band = if band == 0 { InavBand::E1B } else { InavBand::E5B };
    each!(store, s => s.feed(word, svn, Gst::new(week, time), band))
}

/// A tag of status 2 and verdict yes: kind 0 as tag 0 of its MACK, others behind a tag 0 that is a dummy. Whether the key was asked.
#[unsafe(no_mangle)]
pub unsafe extern "C" fn beside_tag(store: *mut Store, sat: u8, kind: u8, cop: u8, bits: u8, week: u16, time: u32) -> u8 {
    let store = unsafe { &mut *store };
    let svn = Svn::try_from(sat).unwrap();
    let gst = Gst::new(week, time);
    let bytes = [0; 5];
    let adkd = match kind {
        0 => Adkd::InavCed,
        4 => Adkd::InavTiming,
        _ => Adkd::SlowMac,
    };
    let tag = Tag { tag: &BitSlice::from_slice(&bytes)[..bits.into()], prnd: Prnd(sat), adkd, cop };
    let mack = if kind == 0 {
        Mack { tag0: tag, tag1: None, validated: Validated {} }
    } else {
        Mack { tag0: Tag { cop: 0, ..tag }, tag1: Some(tag), validated: Validated {} }
    };
    let key = Key::new(true);
    if kind == 12 {
        each!(store, s => s.process_mack_slowmac(mack, &key, svn, gst, NmaStatus::Operational))
    } else {
        each!(store, s => s.process_mack(mack, &key, svn, gst, NmaStatus::Operational))
    }
    key.asked()
}

#[repr(C)]
pub struct Told {
    number: u8,
    authbits: u16,
    week: u16,
    time: u32,
    bits: usize,
}

#[unsafe(no_mangle)]
pub unsafe extern "C" fn beside_ask(store: *const Store, timing: bool, sat: u8) -> Told {
    let store = unsafe { &*store };
    let svn = Svn::try_from(sat).unwrap();
    let found = each!(store, s => if timing { s.get_timing_parameters(svn) } else { s.get_ced_and_status(svn) });
    match found {
        None => Told { number: 12, authbits: 0, week: 0, time: 0, bits: 0 },
        Some(data) => Told {
            number: 0,
            authbits: data.authbits(),
            week: data.gst().wn(),
            time: data.gst().tow(),
            bits: data.data().len(),
        },
    }
}

/// The Rust's state in the port's layout.
#[unsafe(no_mangle)]
pub unsafe extern "C" fn beside_room(store: *const Store, room: *mut u8, bytes: usize) {
    let store = unsafe { &*store };
    let room = unsafe { core::slice::from_raw_parts_mut(room, bytes) };
    each!(store, s => write_room(s, room))
}
