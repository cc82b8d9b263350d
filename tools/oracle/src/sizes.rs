//! Every size of store that the scope paper allows, behind one trait, since the Rust takes D and N as types.

use crate::bitfields::{Mack, NmaStatus};
use crate::navmessage::{CollectNavMessage, NavMessageData};
use crate::state::{self, Size};
use crate::storage::StaticStorage;
use crate::tesla::Key;
use crate::types::{InavBand, InavWord};
use crate::validation::Validated;
use crate::{Gst, Svn};
use typenum::Unsigned;

/// A store of some size.
pub trait Store {
    fn feed(&mut self, word: &InavWord, svn: Svn, gst: Gst, band: InavBand);
    fn process_mack(
        &mut self,
        mack: Mack<Validated>,
        key: &Key<Validated>,
        prna: Svn,
        gst: Gst,
        status: NmaStatus,
        slow: bool,
    );
    fn get_ced_and_status(&self, svn: Svn) -> Option<NavMessageData<'_>>;
    fn get_timing_parameters(&self, svn: Svn) -> Option<NavMessageData<'_>>;
    fn reset_authbits(&mut self);
    fn write_room(&self, room: &mut [u8]);
    fn counted(&self) -> usize;
    fn copied(&self) -> Box<dyn Store>;
}

impl<S: StaticStorage + Clone + 'static> Store for CollectNavMessage<S> {
    fn feed(&mut self, word: &InavWord, svn: Svn, gst: Gst, band: InavBand) {
        self.feed(word, svn, gst, band)
    }

    fn process_mack(
        &mut self,
        mack: Mack<Validated>,
        key: &Key<Validated>,
        prna: Svn,
        gst: Gst,
        status: NmaStatus,
        slow: bool,
    ) {
        if slow {
            self.process_mack_slowmac(mack, key, prna, gst, status)
        } else {
            self.process_mack(mack, key, prna, gst, status)
        }
    }

    fn get_ced_and_status(&self, svn: Svn) -> Option<NavMessageData<'_>> {
        self.get_ced_and_status(svn)
    }

    fn get_timing_parameters(&self, svn: Svn) -> Option<NavMessageData<'_>> {
        self.get_timing_parameters(svn)
    }

    fn reset_authbits(&mut self) {
        self.reset_authbits()
    }

    fn write_room(&self, room: &mut [u8]) {
        state::write_room(self, room)
    }

    fn counted(&self) -> usize {
        self.counted()
    }

    fn copied(&self) -> Box<dyn Store> {
        Box::new(self.clone())
    }
}

macro_rules! depths {
    ($d:expr, $n:expr, $sats:ident: $($depth:ident)*) => {
        match $d {
            $(x if x == typenum::$depth::U8 => Some(Box::new(CollectNavMessage::<Size<typenum::$depth, typenum::$sats>>::new()) as Box<dyn Store>),)*
            _ => None,
        }
    };
}

macro_rules! satellites {
    ($d:expr, $n:expr; $($sats:ident)*) => {
        match $n {
            $(x if x == typenum::$sats::U8 => depths!($d, $n, $sats: U1 U2 U3 U4 U5 U6 U7 U8 U9 U10 U11 U12 U13 U14 U15 U16),)*
            _ => None,
        }
    };
}

/// An empty store of depth `d` for `n` satellites, where both are within the limits of the scope paper.
pub fn fresh(d: u8, n: u8) -> Option<Box<dyn Store>> {
    satellites!(d, n; U1 U2 U3 U4 U5 U6 U7 U8 U9 U10 U11 U12 U13 U14 U15 U16 U17 U18 U19 U20 U21 U22 U23 U24 U25 U26 U27 U28 U29 U30
        U31 U32 U33 U34 U35 U36)
}
