//! The message under a tag, which the unchanged Rust makes and gives to the MAC when it validates a tag.

use messages::bitfields::NmaStatus;
use messages::tesla::{Key, MacFunction};
use messages::types::BitSlice;
use messages::validation::Validated;
use messages::{Gst, Svn, noted};
use std::sync::OnceLock;

/// A key of zeros, not on the heap: what a copy in a store costs hangs a little on where the store lies there.
#[unsafe(no_mangle)]
pub extern "C" fn beside_key() -> *const Key<Validated> {
    static KEY: OnceLock<Key<Validated>> = OnceLock::new();
    KEY.get_or_init(|| Key::of_zeros(MacFunction::HmacSha256))
}

/// Whether a tag of 40 zeros is valid, which it is: the MAC's value is zeros. Forms are 0 (CED), 1 (tag 0) and 2 (timing).
#[allow(clippy::too_many_arguments)]
#[unsafe(no_mangle)]
pub unsafe extern "C" fn beside_message(
    key: *const Key<Validated>,
    form: u8,
    prna: u8,
    prnd: u8,
    week: u16,
    time: u32,
    status: u8,
    counter: u8,
    data: *const u8,
) -> bool {
    let key = unsafe { &*key };
    let bits: usize = if form == 2 { 141 } else { 549 };
    let data = unsafe { core::slice::from_raw_parts(data, bits.div_ceil(8)) };
    let navdata = &BitSlice::from_slice(data)[..bits];
    let tag = BitSlice::from_slice(&[0; 5]);
    let gst = Gst::new(week, time);
    let prna = Svn::try_from(prna).unwrap();
    let status = match status {
        0 => NmaStatus::Reserved,
        1 => NmaStatus::Test,
        2 => NmaStatus::Operational,
        _ => NmaStatus::DontUse,
    };
    if form == 1 {
        key.validate_tag0_counted(tag, gst, prna, counter, status, navdata)
    } else {
        key.validate_tag(tag, gst, prnd, prna, counter, status, navdata)
    }
}

/// The bytes that the MAC was given since this was last called, into room for 128, and how many they are.
#[unsafe(no_mangle)]
pub unsafe extern "C" fn beside_noted(out: *mut [u8; 128]) -> usize {
    let noted = noted();
    unsafe { *out = noted.bytes };
    noted.len
}
