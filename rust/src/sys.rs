//! The archive's exports, a slice as a pointer and a length, a reader as a pointer alone. `tools/outside` checks them against crates/ffi,
//! ffi_intake, ffi_orbit and ffi_message.
use crate::orbit::{Scaled, ScaledTiming, Word1, Word10, Word2, Word3, Word4, Word5, Word6};

#[repr(C)]
pub struct Taken {
    pub number: u8,
    pub records: u32,
}

#[repr(C)]
pub struct Shown {
    pub number: u8,
    pub offset: usize,
    pub bytes: usize,
}

#[repr(C)]
pub struct Told {
    pub number: u8,
    pub authbits: u16,
    pub week: u16,
    pub time: u32,
    pub offset: usize,
    pub bytes: usize,
}

#[repr(C)]
pub struct Moment {
    pub number: u8,
    pub week: u16,
    pub time: u32,
}

#[repr(C)]
pub struct Mark {
    pub number: u8,
    pub start: u8,
}

#[repr(C)]
pub struct Span {
    pub number: u8,
    pub subframes: i32,
}

#[repr(C)]
pub struct Heard {
    pub number: u8,
    pub took: usize,
    pub said: usize,
}

#[repr(C)]
pub struct Closed {
    pub number: u8,
    pub taken: bool,
    pub said: usize,
}

#[repr(C)]
pub struct Orbit {
    pub number: u8,
    pub authbits: u16,
    pub week: u16,
    pub time: u32,
    pub word1: Word1,
    pub word2: Word2,
    pub word3: Word3,
    pub word4: Word4,
    pub word5: Word5,
    pub scaled: Scaled,
}

#[repr(C)]
pub struct Timing {
    pub number: u8,
    pub authbits: u16,
    pub week: u16,
    pub time: u32,
    pub word6: Word6,
    pub word10: Word10,
    pub scaled: ScaledTiming,
}

#[repr(C)]
pub struct MessageBuilt {
    pub number: u8,
    pub bytes: usize,
}

#[repr(C)]
pub struct MessageRead {
    pub number: u8,
    pub prnd: u8,
    pub prna: u8,
    pub status: u8,
    pub week: u16,
    pub time: u32,
    pub counter: u32,
}

extern "C" {
    // the crate's own room_size is a const fn, which the tests hold to this
    #[allow(dead_code)]
    pub fn dawnstook_room_size(d: u8, n: u8) -> usize;
    pub fn dawnstook_fresh(room: *mut u8, room_len: usize, d: u8, n: u8, rule: u8) -> u8;
    pub fn dawnstook_feed(room: *mut u8, room_len: usize, word: *const u8, word_len: usize, sat: u8, week: u16, time: u32, band: u8) -> u8;
    pub fn dawnstook_candidate(room: *const u8, room_len: usize, sat: u8, kind: u8, cop: u8, week: u16, time: u32) -> Shown;
    pub fn dawnstook_tag(
        room: *mut u8,
        room_len: usize,
        sat: u8,
        kind: u8,
        cop: u8,
        bits: u8,
        status: u8,
        week: u16,
        time: u32,
        given: *const u8,
        given_len: usize,
        verdict: bool,
    ) -> Taken;
    pub fn dawnstook_get_ced_and_status(room: *const u8, room_len: usize, sat: u8) -> Told;
    pub fn dawnstook_get_timing_parameters(room: *const u8, room_len: usize, sat: u8) -> Told;
    pub fn dawnstook_get_orbit(room: *const u8, room_len: usize, sat: u8) -> Orbit;
    pub fn dawnstook_get_timing_numbers(room: *const u8, room_len: usize, sat: u8) -> Timing;
    pub fn dawnstook_reset_authbits(room: *mut u8, room_len: usize) -> u8;
    pub fn dawnstook_add_seconds(week: u16, time: u32, seconds: i32) -> Moment;
    pub fn dawnstook_add_subframes(week: u16, time: u32, subframes: i32) -> Moment;
    pub fn dawnstook_gst_subframe(week: u16, time: u32) -> Moment;
    pub fn dawnstook_is_subframe(week: u16, time: u32) -> Mark;
    pub fn dawnstook_subframes_difference(week: u16, time: u32, other_week: u16, other_time: u32) -> Span;
    pub fn dawnstook_part(
        reader: *mut u8,
        room: *mut u8,
        room_len: usize,
        bytes: *const u8,
        bytes_len: usize,
        out: *mut u8,
        out_len: usize,
    ) -> Heard;
    pub fn dawnstook_end(reader: *mut u8, room: *const u8, room_len: usize, out: *mut u8, out_len: usize) -> Closed;
    pub fn dawnstook_build_message(
        out: *mut u8,
        out_len: usize,
        given: *const u8,
        given_len: usize,
        prna: u8,
        prnd: u8,
        week: u16,
        time: u32,
        form: u8,
        status: u8,
        counter: u32,
    ) -> MessageBuilt;
    pub fn dawnstook_read_message(out: *mut u8, out_len: usize, message: *const u8, message_len: usize, form: u8) -> MessageRead;
}
