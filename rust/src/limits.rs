//! Limits and sizes, under the names of `include/dawnstook.h`; `tools/outside` holds both to the code.

/// The most rows (subframes kept) of a store; the least is 1.
pub const MOST_ROWS: u8 = 16;
/// The most slots (satellites of a row) of a store; the least is 1.
pub const MOST_SLOTS: u8 = 36;
/// Satellites are 1 to this.
pub const MOST_SATELLITES: u8 = 36;
/// A time of week is below this.
pub const WEEK_SECONDS: u32 = 604_800;
/// The seconds of a subframe.
pub const SUBFRAME_SECONDS: u32 = 30;
/// So many subframes either way may be added to a time.
pub const MOST_SUBFRAMES: i32 = 71_582_788;
/// COP is 0 to this.
pub const MOST_COP: u8 = 15;
/// The lengths of a tag, in bits.
pub const TAG_BITS: [u8; 5] = [20, 24, 28, 32, 40];
/// The greatest week of a tag's message, which has 12 bits for it.
pub const MOST_MESSAGE_WEEK: u16 = 4095;
/// The counter of a tag in its MACK is 1 to this.
pub const MOST_COUNTER: u8 = 255;
/// The bits of tags that data needs before it is handed out.
pub const LEAST_COUNT: u16 = 40;
/// Where the count of bits of tags stops.
pub const MOST_COUNT: u16 = 65_535;
/// The bytes of a word.
pub const WORD_BYTES: usize = 16;
/// The bits of ephemeris, clock and status.
pub const CED_BITS: usize = 549;
/// The bytes that hold them.
pub const CED_BYTES: usize = 69;
/// The bits of timing parameters.
pub const TIMING_BITS: usize = 141;
/// The bytes that hold them.
pub const TIMING_BYTES: usize = 18;
/// The bytes of a message of [`crate::Form::Ced`], the longest.
pub const CED_MESSAGE_BYTES: usize = 76;
/// The bytes of a message of [`crate::Form::Tag0`].
pub const TAG0_MESSAGE_BYTES: usize = 75;
/// The bytes of a message of [`crate::Form::Timing`].
pub const TIMING_MESSAGE_BYTES: usize = 25;
/// The bytes of the room before its rows.
pub const HEADER_BYTES: usize = 8;
/// The bytes of a row before its slots.
pub const ROW_HEAD_BYTES: usize = 8;
/// The bytes of a slot.
pub const SLOT_BYTES: usize = 100;
/// The bytes of the largest store.
pub const MOST_ROOM: usize = room_size(MOST_ROWS, MOST_SLOTS);
/// The bytes of a reader.
pub const READER_BYTES: usize = 28;
/// The longest line that an item of an input may have, with its line feed.
pub const LONGEST_LINE: usize = 189;
/// The stack of the archive's deepest call with its arguments, result and return address, as measured (docs/SPEED.md).
pub const STACK_BYTES: usize = 352;
/// The same for the two calls of a [`crate::Reader`].
pub const READER_STACK_BYTES: usize = 888;
/// The same for [`crate::Store::get_orbit`] and [`crate::Store::get_timing_numbers`].
pub const NUMBERS_STACK_BYTES: usize = 984;

/// The bytes that a store of `d` rows and `n` slots takes; 0 for sizes that are not allowed.
pub const fn room_size(d: u8, n: u8) -> usize {
    if d < 1 || d > MOST_ROWS || n < 1 || n > MOST_SLOTS {
        return 0;
    }
    HEADER_BYTES + d as usize * (ROW_HEAD_BYTES + n as usize * SLOT_BYTES)
}
