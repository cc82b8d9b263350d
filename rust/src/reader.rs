//! An input of items, a kind byte and a body each, taken part by part.
use crate::limits::{LONGEST_LINE, READER_BYTES};
use crate::{sys, Refusal};

/// What came of a part of an input.
#[derive(Clone, Copy, Debug, PartialEq, Eq, Hash)]
#[must_use]
pub struct Heard {
    /// How many bytes of the part were taken; the caller goes on with the others. Not more than it has.
    pub took: usize,
    /// How many bytes of lines stand at the start of the output. Not more than it has.
    pub said: usize,
    /// `Ok` while the reader goes on, else why the input has ended. Bytes that were taken and lines that were written count with either.
    pub status: Result<(), Refusal>,
}

/// What came of the end of an input.
#[derive(Clone, Copy, Debug, PartialEq, Eq, Hash)]
#[must_use]
pub struct Closed {
    /// False only where a line is due and the output is shorter than [`LONGEST_LINE`]: nothing has changed then.
    pub taken: bool,
    /// How many bytes of lines stand at the start of the output. Not more than it has.
    pub said: usize,
    /// `Ok` where the input ends between items, else why it has ended. Inside an item it is [`Refusal::CutShort`], also where the end
    /// was not taken.
    pub status: Result<(), Refusal>,
}

/// A reader of the bench program's input (docs/STORE.md, section 17), which takes it part by part as it comes: each item makes one call
/// on the room, and its line goes to the output. One with the kind byte 6 makes a store of [`crate::Ageing::Moves`], one with 9 names
/// the rule. What is not a whole item yet stays in the reader.
///
/// ```
/// use dawnstook::{Reader, Refusal, MOST_ROOM};
///
/// // reset, fresh, two words, a tag, an asking and a byte that is no kind: the listing of STORE 17.7
/// let mut input = vec![3, 6, 2, 2];
/// for first in [0x18, 0x28] {
///     input.extend([1, 1, 0, 0x04, 0x99, 0x00, 0x02, 0xae, 0x7c, first]);
///     input.extend([0; 15]);
/// }
/// input.extend([2, 1, 4, 1, 40, 2, 1, 0x04, 0x99, 0x00, 0x02, 0xae, 0x9a, 5, 1, 10]);
///
/// let (mut reader, mut room) = (Reader::new(), [0; MOST_ROOM]);
/// let (mut lines, mut status) = (Vec::new(), Ok(()));
/// for part in input.chunks(7) {
///     assert_eq!(status, Ok(()));
///     status = reader.part_with(&mut room, part, |line| lines.extend_from_slice(line));
/// }
/// assert_eq!(status, Err(Refusal::UnknownKind));
/// assert_eq!(reader.end_with(&room, |line| lines.extend_from_slice(line)), Err(Refusal::UnknownKind));
/// let asked = format!("p 0 E01 40 1177 175740 {}\n", "0".repeat(36));
/// assert_eq!(String::from_utf8_lossy(&lines), format!("r 3\nf 0\nw 0\nw 0\nt 0 1\n{asked}x 13\n"));
/// ```
#[derive(Clone, Debug, Default, PartialEq, Eq, Hash)]
pub struct Reader {
    state: [u8; READER_BYTES],
}

// SAFETY, of both calls below: a slice is passed as in `Store`, and the state as a pointer to the bytes that the archive takes, which
// `tools/outside` holds to the code. State, room and output are each behind a `&mut` where they are written, so that nothing shares a byte
// with them.
impl Reader {
    /// A reader at the start of an input.
    pub const fn new() -> Reader {
        Reader { state: [0; READER_BYTES] }
    }

    /// The reader that these bytes are, as [`Reader::state`] gave them. Any bytes are one: it keeps the beginning of an item, or nothing,
    /// or has ended with any number, 0 too, and takes and ignores all bytes of every part.
    pub const fn resume(state: [u8; READER_BYTES]) -> Reader {
        Reader { state }
    }

    /// The reader as bytes, to be kept with the room.
    pub const fn state(&self) -> [u8; READER_BYTES] {
        self.state
    }

    /// The next part of an input; an empty one is not the end. Each item that becomes whole is called on the room, and its line is
    /// written to `out` behind those before it. All bytes are taken, save where `out` is too short: before the byte that would make a
    /// item whole while fewer than [`LONGEST_LINE`] bytes of `out` are left, the call stops. Nothing is lost then: the caller makes `out`
    /// free again and goes on with `&bytes[took..]`. An `out` of [`LONGEST_LINE`] bytes takes at least one byte of a part that has one.
    ///
    /// A byte that is no kind byte ends the input with [`Refusal::UnknownKind`]. Once it has ended, every part is taken whole and
    /// ignored, with the status of the end.
    pub fn part(&mut self, room: &mut [u8], bytes: &[u8], out: &mut [u8]) -> Heard {
        let heard = unsafe {
            let (state, room_len, out_len) = (self.state.as_mut_ptr(), room.len(), out.len());
            sys::dawnstook_part(state, room.as_mut_ptr(), room_len, bytes.as_ptr(), bytes.len(), out.as_mut_ptr(), out_len)
        };
        if heard.took > bytes.len() || heard.said > out.len() {
            return Heard { took: 0, said: 0, status: Err(Refusal::Unlisted(heard.number)) };
        }
        Heard { took: heard.took, said: heard.said, status: Refusal::check(heard.number) }
    }

    /// The end of the input: [`Refusal::CutShort`] inside an item, with a line, and `Ok` between items. An `out` that is too short for
    /// that line takes no end: the status is [`Refusal::CutShort`] then too, and the caller comes again with a longer one. Where the input
    /// had ended before, the status is that of its end, with no line.
    pub fn end(&mut self, room: &[u8], out: &mut [u8]) -> Closed {
        let closed = unsafe { sys::dawnstook_end(self.state.as_mut_ptr(), room.as_ptr(), room.len(), out.as_mut_ptr(), out.len()) };
        if closed.said > out.len() {
            return Closed { taken: closed.taken, said: 0, status: Err(Refusal::Unlisted(closed.number)) };
        }
        Closed { taken: closed.taken, said: closed.said, status: Refusal::check(closed.number) }
    }

    /// A whole part, as [`Reader::part`] takes it, each line handed to `line` with its line feed.
    pub fn part_with(&mut self, room: &mut [u8], bytes: &[u8], mut line: impl FnMut(&[u8])) -> Result<(), Refusal> {
        let (mut out, mut rest) = ([0; LONGEST_LINE], bytes);
        loop {
            let heard = self.part(room, rest, &mut out);
            hand(&out, heard.said, &mut line);
            heard.status?;
            rest = rest.get(heard.took..).unwrap_or_default();
            if rest.is_empty() {
                return Ok(());
            }
            if heard.took == 0 {
                return Err(Refusal::Unlisted(0));
            }
        }
    }

    /// The end of the input, as [`Reader::end`] takes it, its line, if it has one, handed to `line`.
    pub fn end_with(&mut self, room: &[u8], mut line: impl FnMut(&[u8])) -> Result<(), Refusal> {
        let mut out = [0; LONGEST_LINE];
        let closed = self.end(room, &mut out);
        hand(&out, closed.said, &mut line);
        if closed.taken {
            closed.status
        } else {
            Err(Refusal::Unlisted(0))
        }
    }
}

/// An output of [`LONGEST_LINE`] bytes has one line at most: behind it there is no room for another.
fn hand(out: &[u8], said: usize, line: &mut impl FnMut(&[u8])) {
    if let Some(said) = out.get(..said).filter(|said| !said.is_empty()) {
        line(said);
    }
}
