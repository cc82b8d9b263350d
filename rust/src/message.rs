//! The message that a tag is made over.
use crate::limits::{CED_BYTES, CED_MESSAGE_BYTES, TAG0_MESSAGE_BYTES, TIMING_BYTES, TIMING_MESSAGE_BYTES};
use crate::store::codes;
use crate::{sys, Adkd, Gst, NmaStatus, Refusal, Svn};

codes! {
    /// The form of a tag's message.
    Form: UnknownCode {
        /// Ephemeris, clock and status.
        Ced = 0,
        /// The same for tag 0, the first tag of a MACK: the satellite of the data is the sender, and is not carried.
        Tag0 = 1,
        /// Timing parameters.
        Timing = 2,
    }
}

impl Form {
    /// The bytes of a message: [`CED_MESSAGE_BYTES`], [`TAG0_MESSAGE_BYTES`] or [`TIMING_MESSAGE_BYTES`].
    pub const fn message_bytes(self) -> usize {
        match self {
            Form::Ced => CED_MESSAGE_BYTES,
            Form::Tag0 => TAG0_MESSAGE_BYTES,
            Form::Timing => TIMING_MESSAGE_BYTES,
        }
    }

    /// The bytes of its data: [`CED_BYTES`], or [`TIMING_BYTES`] for timing.
    pub const fn data_bytes(self) -> usize {
        match self {
            Form::Ced | Form::Tag0 => CED_BYTES,
            Form::Timing => TIMING_BYTES,
        }
    }
}

/// The form of a tag that is not the first of its MACK.
impl From<Adkd> for Form {
    fn from(adkd: Adkd) -> Form {
        match adkd {
            Adkd::InavCed | Adkd::SlowMac => Form::Ced,
            Adkd::InavTiming => Form::Timing,
        }
    }
}

/// What stands in a message in front of the data.
#[derive(Clone, Copy, Debug, PartialEq, Eq, Hash)]
pub struct Heading {
    /// The satellite whose data it is. [`Form::Tag0`] does not carry it: it is read as `None`, and may be `None` where that is built.
    pub prnd: Option<Svn>,
    /// The satellite that sends the tag.
    pub prna: Svn,
    /// The time of the tag's MACK, a start of a subframe in a week of not more than [`crate::MOST_MESSAGE_WEEK`].
    pub gst: Gst,
    /// The tag's counter in its MACK, 1 to [`crate::MOST_COUNTER`].
    pub counter: u8,
    pub status: NmaStatus,
}

// SAFETY, of both calls below: a slice is passed as the pointer and the length of a Rust slice, so that its bytes may be read, and written
// where it comes from a `&mut`, which shares no byte with the other slice. The archive keeps no pointer.

/// The message that a tag is made over, for the MAC that the caller forms with its key: the heading, the data, as
/// [`crate::Store::candidate`] shows it, and zeros up to a whole byte. It stands at the start of `out`, whose bytes behind it stay. What the
/// data has past its bits does not matter.
///
/// Refuses, in this order, with [`Refusal::NoSatellite`] (no `prnd`, save in tag 0), [`Refusal::NotAStart`], [`Refusal::TimeArithmetic`]
/// (the week), [`Refusal::NotAllowed`] (the counter is 0, the data is not of [`Form::data_bytes`], or `out` is shorter than
/// [`Form::message_bytes`]). A refusal writes nothing.
///
/// ```
/// use dawnstook::*;
///
/// let (prnd, prna, gst) = (Some(Svn::try_from(1)?), Svn::try_from(2)?, Gst::try_new(1177, 175_770)?);
/// let heading = Heading { prnd, prna, gst, counter: 3, status: NmaStatus::Operational };
/// let mut out = [0; TIMING_MESSAGE_BYTES];
/// let message = build_message(&mut out, Form::Timing, heading, &[0xff; TIMING_BYTES])?;
/// assert_eq!(message[..8], [0x01, 0x02, 0x49, 0x92, 0xae, 0x9a, 0x03, 0xbf]);
/// assert_eq!((&message[8..24], message[24]), (&[0xff; 16][..], 0xfe));
/// # Ok::<(), Refusal>(())
/// ```
pub fn build_message<'a>(out: &'a mut [u8], form: Form, heading: Heading, data: &[u8]) -> Result<&'a [u8], Refusal> {
    let Heading { prnd, prna, gst, counter, status } = heading;
    // the archive tests it in tag 0 too
    let prnd = prnd.or((form == Form::Tag0).then_some(prna)).map_or(0, Svn::get);
    let (week, time) = (gst.wn().get(), gst.tow().get());
    let built = unsafe {
        let (start, len) = (out.as_mut_ptr(), out.len());
        let (form, status, counter) = (form as u8, status as u8, counter.into());
        sys::dawnstook_build_message(start, len, data.as_ptr(), data.len(), prna.get(), prnd, week, time, form, status, counter)
    };
    Refusal::check(built.number)?;
    part(out, built.bytes, form.message_bytes())
}

/// The heading of a message and its data, which stands at the start of `out` with zeros past its bits; the bytes of `out` behind it stay.
/// What [`build_message`] built is read back as it was given, and what is read back is built to the same message.
///
/// Refuses, in this order, with [`Refusal::NotAllowed`] (the message is not of [`Form::message_bytes`], or `out` is shorter than
/// [`Form::data_bytes`]), and of what it read with [`Refusal::NoSatellite`], [`Refusal::TowTooLarge`], [`Refusal::NotAStart`],
/// [`Refusal::NotAllowed`] (the counter is 0), [`Refusal::PaddingSet`]. A refusal writes nothing.
pub fn read_message<'a>(out: &'a mut [u8], message: &[u8], form: Form) -> Result<(Heading, &'a [u8]), Refusal> {
    let read = unsafe { sys::dawnstook_read_message(out.as_mut_ptr(), out.len(), message.as_ptr(), message.len(), form as u8) };
    Refusal::check(read.number)?;
    let heading = Heading::of(read, form).ok_or(Refusal::Unlisted(0))?;
    Ok((heading, part(out, form.data_bytes(), form.data_bytes())?))
}

impl Heading {
    /// What the archive handed back; numbers that cannot be are another archive's.
    fn of(read: sys::MessageRead, form: Form) -> Option<Heading> {
        let prnd = match form {
            Form::Tag0 => None,
            Form::Ced | Form::Timing => Some(Svn::new(read.prnd).ok()?),
        };
        Some(Heading {
            prnd,
            prna: Svn::new(read.prna).ok()?,
            gst: Gst::try_new(read.week, read.time).ok()?,
            counter: u8::try_from(read.counter).ok()?,
            status: NmaStatus::try_from(read.status).ok()?,
        })
    }
}

fn part(out: &[u8], bytes: usize, expected: usize) -> Result<&[u8], Refusal> {
    out.get(..bytes).filter(|part| part.len() == expected).ok_or(Refusal::Unlisted(0))
}
