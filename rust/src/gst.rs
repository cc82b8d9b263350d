//! Galileo system time.
use crate::limits::WEEK_SECONDS;
use crate::{sys, Refusal};

/// A week number: any 16-bit number is one.
#[derive(Clone, Copy, Debug, PartialEq, Eq, Hash, PartialOrd, Ord)]
pub struct Wn(u16);

impl Wn {
    pub const fn new(week: u16) -> Wn {
        Wn(week)
    }

    pub const fn get(self) -> u16 {
        self.0
    }
}

impl From<u16> for Wn {
    fn from(week: u16) -> Wn {
        Wn(week)
    }
}

impl From<Wn> for u16 {
    fn from(week: Wn) -> u16 {
        week.0
    }
}

/// A time of week in seconds, below [`WEEK_SECONDS`].
#[derive(Clone, Copy, Debug, PartialEq, Eq, Hash, PartialOrd, Ord)]
pub struct Tow(u32);

impl Tow {
    /// Refuses with [`Refusal::TowTooLarge`].
    pub const fn new(seconds: u32) -> Result<Tow, Refusal> {
        if seconds < WEEK_SECONDS {
            Ok(Tow(seconds))
        } else {
            Err(Refusal::TowTooLarge)
        }
    }

    pub const fn get(self) -> u32 {
        self.0
    }
}

impl TryFrom<u32> for Tow {
    type Error = Refusal;
    fn try_from(seconds: u32) -> Result<Tow, Refusal> {
        Tow::new(seconds)
    }
}

impl From<Tow> for u32 {
    fn from(time: Tow) -> u32 {
        time.0
    }
}

/// A Galileo system time: a week and a time of week.
///
/// ```
/// use dawnstook::{Gst, Refusal};
///
/// let gst = Gst::try_new(1177, 175_767)?;
/// assert_eq!(gst.add_seconds(2), Gst::try_new(1177, 175_769));
/// assert_eq!(gst.gst_subframe(), Gst::try_new(1177, 175_740));
/// assert_eq!(Gst::try_new(0, 0)?.add_seconds(-30), Err(Refusal::TimeArithmetic));
/// # Ok::<(), Refusal>(())
/// ```
#[derive(Clone, Copy, Debug, PartialEq, Eq, Hash, PartialOrd, Ord)]
pub struct Gst {
    wn: Wn,
    tow: Tow,
}

impl Gst {
    pub const fn new(wn: Wn, tow: Tow) -> Gst {
        Gst { wn, tow }
    }

    /// The same of plain numbers. Refuses with [`Refusal::TowTooLarge`].
    pub const fn try_new(week: u16, seconds: u32) -> Result<Gst, Refusal> {
        match Tow::new(seconds) {
            Ok(tow) => Ok(Gst { wn: Wn(week), tow }),
            Err(why) => Err(why),
        }
    }

    pub const fn wn(self) -> Wn {
        self.wn
    }

    pub const fn tow(self) -> Tow {
        self.tow
    }

    /// What the archive handed back; a time that cannot be is another archive's.
    pub(crate) fn of(week: u16, time: u32) -> Result<Gst, Refusal> {
        Gst::try_new(week, time).map_err(|_| Refusal::Unlisted(0))
    }

    fn of_moment(moment: sys::Moment) -> Result<Gst, Refusal> {
        Refusal::check(moment.number)?;
        Gst::of(moment.week, moment.time)
    }

    /// The time so many seconds later, or earlier where they are below 0. Refuses with [`Refusal::TimeArithmetic`] a sum outside the
    /// weeks that there are, and a week's seconds or more to go back.
    pub fn add_seconds(self, seconds: i32) -> Result<Gst, Refusal> {
        // SAFETY: numbers alone are passed.
        Gst::of_moment(unsafe { sys::dawnstook_add_seconds(self.wn.0, self.tow.0, seconds) })
    }

    /// The time so many subframes later. Refuses as [`Gst::add_seconds`] does, and more than [`crate::MOST_SUBFRAMES`] either way.
    pub fn add_subframes(self, subframes: i32) -> Result<Gst, Refusal> {
        // SAFETY: numbers alone are passed.
        Gst::of_moment(unsafe { sys::dawnstook_add_subframes(self.wn.0, self.tow.0, subframes) })
    }

    /// The start of the subframe that the time is in. No time of this type is refused.
    pub fn gst_subframe(self) -> Result<Gst, Refusal> {
        // SAFETY: numbers alone are passed.
        Gst::of_moment(unsafe { sys::dawnstook_gst_subframe(self.wn.0, self.tow.0) })
    }

    /// Whether the time is the start of a subframe. No time of this type is refused.
    pub fn is_subframe(self) -> Result<bool, Refusal> {
        // SAFETY: numbers alone are passed.
        let mark = unsafe { sys::dawnstook_is_subframe(self.wn.0, self.tow.0) };
        Refusal::check(mark.number)?;
        Ok(mark.start == 1)
    }

    /// The subframes from `other` to this time, those of the times of week rounded toward zero. No times of this type are refused.
    pub fn subframes_difference(self, other: Gst) -> Result<i32, Refusal> {
        // SAFETY: numbers alone are passed.
        let span = unsafe { sys::dawnstook_subframes_difference(self.wn.0, self.tow.0, other.wn.0, other.tow.0) };
        Refusal::check(span.number)?;
        Ok(span.subframes)
    }
}

impl TryFrom<(u16, u32)> for Gst {
    type Error = Refusal;
    fn try_from((week, seconds): (u16, u32)) -> Result<Gst, Refusal> {
        Gst::try_new(week, seconds)
    }
}
