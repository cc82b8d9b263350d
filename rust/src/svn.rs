//! Satellites.
use crate::limits::MOST_SATELLITES;
use crate::Refusal;
use core::fmt;
use core::num::NonZeroU8;

/// The number of a satellite, 1 to [`MOST_SATELLITES`], written as E and two digits.
///
/// ```
/// use dawnstook::{Refusal, Svn};
///
/// assert_eq!(Svn::try_from(24)?.to_string(), "E24");
/// assert_eq!(Svn::try_from(37), Err(Refusal::NoSatellite));
/// # Ok::<(), Refusal>(())
/// ```
#[derive(Clone, Copy, Debug, PartialEq, Eq, Hash, PartialOrd, Ord)]
pub struct Svn(NonZeroU8);

impl Svn {
    /// Refuses with [`Refusal::NoSatellite`].
    pub const fn new(number: u8) -> Result<Svn, Refusal> {
        match NonZeroU8::new(number) {
            Some(satellite) if number <= MOST_SATELLITES => Ok(Svn(satellite)),
            _ => Err(Refusal::NoSatellite),
        }
    }

    pub const fn get(self) -> u8 {
        self.0.get()
    }

    /// All satellites, from E01 up.
    pub fn iter() -> impl Iterator<Item = Svn> {
        (1..=MOST_SATELLITES).filter_map(NonZeroU8::new).map(Svn)
    }
}

impl fmt::Display for Svn {
    fn fmt(&self, f: &mut fmt::Formatter<'_>) -> fmt::Result {
        write!(f, "E{:02}", self.0)
    }
}

impl From<Svn> for u8 {
    fn from(svn: Svn) -> u8 {
        svn.get()
    }
}

impl TryFrom<u8> for Svn {
    type Error = Refusal;
    fn try_from(number: u8) -> Result<Svn, Refusal> {
        Svn::new(number)
    }
}

macro_rules! others {
    ($($t:ty)*) => {$(
        impl From<Svn> for $t {
            fn from(svn: Svn) -> $t {
                // 1 to 36 is in every type
                svn.get() as $t
            }
        }

        impl TryFrom<$t> for Svn {
            type Error = Refusal;
            fn try_from(number: $t) -> Result<Svn, Refusal> {
                u8::try_from(number).map_err(|_| Refusal::NoSatellite).and_then(Svn::new)
            }
        }
    )*};
}

others!(u16 u32 u64 u128 usize i8 i16 i32 i64 i128 isize);
