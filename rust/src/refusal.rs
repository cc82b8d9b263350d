//! Why a call refused.
use core::fmt;

macro_rules! refusals {
    ($($name:ident = $number:literal: $text:literal,)*) => {
        /// Why a call refused. A call of a [`crate::Store`] that refuses changes no byte of the room, and one of a message no byte of its
        /// buffer; with `UnknownKind` and `CutShort` a [`crate::Reader`] says how its input ends.
        #[derive(Clone, Copy, Debug, PartialEq, Eq, Hash)]
        pub enum Refusal {
            $(
                #[doc = concat!("Number ", $number, ": ", $text, ".")]
                $name,
            )*
            /// An answer that this version does not have: another archive is linked than the one that belongs to this crate. With
            /// number 0 where the answer was 'done' and what came with it cannot be.
            Unlisted(u8),
        }

        impl Refusal {
            /// The refusals that the archive has, in the order of their numbers.
            pub const ALL: &'static [Refusal] = &[$(Refusal::$name),*];

            /// The number that the archive answers.
            pub const fn number(self) -> u8 {
                match self {
                    $(Refusal::$name => $number,)*
                    Refusal::Unlisted(number) => number,
                }
            }

            /// Only 0 is success.
            pub(crate) const fn check(number: u8) -> Result<(), Refusal> {
                match number {
                    0 => Ok(()),
                    $($number => Err(Refusal::$name),)*
                    _ => Err(Refusal::Unlisted(number)),
                }
            }
        }

        impl fmt::Display for Refusal {
            fn fmt(&self, f: &mut fmt::Formatter<'_>) -> fmt::Result {
                match self {
                    $(Refusal::$name => f.write_str($text),)*
                    Refusal::Unlisted(number) => write!(f, "answer {number} is not one of version {}", crate::VERSION),
                }
            }
        }
    };
}

refusals! {
    Sizes = 1: "rows, slots or ageing rule outside their range",
    TooShort = 2: "room too short for a fresh store",
    NotAStore = 3: "the room holds no store",
    NoSatellite = 4: "no satellite has this number",
    TowTooLarge = 5: "time of week not below the seconds of a week",
    NotAStart = 6: "MACK time not the start of a subframe",
    TimeArithmetic = 7: "the sum of a time and a span is refused, or the week too large for a message",
    NotAllowed = 8: "COP, counter, or length of a word, tag, data, message or buffer not allowed",
    UnknownCode = 9: "band, kind, status or form unknown",
    NoCandidate = 10: "no data that the tag could be of",
    OtherData = 11: "the data given is not the candidate's",
    NotEnough = 12: "no record of the satellite has enough bits of tags",
    UnknownKind = 13: "a byte that is no kind byte of an input",
    CutShort = 14: "the input ended inside an item",
    Earlier = 15: "a word of an earlier subframe than the last",
    Dummy = 16: "COP 0, nothing added",
    VerdictNo = 17: "the tag is not right, nothing added",
    StatusAddsNothing = 18: "status reserved or don't use, nothing added",
    IssuesDiffer = 21: "the IODnav of words 1 to 4 are not all equal",
    OtherSatellite = 22: "word 4 names another satellite",
    AgeUnknown = 24: "the age of the data is not known",
    PaddingSet = 26: "a bit behind the data of a message is set",
}

impl core::error::Error for Refusal {}
