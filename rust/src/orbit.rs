//! Authenticated data read as numbers.
use crate::{sys, Gst, Refusal};

/// Word 1: the issue of the data, the reference time of the orbit, mean anomaly, eccentricity, square root of the semi-major axis.
#[derive(Clone, Copy, Debug, PartialEq, Eq, Hash)]
#[repr(C)]
pub struct Word1 {
    /// The issue of the data, the same as in words 2 to 4.
    pub iodnav: u32,
    /// The reference time of the orbit, in units of 60 s.
    pub t0e: u32,
    /// Mean anomaly; [`Scaled::m0`] times 2^31.
    pub m0: i32,
    /// Eccentricity; [`Scaled::e`] times 2^33.
    pub e: u32,
    /// Square root of the semi-major axis; [`Scaled::root_a`] times 2^19.
    pub root_a: u32,
}

/// Word 2: longitude of the ascending node, inclination, argument of perigee, rate of the inclination.
#[derive(Clone, Copy, Debug, PartialEq, Eq, Hash)]
#[repr(C)]
pub struct Word2 {
    /// The issue of the data.
    pub iodnav: u32,
    /// Longitude of the ascending node; [`Scaled::omega0`] times 2^31.
    pub omega0: i32,
    /// Inclination; [`Scaled::i0`] times 2^31.
    pub i0: i32,
    /// Argument of perigee; [`Scaled::omega`] times 2^31.
    pub omega: i32,
    /// Rate of the inclination; [`Scaled::i_dot`] times 2^43.
    pub i_dot: i32,
}

/// Word 3: rate of the right ascension, correction of the mean motion, harmonic corrections, the index of the signal's accuracy.
#[derive(Clone, Copy, Debug, PartialEq, Eq, Hash)]
#[repr(C)]
pub struct Word3 {
    /// The issue of the data.
    pub iodnav: u32,
    /// Rate of the right ascension; [`Scaled::omega_dot`] times 2^43.
    pub omega_dot: i32,
    /// Correction of the mean motion; [`Scaled::delta_n`] times 2^43.
    pub delta_n: i32,
    /// Cosine term of the argument of latitude; [`Scaled::cuc`] times 2^29.
    pub cuc: i32,
    /// Sine term of the argument of latitude; [`Scaled::cus`] times 2^29.
    pub cus: i32,
    /// Cosine term of the orbit's radius; [`Scaled::crc`] times 2^5.
    pub crc: i32,
    /// Sine term of the orbit's radius; [`Scaled::crs`] times 2^5.
    pub crs: i32,
    /// The index of the signal's accuracy (SISA).
    pub sisa: u32,
}

/// Word 4: the satellite, harmonic corrections, the clock's reference time and its polynomial.
#[derive(Clone, Copy, Debug, PartialEq, Eq, Hash)]
#[repr(C)]
pub struct Word4 {
    /// The issue of the data.
    pub iodnav: u32,
    /// The satellite, the one that was asked for.
    pub svid: u32,
    /// Cosine term of the inclination; [`Scaled::cic`] times 2^29.
    pub cic: i32,
    /// Sine term of the inclination; [`Scaled::cis`] times 2^29.
    pub cis: i32,
    /// The reference time of the clock, in units of 60 s.
    pub t0c: u32,
    /// The clock's bias; [`Scaled::af0`] times 2^34.
    pub af0: i32,
    /// The clock's drift; [`Scaled::af1`] times 2^46.
    pub af1: i32,
    /// The rate of the clock's drift; [`Scaled::af2`] times 2^59.
    pub af2: i32,
}

/// Word 5: the ionosphere's terms, its disturbance flags by region, broadcast group delays, health of the signals, validity of the data.
#[derive(Clone, Copy, Debug, PartialEq, Eq, Hash)]
#[repr(C)]
pub struct Word5 {
    /// The ionosphere's first term; [`Scaled::ai0`] times 2^2.
    pub ai0: u32,
    /// The ionosphere's second term; [`Scaled::ai1`] times 2^8.
    pub ai1: i32,
    /// The ionosphere's third term; [`Scaled::ai2`] times 2^15.
    pub ai2: i32,
    /// Whether the ionosphere is disturbed in region 1: 0 or 1.
    pub region1: u32,
    /// The same for region 2.
    pub region2: u32,
    /// The same for region 3.
    pub region3: u32,
    /// The same for region 4.
    pub region4: u32,
    /// The same for region 5.
    pub region5: u32,
    /// Broadcast group delay between E1 and E5a; [`Scaled::bgd_e1_e5a`] times 2^32.
    pub bgd_e1_e5a: i32,
    /// Broadcast group delay between E1 and E5b; [`Scaled::bgd_e1_e5b`] times 2^32.
    pub bgd_e1_e5b: i32,
    /// The health of signal E5b, a code of 0 to 3.
    pub e5b_health: u32,
    /// The health of signal E1-B, a code of 0 to 3.
    pub e1b_health: u32,
    /// The validity of the data on E5b, a code of 0 or 1.
    pub e5b_validity: u32,
    /// The validity of the data on E1-B, a code of 0 or 1.
    pub e1b_validity: u32,
}

/// Word 6: GST to UTC, leap seconds.
#[derive(Clone, Copy, Debug, PartialEq, Eq, Hash)]
#[repr(C)]
pub struct Word6 {
    /// GST less UTC beside the leap seconds, at the reference time; [`ScaledTiming::a0`] times 2^30.
    pub a0: i32,
    /// The rate of that; [`ScaledTiming::a1`] times 2^50.
    pub a1: i32,
    /// The leap seconds before the change that is announced, in s.
    pub dt_ls: i32,
    /// The reference time, in units of 3600 s.
    pub t0t: u32,
    /// The reference week, modulo 256.
    pub wn0t: u32,
    /// The week of the change, modulo 256.
    pub wn_lsf: u32,
    /// The day of that week at whose end the change comes, 1 to 7; 0 is not refused.
    pub dn: u32,
    /// The leap seconds after the change, in s.
    pub dt_lsf: i32,
}

/// The end of word 10: GST to GPS time.
#[derive(Clone, Copy, Debug, PartialEq, Eq, Hash)]
#[repr(C)]
pub struct Word10 {
    /// GST less GPS time, at the reference time; [`ScaledTiming::a0g`] times 2^35.
    pub a0g: i32,
    /// The rate of that; [`ScaledTiming::a1g`] times 2^51.
    pub a1g: i32,
    /// The reference time, in units of 3600 s.
    pub t0g: u32,
    /// The reference week, modulo 64.
    pub wn0g: u32,
}

/// The fields of an orbit that are scaled by a power of two: each whole number times 2^-k, exactly. Of 0 it is plus zero. Angles are in
/// semicircles, as they are sent, but their harmonic corrections in radians.
#[derive(Clone, Copy, Debug, PartialEq)]
#[repr(C)]
pub struct Scaled {
    /// Semicircles.
    pub m0: f64,
    /// A number without unit.
    pub e: f64,
    /// m^(1/2).
    pub root_a: f64,
    /// Semicircles.
    pub omega0: f64,
    /// Semicircles.
    pub i0: f64,
    /// Semicircles.
    pub omega: f64,
    /// Semicircles/s.
    pub i_dot: f64,
    /// Semicircles/s.
    pub omega_dot: f64,
    /// Semicircles/s.
    pub delta_n: f64,
    /// rad.
    pub cuc: f64,
    /// rad.
    pub cus: f64,
    /// m.
    pub crc: f64,
    /// m.
    pub crs: f64,
    /// rad.
    pub cic: f64,
    /// rad.
    pub cis: f64,
    /// s.
    pub af0: f64,
    /// s/s.
    pub af1: f64,
    /// s/s^2.
    pub af2: f64,
    /// sfu.
    pub ai0: f64,
    /// sfu/degree.
    pub ai1: f64,
    /// sfu/degree^2.
    pub ai2: f64,
    /// s.
    pub bgd_e1_e5a: f64,
    /// s.
    pub bgd_e1_e5b: f64,
}

/// The scaled fields of timing parameters, as [`Scaled`] has those of an orbit.
#[derive(Clone, Copy, Debug, PartialEq)]
#[repr(C)]
pub struct ScaledTiming {
    /// s.
    pub a0: f64,
    /// s/s.
    pub a1: f64,
    /// s.
    pub a0g: f64,
    /// s/s.
    pub a1g: f64,
}

/// Authenticated ephemeris, clock and status of a satellite as numbers, by the words that they came in.
#[derive(Clone, Copy, Debug, PartialEq)]
pub struct Orbit {
    /// The length in bits of all the tags that authenticate the data, held at [`crate::MOST_COUNT`].
    pub authbits: u16,
    /// The start of the subframe in which the latest word of the data came.
    pub gst: Gst,
    pub word1: Word1,
    pub word2: Word2,
    pub word3: Word3,
    pub word4: Word4,
    pub word5: Word5,
    pub scaled: Scaled,
}

/// Authenticated timing parameters of a satellite as numbers, by the words that they came in.
#[derive(Clone, Copy, Debug, PartialEq)]
pub struct TimingNumbers {
    /// The length in bits of all the tags that authenticate the data, held at [`crate::MOST_COUNT`].
    pub authbits: u16,
    /// The start of the subframe in which the latest word of the data came.
    pub gst: Gst,
    pub word6: Word6,
    pub word10: Word10,
    pub scaled: ScaledTiming,
}

impl Orbit {
    pub(crate) fn of(read: sys::Orbit) -> Result<Orbit, Refusal> {
        Refusal::check(read.number)?;
        let sys::Orbit { authbits, week, time, word1, word2, word3, word4, word5, scaled, .. } = read;
        Ok(Orbit { authbits, gst: Gst::of(week, time)?, word1, word2, word3, word4, word5, scaled })
    }
}

impl TimingNumbers {
    pub(crate) fn of(read: sys::Timing) -> Result<TimingNumbers, Refusal> {
        Refusal::check(read.number)?;
        let sys::Timing { authbits, week, time, word6, word10, scaled, .. } = read;
        Ok(TimingNumbers { authbits, gst: Gst::of(week, time)?, word6, word10, scaled })
    }
}
