//! Stands in for the repository's `bitfields`: a MACK that holds the tags one wants, unparsed.
//!
//! The names and signatures are those that `navmessage.rs` uses; the values are given instead of cut out of a message.

use crate::types::BitSlice;

/// NMA status, in the order of its field's values 0 to 3.
#[derive(Debug, Clone, Copy, Eq, PartialEq)]
pub enum NmaStatus {
    Reserved,
    Test,
    Operational,
    DontUse,
}

/// What a tag authenticates.
#[derive(Debug, Clone, Copy, Eq, PartialEq)]
#[allow(dead_code)]
pub enum Adkd {
    InavCed,
    InavTiming,
    SlowMac,
    Reserved,
}

/// Whose data a tag authenticates.
#[derive(Debug, Clone, Copy)]
pub struct Prnd(pub u8);

impl TryFrom<Prnd> for u8 {
    type Error = ();
    fn try_from(value: Prnd) -> Result<u8, ()> {
        Ok(value.0)
    }
}

/// One tag of a MACK.
#[derive(Debug, Clone, Copy)]
pub struct Tag<'a> {
    pub tag: &'a BitSlice,
    pub prnd: Prnd,
    pub adkd: Adkd,
    pub cop: u8,
}

impl Tag<'_> {
    pub fn tag(&self) -> &BitSlice {
        self.tag
    }

    pub fn prnd(&self) -> Prnd {
        self.prnd
    }

    pub fn adkd(&self) -> Adkd {
        self.adkd
    }

    pub fn cop(&self) -> u8 {
        self.cop
    }
}

/// A MACK: its tag 0, and at most one tag behind it.
#[derive(Debug, Clone, Copy)]
pub struct Mack<'a, V> {
    pub tag0: Tag<'a>,
    pub tag1: Option<Tag<'a>>,
    pub validated: V,
}

impl<V> Mack<'_, V> {
    pub fn tag0(&self) -> &BitSlice {
        self.tag0.tag
    }

    pub fn cop(&self) -> u8 {
        self.tag0.cop
    }

    pub fn num_tags(&self) -> usize {
        1 + usize::from(self.tag1.is_some())
    }

    pub fn tag_and_info(&self, n: usize) -> Tag<'_> {
        assert!(n == 1);
        self.tag1.unwrap()
    }
}
