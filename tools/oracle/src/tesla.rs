//! Stands in for the repository's `tesla`: a key that gives the verdict it was made with and notes what it was asked.

use crate::bitfields::NmaStatus;
use crate::types::BitSlice;
use crate::{Gst, Svn};
use std::cell::RefCell;
use std::marker::PhantomData;

/// What the key was asked about the one tag that it watches.
#[derive(Debug, Clone, Eq, PartialEq)]
pub enum Asked {
    Nothing,
    /// A dummy tag, over this many bits.
    Dummy(usize),
    /// A tag over these bits, given as bytes from the top bit down and the number of bits.
    Data(Vec<u8>, usize),
}

/// A key whose verdict is given. `watched` is the number of the tag that is meant, 0 or 1: where tag 1 is, tag 0 is a filler
/// that the key says no to and notes nothing of.
#[derive(Debug)]
pub struct Key<V> {
    verdict: bool,
    watched: u8,
    asked: RefCell<Asked>,
    validated: PhantomData<V>,
}

impl<V> Key<V> {
    pub fn new(verdict: bool, watched: u8) -> Self {
        Key {
            verdict,
            watched,
            asked: RefCell::new(Asked::Nothing),
            validated: PhantomData,
        }
    }

    pub fn asked(&self) -> Asked {
        self.asked.borrow().clone()
    }

    fn note(&self, tag: u8, asked: impl FnOnce() -> Asked) -> bool {
        if tag != self.watched {
            return false;
        }
        // Each tag is put to the key once; a second time would make the verdict's meaning unclear.
        assert!(self.asked.replace(asked()) == Asked::Nothing);
        self.verdict
    }

    #[allow(clippy::too_many_arguments)]
    pub fn validate_tag(
        &self,
        _tag: &BitSlice,
        _tag_gst: Gst,
        _prnd: u8,
        _prna: Svn,
        ctr: u8,
        _nma_status: NmaStatus,
        navdata: &BitSlice,
    ) -> bool {
        self.note(ctr - 1, || {
            Asked::Data(crate::bytes_of(navdata), navdata.len())
        })
    }

    #[allow(clippy::too_many_arguments)]
    pub fn validate_tag_dummy(
        &self,
        _tag: &BitSlice,
        _tag_gst: Gst,
        _prnd: u8,
        _prna: Svn,
        ctr: u8,
        _nma_status: NmaStatus,
        navdata_len_bits: usize,
    ) -> bool {
        self.note(ctr - 1, || Asked::Dummy(navdata_len_bits))
    }

    pub fn validate_tag0(
        &self,
        _tag0: &BitSlice,
        _tag_gst: Gst,
        _prna: Svn,
        _nma_status: NmaStatus,
        navdata: &BitSlice,
    ) -> bool {
        self.note(0, || Asked::Data(crate::bytes_of(navdata), navdata.len()))
    }

    pub fn validate_tag0_dummy(
        &self,
        _tag0: &BitSlice,
        _tag_gst: Gst,
        _prna: Svn,
        _nma_status: NmaStatus,
        navdata_len_bits: usize,
    ) -> bool {
        self.note(0, || Asked::Dummy(navdata_len_bits))
    }
}
