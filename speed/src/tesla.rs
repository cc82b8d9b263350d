//! Stands in for the repository's `tesla`: a key that gives the verdict it was made with, and notes that it was asked.

use crate::bitfields::NmaStatus;
use crate::types::BitSlice;
use crate::{Gst, Svn};
use core::cell::Cell;
use core::marker::PhantomData;

#[derive(Debug)]
pub struct Key<V> {
    verdict: bool,
    asked: Cell<u8>,
    validated: PhantomData<V>,
}

impl<V> Key<V> {
    pub fn new(verdict: bool) -> Self {
        Key { verdict, asked: Cell::new(0), validated: PhantomData }
    }

    /// How many tags that are no dummies the key was asked about.
    pub fn asked(&self) -> u8 {
        self.asked.get()
    }

    fn note(&self, navdata: &BitSlice) -> bool {
        core::hint::black_box(navdata);
        self.asked.set(self.asked.get() + 1);
        self.verdict
    }

    #[allow(clippy::too_many_arguments)]
    pub fn validate_tag(&self, _: &BitSlice, _: Gst, _: u8, _: Svn, _: u8, _: NmaStatus, navdata: &BitSlice) -> bool {
        self.note(navdata)
    }

    #[allow(clippy::too_many_arguments)]
    pub fn validate_tag_dummy(&self, _: &BitSlice, _: Gst, _: u8, _: Svn, _: u8, _: NmaStatus, _: usize) -> bool {
        false
    }

    pub fn validate_tag0(&self, _: &BitSlice, _: Gst, _: Svn, _: NmaStatus, navdata: &BitSlice) -> bool {
        self.note(navdata)
    }

    pub fn validate_tag0_dummy(&self, _: &BitSlice, _: Gst, _: Svn, _: NmaStatus, _: usize) -> bool {
        false
    }
}
