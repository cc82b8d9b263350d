//! The unchanged Rust files as one crate, beside stand-ins for the two that they lean on and that are not wanted here.
#![allow(dead_code)]

// types.rs names the type of a public key of a crate that nothing here needs.
extern crate self as p256;
pub mod ecdsa {
    #[derive(Debug, Clone)]
    pub struct VerifyingKey;
}

pub mod bitfields;
mod gst;
pub mod navmessage;
pub mod sizes;
mod state;
pub mod storage;
mod svn;
pub mod tesla;
pub mod types;
pub mod validation;

pub use gst::Gst;
pub use svn::Svn;

use bitvec::field::BitField;

/// The bits as bytes from the top bit down, zeros behind the last.
pub fn bytes_of(bits: &types::BitSlice) -> Vec<u8> {
    bits.chunks(8)
        .map(|byte| byte.load_be::<u8>() << (8 - byte.len()))
        .collect()
}
