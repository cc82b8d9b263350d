//! The unchanged Rust files that make the message under a tag, as one crate, beside stand-ins for what else they name.
#![allow(dead_code)]

// Every crate of cryptography that the files name is this one.
extern crate self as aes;
extern crate self as cmac;
extern crate self as crypto_common;
extern crate self as ecdsa;
extern crate self as hmac;
extern crate self as p256;
extern crate self as sha2;
extern crate self as sha3;
extern crate self as signature;

pub mod bitfields;
mod gst;
mod maclt;
mod standins;
mod svn;
pub mod tesla;
pub mod types;
pub mod validation;

pub use gst::{Gst, Tow, Wn};
pub use standins::*;
pub use svn::Svn;
