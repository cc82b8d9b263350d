//! Stand-ins for the crates of cryptography and for the public key: the names and signatures that the files use, and no cryptography.
//!
//! A MAC notes the bytes that it is given, and its value is zeros. Nothing here asks for a hash or a signature, so those panic.

use digest::{FixedOutput, InvalidLength, Output, OutputSizeUser, Update};
use std::cell::RefCell;
use std::marker::PhantomData;
use typenum::{U16, U32, U64};

thread_local! {
    static NOTED: RefCell<Vec<u8>> = const { RefCell::new(Vec::new()) };
}

/// What the MACs were given since this was last called.
pub fn noted() -> Vec<u8> {
    NOTED.take()
}

/// The bound of generic-array 0.14, on version 1.
pub mod generic_array {
    pub use ::generic_array::GenericArray;

    pub trait ArrayLength<T>: ::generic_array::ArrayLength {}

    impl<T, N: ::generic_array::ArrayLength> ArrayLength<T> for N {}
}

pub mod digest {
    use ::generic_array::{ArrayLength, GenericArray};

    pub trait OutputSizeUser {
        type OutputSize: ArrayLength;
    }

    pub type Output<T> = GenericArray<u8, <T as OutputSizeUser>::OutputSize>;

    pub trait Update {
        fn update(&mut self, data: &[u8]);
    }

    pub trait FixedOutput: Update + OutputSizeUser + Sized {
        fn finalize_into(self, out: &mut Output<Self>);
    }

    #[derive(Debug)]
    pub struct InvalidLength;
}

/// The cipher of a CMAC.
#[derive(Debug)]
pub struct Aes128;

pub trait Mac: Sized {
    fn new_from_slice(key: &[u8]) -> Result<Self, InvalidLength>;
}

macro_rules! mac {
    ($name:ident, $size:ident) => {
        #[derive(Debug)]
        pub struct $name<T>(PhantomData<T>);

        impl<T> Mac for $name<T> {
            fn new_from_slice(_key: &[u8]) -> Result<Self, InvalidLength> {
                Ok($name(PhantomData))
            }
        }

        impl<T> Update for $name<T> {
            fn update(&mut self, data: &[u8]) {
                NOTED.with_borrow_mut(|noted| noted.extend_from_slice(data));
            }
        }

        impl<T> OutputSizeUser for $name<T> {
            type OutputSize = $size;
        }

        impl<T> FixedOutput for $name<T> {
            fn finalize_into(self, out: &mut Output<Self>) {
                out.fill(0);
            }
        }
    };
}

mac!(Hmac, U32);
mac!(Cmac, U16);

pub trait Digest: OutputSizeUser + Sized {
    fn new() -> Self {
        unimplemented!()
    }

    fn update(&mut self, _data: impl AsRef<[u8]>) {
        unimplemented!()
    }

    fn finalize(self) -> Output<Self> {
        unimplemented!()
    }
}

macro_rules! hash {
    ($name:ident) => {
        #[derive(Debug)]
        pub struct $name;

        impl Digest for $name {}

        impl Update for $name {
            fn update(&mut self, _data: &[u8]) {
                unimplemented!()
            }
        }

        impl OutputSizeUser for $name {
            type OutputSize = U32;
        }

        impl FixedOutput for $name {
            fn finalize_into(self, _out: &mut Output<Self>) {
                unimplemented!()
            }
        }
    };
}

hash!(Sha256);
hash!(Sha3_256);

pub trait PrimeCurve {
    type Size;
}

pub struct NistP256;

impl PrimeCurve for NistP256 {
    type Size = U64;
}

pub type SignatureSize<C> = <C as PrimeCurve>::Size;

pub struct Signature<C>(PhantomData<C>);

impl<C> Signature<C> {
    pub fn from_bytes(_bytes: &[u8]) -> Result<Self, ()> {
        unimplemented!()
    }
}

pub trait Verifier<S> {
    fn verify(&self, message: &[u8], signature: &S) -> Result<(), ()>;
}

/// The verifying key of p256.
#[derive(Debug, Clone)]
pub struct VerifyingKey;

impl Verifier<Signature<NistP256>> for VerifyingKey {
    fn verify(&self, _message: &[u8], _signature: &Signature<NistP256>) -> Result<(), ()> {
        unimplemented!()
    }
}

/// The public key of the repository's `merkle_tree`.
pub struct PublicKey<V>(PhantomData<V>);

impl<V> PublicKey<V> {
    pub fn verifying_key(&self) -> &crate::types::VerifyingKey {
        unimplemented!()
    }
}
