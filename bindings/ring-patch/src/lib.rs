#![doc = include_str!("../README.md")]
#![no_std]
#![forbid(unsafe_code)]
#![allow(deprecated)] // `test` and `constant_time` of ring are

mod cipher;
mod derived;
#[path = "../../ring/src/aead/mod.rs"]
mod shared;

/// `ring::aead`, of `deerlapse` but for ChaCha20-Poly1305.
pub mod aead {
    pub use crate::cipher::CHACHA20_POLY1305;
    pub use crate::shared::*;
    pub use others::aead::chacha20_poly1305_openssh;
}

#[cfg(feature = "alloc")]
pub use others::rsa;
pub use others::{
    agreement, constant_time, digest, error, hkdf, hmac, io, pbkdf2, pkcs8, rand, signature, test,
    test_file,
};
