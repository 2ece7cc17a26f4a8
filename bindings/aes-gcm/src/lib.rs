#![doc = include_str!("../README.md")]
#![no_std]
#![warn(missing_docs)]
#![forbid(unsafe_code)]

pub use deerlapse_aead::{Aes128Gcm, Aes256Gcm};

#[cfg(feature = "aes")]
pub use others::aes;
pub use others::{
    aead, AeadCore, AeadInPlace, AesGcm, Error, Key, KeyInit, KeySizeUser, Nonce, Tag, TagSize,
    A_MAX, C_MAX, P_MAX,
};
