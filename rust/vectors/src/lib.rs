//! What the tests of the packages share: a plain model of the ciphers, which computes one bit or byte at a time, words in hex, and
//! a source of drawn bytes.

#![forbid(unsafe_code)]

pub mod drawn;
pub mod hex;
pub mod levels;
pub mod model;
