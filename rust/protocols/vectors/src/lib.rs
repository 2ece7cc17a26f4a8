//! What the tests of the packages share.

#![forbid(unsafe_code)]

pub mod files;
pub mod quic;
pub mod tls;
