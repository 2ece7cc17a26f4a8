// Written by tools/rust from crates/quic_packets/specs/Suite.antt. Don't edit.
//! The algorithms of a suite, for payloads and for headers (RFC 9001 sections 5.3 and 5.4.3).
//!
//! The definitions of `crates/quic_packets/specs/Suite.antt` of the repository.
//!
//! <div id="algorithm"></div>
//!
//! ```text
//! -- the algorithm of the payload
//! abbrev pub algorithm : Suite → Algorithm
//! algorithm Aes128Gcm = AES_128_GCM
//! algorithm Aes256Gcm = AES_256_GCM
//! ```
//!
//! <div id="header_algorithm"></div>
//!
//! ```text
//! -- the algorithm of the header
//! abbrev pub header_algorithm : Suite → HeaderAlgorithm
//! header_algorithm Aes128Gcm = AES_128
//! header_algorithm Aes256Gcm = AES_256
//! ```
