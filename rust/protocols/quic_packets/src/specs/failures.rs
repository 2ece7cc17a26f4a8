// Written by tools/rust from crates/quic_packets/specs/Failures.antt. Don't edit.
//! Packets that fail authentication (RFC 9001 section 6.6).
//!
//! The definitions of `crates/quic_packets/specs/Failures.antt` of the repository.
//!
//! <div id="Failures"></div>
//!
//! ```text
//! -- The number of packets that have failed authentication, over all keys of a connection, and the limit from which on every
//! -- packet is rejected.
//! pub record Failures : Type 0 where
//!   pub count : ℕ
//!   pub limit : ℕ
//! ```
