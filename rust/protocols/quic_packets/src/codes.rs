// Written by tools/rust from crates/quic_packets/src/codes.rt. Don't edit.
//! The codes of the transport errors that close a connection (RFC 9000 section 20.1, RFC 9001 sections 6.2, 6.4 and 6.6).

pub(crate) const PROTOCOL_VIOLATION: u64 = 0x0a;

pub(crate) const KEY_UPDATE_ERROR: u64 = 0x0e;

pub(crate) const AEAD_LIMIT_REACHED: u64 = 0x0f;
