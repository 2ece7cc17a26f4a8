// Written by tools/rust from crates/quic_packets/src/first_byte.rt. Don't edit.
//! The bits of a header's first byte, by name (RFC 9000 sections 17.2 and 17.3.1).

/// The bit that is 1 in a long header and 0 in a short one (RFC 8999 section 5).
pub(crate) const LONG_HEADER_FORM: u8 = 0x80;

/// The fixed bit (RFC 9000 sections 17.2 and 17.3.1).
pub(crate) const FIXED_BIT: u8 = 0x40;

/// The bits that hold the packet type of a long header (RFC 9000 section 17.2).
pub(crate) const LONG_TYPE_BITS: u8 = 0x30;

/// The number of bits below the type bits.
pub(crate) const LONG_TYPE_SHIFT: u32 = 4;

/// The reserved bits of a long header (RFC 9000 section 17.2).
pub(crate) const LONG_RESERVED_BITS: u8 = 0x0c;

/// The reserved bits of a short header (RFC 9000 section 17.3.1).
pub(crate) const SHORT_RESERVED_BITS: u8 = 0x18;

/// The Key Phase bit of a short header (RFC 9000 section 17.3.1).
pub(crate) const KEY_PHASE_BIT: u8 = 0x04;

/// The bits that hold the length of the packet number, less one (RFC 9000 sections 17.2 and 17.3.1).
pub(crate) const NUMBER_LEN_BITS: u8 = 0x03;

/// The bits that header protection masks in a long header (RFC 9001 section 5.4.1).
pub(crate) const LONG_MASKED_BITS: u8 = LONG_RESERVED_BITS | NUMBER_LEN_BITS;

/// The bits that header protection masks in a short header (RFC 9001 section 5.4.1).
pub(crate) const SHORT_MASKED_BITS: u8 = SHORT_RESERVED_BITS | KEY_PHASE_BIT | NUMBER_LEN_BITS;

/// Returns whether this is the first byte of a long header.
// ensures { result ≡ is_long first }
pub(crate) fn is_long(first: u8) -> bool {
    first & LONG_HEADER_FORM != 0
}
