// Written by tools/rust from crates/quic_packets/src/versions.rt. Don't edit.
//! The parts of a long header that depend on its version: the type bits, and the version number (RFC 9000 section 17.2, RFC
//! 9369 sections 3.1 and 3.2).

use crate::datagram::PacketType;
use crate::first_byte::{LONG_TYPE_BITS, LONG_TYPE_SHIFT};
use key_derivation::quic::Version;

/// The type bits of each packet type with a long header, in one version.
#[derive(Clone, Copy)]
pub(crate) struct TypeBits {
    pub(crate) initial: u8,
    pub(crate) zero_rtt: u8,
    pub(crate) handshake: u8,
    pub(crate) retry: u8,
}

/// Returns the type bits of each packet type in this version (RFC 9000 section 17.2, table 5, RFC 9369 section 3.2).
// ensures bits { result ≡ type_bits version }
// ensures few { (result.initial < 4) × (result.zero_rtt < 4) × (result.handshake < 4) × (result.retry < 4) }
pub(crate) fn type_bits(version: Version) -> TypeBits {
    match version {
        Version::One => TypeBits {
            initial: 0,
            zero_rtt: 1,
            handshake: 2,
            retry: 3,
        },
        Version::Two => TypeBits {
            initial: 1,
            zero_rtt: 2,
            handshake: 3,
            retry: 0,
        },
    }
}

/// Returns the packet type that these type bits have in this version.
// ensures { result ≡ type_of version bits }
pub(crate) fn type_of(version: Version, bits: u8) -> PacketType {
    let types = type_bits(version);
    if bits == types.initial {
        PacketType::Initial
    } else if bits == types.zero_rtt {
        PacketType::ZeroRtt
    } else if bits == types.handshake {
        PacketType::Handshake
    } else {
        PacketType::Retry
    }
}

/// Returns the type bits of a long header's first byte.
// ensures { result ≡ bits_of first }
pub(crate) fn bits_of(first: u8) -> u8 {
    (first & LONG_TYPE_BITS) >> LONG_TYPE_SHIFT
}

/// Returns whether `number`, the version number of a packet's header, is that of another version. A short header has none,
/// which is `None`.
// ensures { result ≡ is_other_version version number }
pub(crate) fn is_other_version(version: Version, number: Option<u32>) -> bool {
    match number {
        Some(number) => number != version.number(),
        None => false,
    }
}
