// Written by tools/rust from crates/quic_packets/src/fixed_bit.rt. Don't edit.
//! The fixed bit of a header, and whether it must be 1 (RFC 9000 sections 17.2 and 17.3.1, RFC 9287).

use crate::first_byte::FIXED_BIT;
use key_derivation::quic::Version;

/// What the fixed bit of a packet must be: bit 0x40 of the first byte, in short headers and in long ones of version 1 or 2 (RFC
/// 9000 sections 17.2 and 17.3.1, RFC 9369 section 3).
#[derive(Clone, Copy, PartialEq, Eq, Debug)]
pub enum FixedBit {
    /// It must be 1.
    Required,
    /// It may be 0, because the endpoint that receives the packet has sent the transport parameter `grease_quic_bit` (RFC 9287
    /// section 3).
    Greased,
}

impl FixedBit {
    /// Returns whether the fixed bit must be 1 and is 0 in this first byte. `version` is that of a long header, and `None` for
    /// a short one. A long header of an unknown version has no fixed bit.
    // ensures { result ≡ lacks_fixed_bit self version first }
    pub(crate) fn is_lacking(self, version: Option<u32>, first: u8) -> bool {
        match self {
            FixedBit::Required => has_fixed_bit(version) && first & FIXED_BIT == 0,
            FixedBit::Greased => false,
        }
    }
}

/// Returns whether a long header of this version has a fixed bit. A short header, for which `version` is `None`, always has
/// one.
// ensures { result ≡ has_fixed_bit version }
fn has_fixed_bit(version: Option<u32>) -> bool {
    match version {
        Some(number) => Version::from_number(number).is_some(),
        None => true,
    }
}
