// Written by tools/rust from crates/quic_packets/specs/FixedBit.antt. Don't edit.
//! The fixed bit of a header (RFC 9000 sections 17.2 and 17.3.1), which RFC 9287 calls the QUIC bit.
//!
//! The definitions of `crates/quic_packets/specs/FixedBit.antt` of the repository.
//!
//! <div id="has_fixed_bit"></div>
//!
//! ```text
//! -- A short header, which has no version, and a long header of version 1 or 2 have the fixed bit.
//! abbrev pub has_fixed_bit : (version : Option ℕ) → Bool
//! has_fixed_bit None = true
//! has_fixed_bit (Some version) = is_some (numbered_version version)
//! ```
//!
//! Definitions: [`numbered_version`](key_derivation::specs::quic#numbered_version).
//!
//! <div id="lacks_fixed_bit"></div>
//!
//! ```text
//! -- The fixed bit must be 1, and is 0 in the first byte.
//! abbrev pub lacks_fixed_bit : FixedBit → (version : Option ℕ) → (first : ℕ) → Bool
//! lacks_fixed_bit Required version first = has_fixed_bit version && first / 2 ^ 6 % 2 == 0
//! lacks_fixed_bit Greased version first = false
//! ```
//!
//! Definitions: [`has_fixed_bit`](crate::specs::fixed_bit#has_fixed_bit).
