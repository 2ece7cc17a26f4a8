// Written by tools/rust from crates/quic_packets/specs/Versions.antt. Don't edit.
//! The parts of a long header that depend on its version: the type bits, and the version number (RFC 9000 section 17.2, RFC 9369
//! sections 3.1 and 3.2).
//!
//! The definitions of `crates/quic_packets/specs/Versions.antt` of the repository.
//!
//! <div id="type_bits"></div>
//!
//! ```text
//! -- the type bits of each type (RFC 9000 section 17.2, table 5, RFC 9369 section 3.2)
//! abbrev pub type_bits : Version → TypeBits
//! type_bits One = record { initial = 0; zero_rtt = 1; handshake = 2; retry = 3 }
//! type_bits Two = record { initial = 1; zero_rtt = 2; handshake = 3; retry = 0 }
//! ```
//!
//! <div id="type_of"></div>
//!
//! ```text
//! -- The packet type that these type bits have in this version.
//! abbrev pub type_of : Version → (bits : ℕ) → PacketType
//! type_of version bits =
//!     let types = type_bits version in
//!     if bits == types.initial then Initial else if bits == types.zero_rtt then ZeroRtt
//!     else if bits == types.handshake then Handshake else Retry
//! ```
//!
//! Definitions: [`type_bits`](crate::specs::versions#type_bits).
//!
//! <div id="bits_of"></div>
//!
//! ```text
//! -- the type bits of a first byte: bits 4 and 5 (RFC 9000 section 17.2)
//! abbrev pub bits_of : (first : ℕ) → ℕ
//! bits_of first = first / 2 ^ 4 % 4
//! ```
//!
//! <div id="is_other_version"></div>
//!
//! ```text
//! -- The header has the number of another version. A short header has no version number (RFC 8999 section 5).
//! abbrev pub is_other_version : Version → (number : Option ℕ) → Bool
//! is_other_version version None = false
//! is_other_version version (Some number) = not (number == version_number version)
//! ```
//!
//! Definitions: [`version_number`](key_derivation::specs::quic#version_number).
