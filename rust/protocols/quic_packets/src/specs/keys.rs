// Written by tools/rust from crates/quic_packets/specs/Keys.antt. Don't edit.
//! The packet protection keys and header protection keys that contracts speak of, and those of a secret.
//!
//! The definitions of `crates/quic_packets/specs/Keys.antt` of the repository.
//!
//! <div id="PacketKey"></div>
//!
//! ```text
//! -- a packet protection key: its algorithm, its bytes and its IV (RFC 9001 section 5.1)
//! pub record PacketKey : Type 0 where
//!   pub algorithm : Algorithm
//!   pub bytes : List ℕ
//!   pub iv : List ℕ
//! ```
//!
//! <div id="packet_key"></div>
//!
//! ```text
//! -- a packet key and a header key of a suite, by their bytes
//! abbrev pub packet_key : Suite → (key iv : List ℕ) → PacketKey
//! packet_key suite key iv = record { algorithm = algorithm suite; bytes = key; iv = iv }
//! ```
//!
//! Definitions: [`PacketKey`](crate::specs::keys#PacketKey).
//!
//! <div id="header_key"></div>
//!
//! ```text
//! abbrev pub header_key : Suite → List ℕ → HeaderKey
//! header_key suite bytes = record { algorithm = header_algorithm suite; bytes = bytes }
//! ```
//!
//! Definitions: [`HeaderKey`](aead_ciphers::specs::header_protection#HeaderKey),
//! [`header_algorithm`](crate::specs::suite#header_algorithm).
//!
//! <div id="secret_key"></div>
//!
//! ```text
//! -- the packet key and the header key of a secret (RFC 9001 section 5.1)
//! unfoldable pub secret_key : QuicSecretState → PacketKey
//! secret_key s = packet_key s.secret.suite (quic_key s) (quic_iv s)
//! ```
//!
//! Definitions: [`QuicSecretState`](key_derivation::specs::quic#QuicSecretState),
//! [`PacketKey`](crate::specs::keys#PacketKey), [`packet_key`](crate::specs::keys#packet_key),
//! [`quic_key`](key_derivation::specs::quic#quic_key), [`quic_iv`](key_derivation::specs::quic#quic_iv).
//!
//! <div id="secret_header_key"></div>
//!
//! ```text
//! unfoldable pub secret_header_key : QuicSecretState → HeaderKey
//! secret_header_key s = header_key s.secret.suite (quic_header_key s)
//! ```
//!
//! Definitions: [`QuicSecretState`](key_derivation::specs::quic#QuicSecretState),
//! [`HeaderKey`](aead_ciphers::specs::header_protection#HeaderKey), [`header_key`](crate::specs::keys#header_key),
//! [`quic_header_key`](key_derivation::specs::quic#quic_header_key).
