// Written by tools/rust from crates/quic_packets/src/keys.rt. Don't edit.
//! The keys of one direction, which derive from a secret or come from the caller (RFC 9001 section 5.1).

use crate::header::HeaderKey;
use crate::key::PacketKey;
use crate::suite::{algorithm, header_algorithm};
use aead_ciphers::aead::NONCE_LEN;
use key_derivation::Suite;
use key_derivation::quic::{QuicSecret, Version};

/// The keys of one direction that the caller has derived. The names are those of RFC 9001 section 5.1 and RFC 9369 section
/// 3.3.2.
#[derive(Clone, Copy)]
pub struct Keys<'a> {
    /// The version of the packets.
    pub version: Version,
    /// The packet key, of 16 or 32 bytes: `quic key`, or `quicv2 key` of version 2.
    pub key: &'a [u8],
    /// The IV: `quic iv`, or `quicv2 iv`.
    pub iv: [u8; NONCE_LEN],
    /// The key that masks headers, of 16 or 32 bytes: `quic hp`, or `quicv2 hp`.
    pub header_key: &'a [u8],
}

/// Returns the packet key and the header key of a secret, both derived with one HMAC key.
// ensures packet { result.0 ≡ secret_key secret.now }
// ensures header { result.1 ≡ secret_header_key secret.now }
pub(crate) fn keys_of(secret: &QuicSecret) -> (PacketKey, HeaderKey) {
    let suite = secret.suite();
    let keys = secret.keys();
    (
        packet_key(suite, keys.key.as_slice(), keys.iv),
        header_key(suite, keys.header_key.as_slice()),
    )
}

/// Returns the packet key of a suite with these bytes.
// requires { length key.now ≡ suite_key_len suite }
// ensures { result ≡ packet_key suite key.now iv }
pub(crate) fn packet_key(suite: Suite, key: &[u8], iv: [u8; NONCE_LEN]) -> PacketKey {
    let Ok(key) = PacketKey::new(algorithm(suite), key, iv) else {
        unreachable!();
    };
    key
}

/// Returns the header key of a suite with these bytes.
// requires { length key.now ≡ suite_key_len suite }
// ensures { result ≡ header_key suite key.now }
pub(crate) fn header_key(suite: Suite, key: &[u8]) -> HeaderKey {
    let Ok(key) = HeaderKey::new(header_algorithm(suite), key) else {
        unreachable!();
    };
    key
}
