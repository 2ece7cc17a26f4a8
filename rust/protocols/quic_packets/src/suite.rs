// Written by tools/rust from crates/quic_packets/src/suite.rt. Don't edit.
//! The algorithms of a suite, for payloads and headers (RFC 9001 sections 5.3 and 5.4.3).

use aead_ciphers::aead::{AES_128_GCM, AES_256_GCM, Algorithm, quic};
use key_derivation::Suite;

/// Returns the algorithm of a suite for payloads (RFC 9001 section 5.3): AES-GCM, with a key of 16 or 32 bytes. `PacketKey::new`
/// takes it.
///
/// <details><summary>Contract</summary>
///
/// ```text
/// ensures { result.now ≡ algorithm suite }
/// ```
///
/// Definitions: [`algorithm`](crate::specs::suite#algorithm).
///
/// </details>
pub fn algorithm(suite: Suite) -> &'static Algorithm {
    match suite {
        Suite::Aes128Gcm => &AES_128_GCM,
        Suite::Aes256Gcm => &AES_256_GCM,
    }
}

/// Returns the algorithm of a suite for headers (RFC 9001 section 5.4.3): AES, with a key as long as that for payloads.
/// `HeaderKey::new` takes it.
///
/// <details><summary>Contract</summary>
///
/// ```text
/// ensures { result.now ≡ header_algorithm suite }
/// ```
///
/// Definitions: [`header_algorithm`](crate::specs::suite#header_algorithm).
///
/// </details>
pub fn header_algorithm(suite: Suite) -> &'static quic::Algorithm {
    match suite {
        Suite::Aes128Gcm => &quic::AES_128,
        Suite::Aes256Gcm => &quic::AES_256,
    }
}
