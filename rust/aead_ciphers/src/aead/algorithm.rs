// Written by tools/rust from crates/aead_ciphers/src/aead/algorithm.rt. Don't edit.
//! The AEAD algorithms, and the lengths of their keys, nonces and tags.

use aead_ciphers_base::aes::{AES_128_KEY_LEN, AES_256_KEY_LEN, KeyBytes};
use aead_ciphers_base::error::Unspecified;
use aead_ciphers_base::values::{MAX_TAG_LEN, NONCE_LEN};
use core::fmt;

/// An AEAD algorithm: `AES_128_GCM` or `AES_256_GCM`. Two values are equal if they are the same algorithm.
#[derive(Clone, Copy, PartialEq, Eq)]
pub struct Algorithm {
    id: AlgorithmId,
}

#[allow(non_camel_case_types)]
#[derive(Clone, Copy, PartialEq, Eq)]
enum AlgorithmId {
    AES_128_GCM,
    AES_256_GCM,
}

/// AES-128 in Galois/Counter Mode (SP 800-38D), with 16-byte keys, 12-byte nonces and 16-byte tags.
pub const AES_128_GCM: Algorithm = Algorithm {
    id: AlgorithmId::AES_128_GCM,
};

/// AES-256 in Galois/Counter Mode (SP 800-38D), with 32-byte keys, 12-byte nonces and 16-byte tags.
pub const AES_256_GCM: Algorithm = Algorithm {
    id: AlgorithmId::AES_256_GCM,
};

impl Algorithm {
    /// Returns the length of a key in bytes: 16 for `AES_128_GCM`, 32 for `AES_256_GCM`.
    ///
    /// <details><summary>Contract</summary>
    ///
    /// ```text
    /// ensures len { result ≡ key_len self.now }
    /// ensures aes_128_gcm { self.now ≡ AES_128_GCM → result ≡ 16 }
    /// ensures aes_256_gcm { self.now ≡ AES_256_GCM → result ≡ 32 }
    /// ```
    ///
    /// Definitions: [`key_len`](crate::specs::algorithm#key_len).
    ///
    /// </details>
    pub fn key_len(&self) -> usize {
        match self.id {
            AlgorithmId::AES_128_GCM => AES_128_KEY_LEN,
            AlgorithmId::AES_256_GCM => AES_256_KEY_LEN,
        }
    }

    /// Returns the length of a tag in bytes, which is 16.
    ///
    /// <details><summary>Contract</summary>
    ///
    /// ```text
    /// ensures { result ≡ tag_len }
    /// ```
    ///
    /// Definitions: [`tag_len`](crate::specs::gcm#tag_len).
    ///
    /// </details>
    pub fn tag_len(&self) -> usize {
        MAX_TAG_LEN
    }

    /// Returns the length of a nonce in bytes, which is 12.
    ///
    /// <details><summary>Contract</summary>
    ///
    /// ```text
    /// ensures { result ≡ 12 }
    /// ```
    ///
    /// </details>
    pub fn nonce_len(&self) -> usize {
        NONCE_LEN
    }

    /// Borrows `bytes` as a key of this algorithm. Fails with `Unspecified` if it is not `key_len` bytes long.
    ///
    /// <details><summary>Contract</summary>
    ///
    /// ```text
    /// ensures accepted { IsOk result ↔ (length bytes.now ≡ key_len self.now) }
    /// ensures bytes { IfOk result (λ key. key_bytes key ≡ bytes.now) }
    /// ```
    ///
    /// Definitions: [`key_len`](crate::specs::algorithm#key_len),
    /// [`key_bytes`](aead_ciphers_base::specs::key_bytes#key_bytes).
    ///
    /// </details>
    pub fn key_bytes<'a>(&self, bytes: &'a [u8]) -> Result<KeyBytes<'a>, Unspecified> {
        if bytes.len() != self.key_len() {
            return Err(Unspecified);
        }
        KeyBytes::from_slice(bytes)
    }
}

/// <details><summary>Ghost items</summary>
///
/// ```text
/// // `Some` of what `{:?}` prints.
/// ghost debug_output = { λ algorithm. Some (debug_text algorithm) };
/// ```
///
/// Definitions: [`debug_text`](crate::specs::algorithm#debug_text).
///
/// </details>
impl fmt::Debug for Algorithm {
    fn fmt(&self, f: &mut fmt::Formatter<'_>) -> fmt::Result {
        match self.id {
            AlgorithmId::AES_128_GCM => write!(f, "AES_128_GCM"),
            AlgorithmId::AES_256_GCM => write!(f, "AES_256_GCM"),
        }
    }
}
