// Written by tools/rust from crates/aead_ciphers/src/aead/quic.rt. Don't edit.
//! QUIC header protection (RFC 9001 section 5.4): masks for the headers of packets.

use aead_ciphers_base::aes::{AES_128_KEY_LEN, AES_256_KEY_LEN, KeyBytes};
use aead_ciphers_base::error::Unspecified;
pub use aead_ciphers_base::values::Sample;
use aead_ciphers_base::{aes, chacha};
use core::fmt;

const SAMPLE_LEN: usize = 16;

/// A header protection algorithm: `AES_128`, `AES_256` or `CHACHA20`. Two values are equal if they are the same
/// algorithm.
#[derive(Clone, Copy, PartialEq, Eq)]
pub struct Algorithm {
    id: AlgorithmId,
}

#[allow(non_camel_case_types)]
#[derive(Clone, Copy, PartialEq, Eq)]
enum AlgorithmId {
    AES_128,
    AES_256,
    CHACHA20,
}

/// Header protection by AES-128, with 16-byte keys (RFC 9001 section 5.4.3).
pub const AES_128: Algorithm = Algorithm {
    id: AlgorithmId::AES_128,
};

/// Header protection by AES-256, with 32-byte keys (RFC 9001 section 5.4.3).
pub const AES_256: Algorithm = Algorithm {
    id: AlgorithmId::AES_256,
};

/// Header protection by ChaCha20, with 32-byte keys (RFC 9001 section 5.4.4).
pub const CHACHA20: Algorithm = Algorithm {
    id: AlgorithmId::CHACHA20,
};

/// <details><summary>Ghost items</summary>
///
/// ```text
/// // `Some` of what `{:?}` prints.
/// ghost debug_output = { λ algorithm. Some (debug_text algorithm) };
/// ```
///
/// Definitions: [`debug_text`](crate::specs::header_protection#debug_text).
///
/// </details>
impl fmt::Debug for Algorithm {
    fn fmt(&self, f: &mut fmt::Formatter<'_>) -> fmt::Result {
        match self.id {
            AlgorithmId::AES_128 => write!(f, "AES_128"),
            AlgorithmId::AES_256 => write!(f, "AES_256"),
            AlgorithmId::CHACHA20 => write!(f, "CHACHA20"),
        }
    }
}

impl Algorithm {
    /// Returns the length of a key in bytes: 16 for `AES_128`, 32 for `AES_256` and `CHACHA20`.
    ///
    /// <details><summary>Contract</summary>
    ///
    /// ```text
    /// ensures len { result ≡ key_len self.now }
    /// ensures aes_128 { self.now ≡ AES_128 → result ≡ 16 }
    /// ensures aes_256 { self.now ≡ AES_256 → result ≡ 32 }
    /// ensures chacha20 { self.now ≡ CHACHA20 → result ≡ 32 }
    /// ```
    ///
    /// Definitions: [`key_len`](crate::specs::header_protection#key_len).
    ///
    /// </details>
    pub fn key_len(&self) -> usize {
        match self.id {
            AlgorithmId::AES_128 => AES_128_KEY_LEN,
            AlgorithmId::AES_256 => AES_256_KEY_LEN,
            AlgorithmId::CHACHA20 => chacha::KEY_LEN,
        }
    }

    /// Returns the length of a sample in bytes, which is 16 (RFC 9001 section 5.4.2).
    ///
    /// <details><summary>Contract</summary>
    ///
    /// ```text
    /// ensures { result ≡ 16 }
    /// ```
    ///
    /// </details>
    pub fn sample_len(&self) -> usize {
        SAMPLE_LEN
    }
}

/// A header protection key with its algorithm.
///
/// <details><summary>Model</summary>
///
/// ```text
/// ghost Value = { HeaderKey };
/// ghost view = { λ key. header_key key.inner };
/// ```
///
/// Definitions: [`HeaderKey`](crate::specs::header_protection#HeaderKey),
/// [`header_key`](crate::specs::header_protection#header_key).
///
/// </details>
pub struct HeaderProtectionKey {
    inner: KeyInner,
}

enum KeyInner {
    Aes128(aes::Key),
    Aes256(aes::Key),
    ChaCha20(chacha::Key),
}

impl HeaderProtectionKey {
    /// Creates a key for `algorithm` from `key_bytes`, and expands it.
    ///
    /// # Errors
    ///
    /// Fails with `Unspecified` if `key_bytes` is not `algorithm.key_len()` bytes long.
    ///
    /// <details><summary>Contract</summary>
    ///
    /// ```text
    /// ensures accepted { IsOk result ↔ (length key_bytes.now ≡ key_len algorithm.now) }
    /// ensures algorithm { IfOk result (λ key. key.algorithm ≡ algorithm.now) }
    /// ensures bytes { IfOk result (λ key. key.bytes ≡ key_bytes.now) }
    /// ```
    ///
    /// Definitions: [`key_len`](crate::specs::header_protection#key_len).
    ///
    /// </details>
    pub fn new(algorithm: &Algorithm, key_bytes: &[u8]) -> Result<Self, Unspecified> {
        let inner = match algorithm.id {
            AlgorithmId::AES_128 => {
                let bytes = simd::array_of(key_bytes).ok_or(Unspecified)?;
                KeyInner::Aes128(aes::Key::new(KeyBytes::AES_128(bytes))?)
            }
            AlgorithmId::AES_256 => {
                let bytes = simd::array_of(key_bytes).ok_or(Unspecified)?;
                KeyInner::Aes256(aes::Key::new(KeyBytes::AES_256(bytes))?)
            }
            AlgorithmId::CHACHA20 => {
                let bytes = simd::array_of(key_bytes).ok_or(Unspecified)?;
                KeyInner::ChaCha20(chacha::Key::new(*bytes))
            }
        };
        Ok(HeaderProtectionKey { inner })
    }

    /// Returns the 5-byte mask of a 16-byte sample (RFC 9001 section 5.4.1).
    ///
    /// # Errors
    ///
    /// Fails with `Unspecified` if `sample` is not 16 bytes long.
    ///
    /// <details><summary>Contract</summary>
    ///
    /// ```text
    /// ensures accepted { IsOk result ↔ (length sample.now ≡ 16) }
    /// ensures mask { IfOk result (λ mask.
    ///     mask ≡ header_protection self.now.algorithm self.now.bytes sample.now) }
    /// ```
    ///
    /// Definitions: [`header_protection`](crate::specs::header_protection#header_protection).
    ///
    /// </details>
    pub fn new_mask(&self, sample: &[u8]) -> Result<[u8; 5], Unspecified> {
        let Some(sample) = simd::array_of::<_, SAMPLE_LEN>(sample) else {
            return Err(Unspecified);
        };
        Ok(match &self.inner {
            KeyInner::Aes128(key) => key.new_mask(*sample),
            KeyInner::Aes256(key) => key.new_mask(*sample),
            KeyInner::ChaCha20(key) => key.new_mask(*sample),
        })
    }

    /// Returns the algorithm of the key.
    ///
    /// <details><summary>Contract</summary>
    ///
    /// ```text
    /// ensures { result.now ≡ self.now.algorithm }
    /// ```
    ///
    /// </details>
    pub fn algorithm(&self) -> &'static Algorithm {
        match self.inner {
            KeyInner::Aes128(_) => &AES_128,
            KeyInner::Aes256(_) => &AES_256,
            KeyInner::ChaCha20(_) => &CHACHA20,
        }
    }
}
