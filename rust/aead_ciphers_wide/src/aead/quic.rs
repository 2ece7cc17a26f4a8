// Written by tools/rust from crates/aead_ciphers_wide/src/aead/quic.rt. Don't edit.
//! Header protection keys of QUIC (RFC 9001 section 5.4), whose AES encrypts the sample by byte permutes.

use crate::aes;
use aead_ciphers::aead::quic::{Algorithm, CHACHA20};
use aead_ciphers_base::aes::KeyBytes;
use aead_ciphers_base::chacha;
use aead_ciphers_base::error::Unspecified;

/// A header protection key with its algorithm.
///
/// # Examples
///
/// The mask of RFC 9001 appendix A.2:
///
/// ```
/// use deerlapse::aead::Unspecified;
/// use deerlapse::aead::quic::{AES_128, HeaderProtectionKey};
///
/// let bytes = 0x9f50449e04a0e810283a1e9933adedd2_u128.to_be_bytes();
/// let sample = 0xd1b1c98dd7689fb8ec11d242b123dc9b_u128.to_be_bytes();
/// let key = HeaderProtectionKey::new(&AES_128, &bytes)?;
/// assert_eq!(key.new_mask(&sample)?, [0x43, 0x7b, 0x9a, 0xec, 0x36]);
/// # Ok::<(), Unspecified>(())
/// ```
///
/// <details><summary>Model</summary>
///
/// ```text
/// ghost Value = { HeaderKey };
/// ghost view = { λ key. header_key key.cipher };
/// ```
///
/// Definitions: [`HeaderKey`](aead_ciphers::specs::header_protection#HeaderKey),
/// [`header_key`](crate::specs::header_key#header_key).
///
/// </details>
pub struct HeaderProtectionKey {
    cipher: Cipher,
}

/// The cipher of a mask, with its key.
enum Cipher {
    Aes(aes::BlockKey),
    ChaCha20(chacha::Key),
}

impl HeaderProtectionKey {
    /// Creates a key for `algorithm` from `key_bytes`, and expands it.
    ///
    /// # Errors
    ///
    /// Fails with `Unspecified` if `key_bytes` is not `algorithm.key_len()` bytes long.
    ///
    /// <details><summary>Contract</summary>
    ///
    /// ```text
    /// ensures accepted { IsOk result ↔ (length key_bytes.now ≡ key_len algorithm.now) }
    /// ensures algorithm { IfOk result (λ key. key.algorithm ≡ algorithm.now) }
    /// ensures bytes { IfOk result (λ key. key.bytes ≡ key_bytes.now) }
    /// ```
    ///
    /// Definitions: [`key_len`](aead_ciphers::specs::header_protection#key_len).
    ///
    /// </details>
    #[inline(always)]
    pub fn new(algorithm: &Algorithm, key_bytes: &[u8]) -> Result<Self, Unspecified> {
        if key_bytes.len() != algorithm.key_len() {
            return Err(Unspecified);
        }
        let cipher = if *algorithm == CHACHA20 {
            let bytes = simd::array_of(key_bytes).ok_or(Unspecified)?;
            Cipher::ChaCha20(chacha::Key::new(*bytes))
        } else {
            Cipher::Aes(aes::BlockKey::new(KeyBytes::from_slice(key_bytes)?))
        };
        Ok(HeaderProtectionKey { cipher })
    }

    /// Returns the 5-byte mask of a 16-byte sample (RFC 9001 section 5.4.1).
    ///
    /// # Errors
    ///
    /// Fails with `Unspecified` if `sample` is not 16 bytes long.
    ///
    /// <details><summary>Contract</summary>
    ///
    /// ```text
    /// ensures accepted { IsOk result ↔ (length sample.now ≡ 16) }
    /// ensures mask { IfOk result (λ mask.
    ///     mask ≡ header_protection self.now.algorithm self.now.bytes sample.now) }
    /// ```
    ///
    /// Definitions: [`header_protection`](aead_ciphers::specs::header_protection#header_protection).
    ///
    /// </details>
    #[inline(always)]
    pub fn new_mask(&self, sample: &[u8]) -> Result<[u8; 5], Unspecified> {
        let Some(sample) = simd::array_of::<_, 16>(sample) else {
            return Err(Unspecified);
        };
        Ok(match &self.cipher {
            Cipher::Aes(key) => key.new_mask(*sample),
            Cipher::ChaCha20(key) => key.new_mask(*sample),
        })
    }
}
