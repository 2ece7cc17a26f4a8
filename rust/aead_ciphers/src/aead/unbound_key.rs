// Written by tools/rust from crates/aead_ciphers/src/aead/unbound_key.rt. Don't edit.
//! AEAD keys without a role, from which the other AEAD keys are made.

use crate::aead::algorithm::Algorithm;
use aead_ciphers_base::aes::{AES_128_KEY_LEN, AES_256_KEY_LEN, KeyBytes};
use aead_ciphers_base::error::Unspecified;
use core::fmt;

/// An AEAD key without a role or a nonce sequence. It holds the key bytes, which are expanded when it becomes a
/// `LessSafeKey`, a `SealingKey` or an `OpeningKey`.
///
/// # Examples
///
/// ```
/// use deerlapse::aead::{AES_128_GCM, AES_256_GCM, UnboundKey, Unspecified};
///
/// let bytes = [7; 32]; // not a real key
/// let key = UnboundKey::new(&AES_256_GCM, &bytes)?;
/// assert_eq!(key.algorithm(), &AES_256_GCM);
/// assert!(UnboundKey::new(&AES_128_GCM, &bytes).is_err());
/// # Ok::<(), Unspecified>(())
/// ```
///
/// <details><summary>Model</summary>
///
/// ```text
/// ghost Value = { AeadKey };
/// ghost view = { λ key.
///     record { algorithm = key.algorithm.now; bytes = unbound_bytes key.bytes } };
/// ```
///
/// Definitions: [`AeadKey`](crate::specs::aead_key#AeadKey),
/// [`unbound_bytes`](crate::specs::unbound_bytes#unbound_bytes).
///
/// </details>
pub struct UnboundKey {
    algorithm: &'static Algorithm,
    bytes: UnboundBytes,
}

/// The bytes of a key, by its length.
#[allow(non_camel_case_types)]
enum UnboundBytes {
    AES_128([u8; AES_128_KEY_LEN]),
    AES_256([u8; AES_256_KEY_LEN]),
}

/// Overwrites the secret fields with zeros.
impl Drop for UnboundBytes {
    fn drop(&mut self) {
        match self {
            UnboundBytes::AES_128(bytes) => simd::wipe(bytes),
            UnboundBytes::AES_256(bytes) => simd::wipe(bytes),
        }
    }
}

impl UnboundKey {
    /// Creates a key for `algorithm` from `key_bytes`.
    ///
    /// # Errors
    ///
    /// Fails with `Unspecified` if `key_bytes` is not `algorithm.key_len()` bytes long.
    ///
    /// <details><summary>Contract</summary>
    ///
    /// ```text
    /// ensures accepted { IsOk result ↔ (length key_bytes.now ≡ key_len algorithm.now) }
    /// ensures made { IfOk result (λ key. key ≡ record { algorithm = algorithm.now; bytes = key_bytes.now }) }
    /// ```
    ///
    /// Definitions: [`key_len`](crate::specs::algorithm#key_len).
    ///
    /// </details>
    pub fn new(algorithm: &'static Algorithm, key_bytes: &[u8]) -> Result<Self, Unspecified> {
        let bytes = match algorithm.key_bytes(key_bytes)? {
            KeyBytes::AES_128(bytes) => UnboundBytes::AES_128(*bytes),
            KeyBytes::AES_256(bytes) => UnboundBytes::AES_256(*bytes),
        };
        Ok(UnboundKey { algorithm, bytes })
    }

    /// Returns the algorithm of the key.
    ///
    /// <details><summary>Contract</summary>
    ///
    /// ```text
    /// ensures { result.now ≡ self.now.algorithm }
    /// ```
    ///
    /// </details>
    pub fn algorithm(&self) -> &'static Algorithm {
        self.algorithm
    }

    /// Returns the bytes of the key.
    // ensures { key_bytes result ≡ self.now.bytes }
    pub(crate) fn key_bytes(&self) -> KeyBytes<'_> {
        match &self.bytes {
            UnboundBytes::AES_128(bytes) => KeyBytes::AES_128(bytes),
            UnboundBytes::AES_256(bytes) => KeyBytes::AES_256(bytes),
        }
    }
}

/// <details><summary>Ghost items</summary>
///
/// ```text
/// // `Some` of what `{:?}` prints.
/// ghost debug_output = { λ key. Some (key_debug_text (codes "UnboundKey") key) };
/// ```
///
/// Definitions: [`key_debug_text`](crate::specs::aead_key#key_debug_text).
///
/// </details>
impl fmt::Debug for UnboundKey {
    fn fmt(&self, f: &mut fmt::Formatter<'_>) -> fmt::Result {
        let algorithm = self.algorithm();
        write!(f, "UnboundKey {{ algorithm: {algorithm:?} }}")
    }
}
