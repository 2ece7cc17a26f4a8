// Written by tools/rust from crates/key_derivation/src/secret.rt. Don't edit.
//! Traffic secrets of TLS 1.3, and the record keys that are derived from them (RFC 8446 sections 7.2 and 7.3).

use crate::error::DerivationError;
use crate::hash::Hash;
use crate::hkdf::{self, Expander};
use crate::keys::{AeadKeyBytes, RecordKeys};
use crate::suite::Suite;
use core::fmt;
use sha2::{Sha256, Sha384};

/// The bytes of a secret, as many as a digest of its hash function has.
pub(crate) enum SecretBytes {
    Sha256([u8; 32]),
    Sha384([u8; 48]),
}

/// Overwrites the secret fields with zeros.
impl Drop for SecretBytes {
    fn drop(&mut self) {
        match self {
            SecretBytes::Sha256(bytes) => simd::wipe(bytes),
            SecretBytes::Sha384(bytes) => simd::wipe(bytes),
        }
    }
}

/// A traffic secret of one direction of a TLS 1.3 connection, from which the record keys of this direction and the next secret
/// are derived. `QuicSecret` derives the keys of QUIC.
///
/// <details><summary>Model</summary>
///
/// ```text
/// ghost Value = { SecretState };
/// ghost view = { λ s. secret_state s.inner };
/// ```
///
/// Definitions: [`SecretState`](crate::specs::secret#SecretState),
/// [`secret_state`](crate::specs::secret#secret_state).
///
/// </details>
pub struct Secret {
    pub(crate) inner: SecretBytes,
}

/// <details><summary>Ghost items</summary>
///
/// ```text
/// // `Some` of what `{:?}` prints.
/// ghost debug_output = { λ s. Some (codes "Secret { .. }") };
/// ```
///
/// </details>
impl fmt::Debug for Secret {
    fn fmt(&self, f: &mut fmt::Formatter<'_>) -> fmt::Result {
        f.write_str("Secret { .. }")
    }
}

impl Secret {
    /// Creates a secret of a suite from its 32 or 48 bytes.
    ///
    /// # Errors
    ///
    /// Fails with `SecretLength` if `bytes` is not as long as a digest of the suite's hash function.
    ///
    /// <details><summary>Contract</summary>
    ///
    /// ```text
    /// ensures accepted { IsOk result ↔ (length bytes.now ≡ suite_secret_len suite) }
    /// ensures refused { IsOkUnless result DerivationError.SecretLength }
    /// ensures made { IfOk result (λ s. s ≡ record { suite = suite; bytes = bytes.now }) }
    /// ```
    ///
    /// Definitions: [`suite_secret_len`](crate::specs::secret#suite_secret_len).
    ///
    /// </details>
    pub fn new(suite: Suite, bytes: &[u8]) -> Result<Self, DerivationError> {
        let secret = match suite {
            Suite::Aes128Gcm => simd::array_of(bytes).map(|bytes| Secret::aes_128_gcm(*bytes)),
            Suite::Aes256Gcm => simd::array_of(bytes).map(|bytes| Secret::aes_256_gcm(*bytes)),
        };
        secret.ok_or(DerivationError::SecretLength)
    }

    /// Creates a secret of TLS_AES_128_GCM_SHA256.
    ///
    /// <details><summary>Contract</summary>
    ///
    /// ```text
    /// ensures { result ≡ record { suite = Suite.Aes128Gcm; bytes = bytes } }
    /// ```
    ///
    /// </details>
    pub fn aes_128_gcm(bytes: [u8; 32]) -> Self {
        Secret {
            inner: SecretBytes::Sha256(bytes),
        }
    }

    /// Creates a secret of TLS_AES_256_GCM_SHA384.
    ///
    /// <details><summary>Contract</summary>
    ///
    /// ```text
    /// ensures { result ≡ record { suite = Suite.Aes256Gcm; bytes = bytes } }
    /// ```
    ///
    /// </details>
    pub fn aes_256_gcm(bytes: [u8; 48]) -> Self {
        Secret {
            inner: SecretBytes::Sha384(bytes),
        }
    }

    /// Returns the secret's suite.
    ///
    /// <details><summary>Contract</summary>
    ///
    /// ```text
    /// ensures { result ≡ self.now.suite }
    /// ```
    ///
    /// </details>
    pub fn suite(&self) -> Suite {
        match self.inner {
            SecretBytes::Sha256(_) => Suite::Aes128Gcm,
            SecretBytes::Sha384(_) => Suite::Aes256Gcm,
        }
    }

    /// Returns the secret's bytes.
    ///
    /// <details><summary>Contract</summary>
    ///
    /// ```text
    /// ensures bytes { result.now ≡ self.now.bytes }
    /// ensures len { length result.now ≡ suite_secret_len self.now.suite }
    /// ```
    ///
    /// Definitions: [`suite_secret_len`](crate::specs::secret#suite_secret_len).
    ///
    /// </details>
    pub fn as_slice(&self) -> &[u8] {
        match &self.inner {
            SecretBytes::Sha256(bytes) => bytes,
            SecretBytes::Sha384(bytes) => bytes,
        }
    }

    /// HKDF-Expand with the suite's hash function and the secret as the pseudorandom key (RFC 5869 section 2.3): fills `out`.
    ///
    /// # Errors
    ///
    /// Fails with `TooLong` if `out` is longer than 255 secrets. It is then unchanged.
    ///
    /// <details><summary>Contract</summary>
    ///
    /// ```text
    /// ensures accepted { IsOk result ↔ (length out.old ≤ 255 * suite_secret_len self.now.suite) }
    /// ensures refused { IsOkUnless result DerivationError.TooLong }
    /// ensures expanded { OnOk result (out.new
    ///     ≡ hkdf_expand (suite_hash self.now.suite) self.now.bytes info.now (length out.old)) }
    /// ensures kept { OnErr result (out.new ≡ out.old) }
    /// ```
    ///
    /// Definitions: [`suite_secret_len`](crate::specs::secret#suite_secret_len),
    /// [`hkdf_expand`](crate::specs::hkdf#hkdf_expand), [`suite_hash`](crate::specs::secret#suite_hash).
    ///
    /// </details>
    pub fn expand(&self, info: &[u8], out: &mut [u8]) -> Result<(), DerivationError> {
        match &self.inner {
            SecretBytes::Sha256(bytes) => hkdf::expand::<Sha256>(bytes, info, out),
            SecretBytes::Sha384(bytes) => hkdf::expand::<Sha384>(bytes, info, out),
        }
    }

    /// HKDF-Expand-Label with the suite's hash function (RFC 8446 section 7.1): fills `out`. `label` is without its prefix
    /// `tls13 `.
    ///
    /// # Errors
    ///
    /// Fails as `hkdf::expand_label` does. `out` is then unchanged.
    ///
    /// <details><summary>Contract</summary>
    ///
    /// ```text
    /// ensures accepted { IsOk result ↔ (IsLabel label.now × (length context.now ≤ 255)
    ///     × (length out.old ≤ 255 * suite_secret_len self.now.suite)) }
    /// ensures label { IsErrOf result DerivationError.LabelLength ↔ ¬ IsLabel label.now }
    /// ensures context { IsErrOf result DerivationError.ContextLength
    ///     ↔ (IsLabel label.now × (255 < length context.now)) }
    /// ensures too_long { IsErrOf result DerivationError.TooLong ↔ (IsLabel label.now
    ///     × (length context.now ≤ 255)
    ///     × (255 * suite_secret_len self.now.suite < length out.old)) }
    /// ensures expanded { OnOk result (out.new ≡ hkdf_expand_label
    ///     (suite_hash self.now.suite) self.now.bytes label.now context.now (length out.old)) }
    /// ensures kept { OnErr result (out.new ≡ out.old) }
    /// ```
    ///
    /// Definitions: [`IsLabel`](crate::specs::hkdf#IsLabel),
    /// [`suite_secret_len`](crate::specs::secret#suite_secret_len),
    /// [`hkdf_expand_label`](crate::specs::hkdf#hkdf_expand_label), [`suite_hash`](crate::specs::secret#suite_hash).
    ///
    /// </details>
    pub fn expand_label(
        &self,
        label: &[u8],
        context: &[u8],
        out: &mut [u8],
    ) -> Result<(), DerivationError> {
        match &self.inner {
            SecretBytes::Sha256(bytes) => hkdf::expand_label::<Sha256>(bytes, label, context, out),
            SecretBytes::Sha384(bytes) => hkdf::expand_label::<Sha384>(bytes, label, context, out),
        }
    }

    /// Returns the key and the IV for records of TLS 1.3, by the labels `key` and `iv` (RFC 8446 section 7.3).
    ///
    /// <details><summary>Contract</summary>
    ///
    /// ```text
    /// ensures key { result.key ≡ record_key self.now }
    /// ensures iv { result.iv ≡ record_iv self.now }
    /// ensures key_len { length result.key ≡ suite_key_len self.now.suite }
    /// ```
    ///
    /// Definitions: [`record_key`](crate::specs::tls#record_key), [`record_iv`](crate::specs::tls#record_iv),
    /// [`suite_key_len`](crate::specs::secret#suite_key_len).
    ///
    /// </details>
    pub fn record_keys(&self) -> RecordKeys {
        match &self.inner {
            SecretBytes::Sha256(bytes) => derive_record_keys::<Sha256>(bytes, Suite::Aes128Gcm),
            SecretBytes::Sha384(bytes) => derive_record_keys::<Sha384>(bytes, Suite::Aes256Gcm),
        }
    }

    /// Returns the traffic secret after a KeyUpdate of TLS 1.3, by the label `traffic upd` (RFC 8446 section 7.2).
    ///
    /// <details><summary>Contract</summary>
    ///
    /// ```text
    /// ensures { result ≡ next_traffic_secret self.now }
    /// ```
    ///
    /// Definitions: [`next_traffic_secret`](crate::specs::tls#next_traffic_secret).
    ///
    /// </details>
    pub fn next_traffic(&self) -> Self {
        self.next(b"traffic upd")
    }

    /// Returns the next secret, by the label of TLS or of a QUIC version.
    // requires { length label.now ≤ 249 }
    // ensures { result ≡ next_secret self.now label.now }
    pub(crate) fn next(&self, label: &[u8]) -> Self {
        match &self.inner {
            SecretBytes::Sha256(bytes) => {
                Secret::aes_128_gcm(Expander::<Sha256>::new(bytes).labeled(label))
            }
            SecretBytes::Sha384(bytes) => {
                Secret::aes_256_gcm(Expander::<Sha384>::new(bytes).labeled(label))
            }
        }
    }
}

/// Returns the key and the IV for records, from one HMAC key. The key is as long as the suite's keys.
// ensures key { result.key ≡ hkdf_expand_label H.function secret.now (codes "key") [] (suite_key_len suite) }
// ensures iv { result.iv ≡ hkdf_expand_label H.function secret.now (codes "iv") [] 12 }
// ensures key_len { length result.key ≡ suite_key_len suite }
fn derive_record_keys<H: Hash>(secret: &[u8], suite: Suite) -> RecordKeys {
    let from = Expander::<H>::new(secret);
    RecordKeys {
        key: AeadKeyBytes {
            bytes: from.suite_key(b"key", suite),
        },
        iv: from.labeled(b"iv"),
    }
}
