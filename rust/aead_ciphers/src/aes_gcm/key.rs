// Written by tools/rust from crates/aead_ciphers/src/aes_gcm/key.rt. Don't edit.
//! The AES-GCM key of `aes_gcm::seal` and `aes_gcm::open`, which count their cipher blocks and field products.

use crate::aes_gcm::GcmKey;
use aead_ciphers_base::aes::{KeyBytes, Work};
use aead_ciphers_base::error::Unspecified;

/// An AES-GCM key for `aes_gcm::seal` and `aes_gcm::open`: the expanded AES key and its hash subkey.
///
/// <details><summary>Model</summary>
///
/// ```text
/// ghost Value = { List ℕ };
/// ghost view = { λ key. K.bytes_of key.expanded };
/// ghost invariant = { λ key. K.is_expanded key.expanded };
/// ```
///
/// </details>
pub struct Key<K: GcmKey> {
    pub(super) expanded: K,
}

/// Copies the expanded key. Cloning allocates no memory and always succeeds.
///
/// <details><summary>Ghost items</summary>
///
/// ```text
/// // What holds of a value and of what `clone` returns for it.
/// ghost is_clone = { λ key clone. clone ≡ key };
/// // For which values `clone` doesn't fail.
/// ghost is_infallible = { λ _. ⊤ };
/// ```
///
/// </details>
impl<K: GcmKey> Clone for Key<K> {
    #[inline(always)]
    fn clone(&self) -> Self {
        Key {
            expanded: self.expanded.clone(),
        }
    }
}

impl<K: GcmKey> Key<K> {
    /// Expands a key of 16 or 32 bytes, and computes its hash subkey by one cipher block (SP 800-38D section 7.1
    /// step 1). Never fails.
    ///
    /// <details><summary>Contract</summary>
    ///
    /// ```text
    /// requires { CanAdd work.old 1 0 }
    /// ensures accepted { IsOk result }
    /// ensures made { IfOk result (λ key. key ≡ key_bytes bytes.entry) }
    /// ensures worked { Adds work.old work.new 1 0 }
    /// ```
    ///
    /// Definitions: [`CanAdd`](aead_ciphers_base::specs::work#CanAdd),
    /// [`key_bytes`](aead_ciphers_base::specs::key_bytes#key_bytes), [`Adds`](aead_ciphers_base::specs::work#Adds).
    ///
    /// </details>
    #[inline(always)]
    pub fn new(bytes: KeyBytes<'_>, work: &mut Work) -> Result<Self, Unspecified> {
        let mut expanded = K::zeros();
        expanded.expand(bytes, work);
        Ok(Key { expanded })
    }
}
