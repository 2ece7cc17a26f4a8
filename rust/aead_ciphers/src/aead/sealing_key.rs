// Written by tools/rust from crates/aead_ciphers/src/aead/sealing_key.rt. Don't edit.
//! The AEAD key that seals messages under the nonces of a sequence.

use crate::aead::less_safe_key::LessSafeKey;
use crate::aead::{Aad, Algorithm, BoundKey, InOut, NonceSequence, Tag, UnboundKey, Unspecified};
use crate::aes_gcm::GcmKey;
use core::fmt;

/// An AEAD key for sealing that is bound to a nonce sequence: each call uses the next nonce. It cannot be cloned.
///
/// Programs use the alias of the same name, which fixes `K` and has an example: `deerlapse::aead::SealingKey` in Rust,
/// `aead_ciphers_wide::aead::SealingKey` in Rattle.
///
/// <details><summary>Model</summary>
///
/// ```text
/// ghost Value = { BoundState N };
/// ghost view = { λ bound. record { key = bound.key; sequence = bound.nonce_sequence } };
/// ```
///
/// Definitions: [`BoundState`](crate::specs::bound_state#BoundState).
///
/// </details>
pub struct SealingKey<K: GcmKey, N> {
    key: LessSafeKey<K>,
    nonce_sequence: N,
}

/// <details><summary>Ghost items</summary>
///
/// ```text
/// // `Some` of what `{:?}` prints.
/// ghost debug_output = { λ bound. Some (key_debug_text (codes "SealingKey") bound.key) };
/// ```
///
/// Definitions: [`key_debug_text`](crate::specs::aead_key#key_debug_text).
///
/// </details>
impl<K: GcmKey, N> fmt::Debug for SealingKey<K, N> {
    fn fmt(&self, f: &mut fmt::Formatter<'_>) -> fmt::Result {
        let algorithm = self.key.algorithm();
        write!(f, "SealingKey {{ algorithm: {algorithm:?} }}")
    }
}

/// <details><summary>Ghost items</summary>
///
/// ```text
/// ghost key = { λ bound. bound.key };
/// ghost sequence = { λ bound. bound.sequence };
/// ```
///
/// </details>
impl<K: GcmKey, N: NonceSequence> BoundKey<N> for SealingKey<K, N> {
    fn new(unbound_key: UnboundKey, nonce_sequence: N) -> Self {
        SealingKey {
            key: LessSafeKey::new(unbound_key),
            nonce_sequence,
        }
    }

    fn algorithm(&self) -> &'static Algorithm {
        self.key.algorithm()
    }
}

impl<K: GcmKey, N: NonceSequence> SealingKey<K, N> {
    /// Encrypts the bytes of `in_out` in place under the next nonce, and appends the tag of the ciphertext and `aad`
    /// (SP 800-38D algorithm 4).
    ///
    /// `in_out` holds n bytes of plaintext before the call, and n bytes of ciphertext followed by the 16-byte tag after
    /// it.
    ///
    /// # Errors
    ///
    /// Fails with `Unspecified`, and leaves the bytes of `in_out` unchanged, in these cases, which are checked in this
    /// order:
    ///
    /// - There is no room for the tag.
    /// - The sequence returns no nonce.
    /// - The plaintext is longer than 2^36 - 32 bytes or `aad` is 2^61 bytes or longer (SP 800-38D section 5.2.1.1).
    ///   The nonce is consumed.
    ///
    /// <details><summary>Contract</summary>
    ///
    /// ```text
    /// ensures sealed { OnOk result (UnderNext (N.is_next self.old.sequence) (λ nonce. B.bytes in_out.new
    ///     ≡ gcm_sealed (aes self.old.key.bytes) nonce (aad_bytes aad.entry) (B.bytes in_out.old))) }
    /// ensures refused { OnErr result (B.bytes in_out.new ≡ B.bytes in_out.old) }
    /// ensures length { OnOk result (length (B.bytes in_out.new) ≡ length (B.bytes in_out.old) + tag_len) }
    /// ensures call { SealingCall N.spent N.is_closed N.origin N.gives N.refuses (B.may_refuse in_out.old)
    ///     (B.may_grant in_out.old) self.old self.new (aad_bytes aad.entry) (B.bytes in_out.old) (B.bytes in_out.new) result }
    /// ```
    ///
    /// Definitions: [`UnderNext`](crate::specs::nonce_sequence#UnderNext),
    /// [`gcm_sealed`](crate::specs::gcm#gcm_sealed), [`aes`](aead_ciphers_base::specs::aes#aes),
    /// [`aad_bytes`](aead_ciphers_base::specs::values#aad_bytes), [`tag_len`](crate::specs::gcm#tag_len),
    /// [`SealingCall`](crate::specs::bound_calls#SealingCall).
    ///
    /// </details>
    pub fn seal_in_place_append_tag<B: InOut>(
        &mut self,
        aad: Aad<'_>,
        in_out: &mut B,
    ) -> Result<(), Unspecified> {
        in_out.grow_by_tag()?;
        match self.nonce_sequence.advance() {
            Ok(nonce) => self.key.seal_with_room(nonce, aad, in_out),
            Err(error) => {
                in_out.cut_tag();
                Err(error)
            }
        }
    }

    /// Encrypts `in_out` in place under the next nonce, and returns the 16-byte tag of the ciphertext and `aad`
    /// (SP 800-38D algorithm 4).
    ///
    /// `in_out` holds the plaintext before the call, and the equally long ciphertext after it.
    ///
    /// `OpeningKey` has no call for a separate tag: append the tag to the ciphertext before it is opened, or open with
    /// [`LessSafeKey::open_in_place_separate_tag`].
    ///
    /// # Errors
    ///
    /// Fails with `Unspecified`, and leaves `in_out` unchanged, if the sequence returns no nonce, which is checked
    /// first, or if the lengths exceed the limits of [`seal_in_place_append_tag`](Self::seal_in_place_append_tag). In
    /// the latter case the nonce is consumed.
    ///
    /// <details><summary>Contract</summary>
    ///
    /// ```text
    /// ensures ciphertext { OnOk result (UnderNext (N.is_next self.old.sequence) (λ nonce. in_out.new
    ///     ≡ gcm_encrypted (aes self.old.key.bytes) nonce in_out.old)) }
    /// ensures tag { IfOk result (λ tag. UnderNext (N.is_next self.old.sequence) (λ nonce. tag
    ///     ≡ gcm_tag (aes self.old.key.bytes) nonce (aad_bytes aad.entry) in_out.new)) }
    /// ensures refused { OnErr result (in_out.new ≡ in_out.old) }
    /// ensures call { SealingCall N.spent N.is_closed N.origin N.gives N.refuses ⊥ ⊤ self.old self.new
    ///     (aad_bytes aad.entry) in_out.old (with_tag in_out.new result) result }
    /// ```
    ///
    /// Definitions: [`UnderNext`](crate::specs::nonce_sequence#UnderNext),
    /// [`gcm_encrypted`](crate::specs::gcm#gcm_encrypted), [`aes`](aead_ciphers_base::specs::aes#aes),
    /// [`gcm_tag`](crate::specs::gcm#gcm_tag), [`aad_bytes`](aead_ciphers_base::specs::values#aad_bytes),
    /// [`SealingCall`](crate::specs::bound_calls#SealingCall), [`with_tag`](crate::specs::steps#with_tag).
    ///
    /// </details>
    pub fn seal_in_place_separate_tag(
        &mut self,
        aad: Aad<'_>,
        in_out: &mut [u8],
    ) -> Result<Tag, Unspecified> {
        let nonce = self.nonce_sequence.advance()?;
        self.key.seal_in_place_separate_tag(nonce, aad, in_out)
    }
}
