// Written by tools/rust from crates/aead_ciphers/src/aead/opening_key.rt. Don't edit.
//! The AEAD key that opens messages under the nonces of a sequence.

use crate::aead::lend::lend_plaintext;
use crate::aead::less_safe_key::LessSafeKey;
use crate::aead::{Aad, Algorithm, BoundKey, NonceSequence, UnboundKey, Unspecified};
use crate::aes_gcm::GcmKey;
use core::fmt;
use core::ops::RangeFrom;

/// An AEAD key for opening that is bound to a nonce sequence: each call uses the next nonce. It cannot be cloned.
///
/// A nonce is used up even if the tag is wrong, so one message that is lost or inserted makes all later ones fail. For
/// packets that anyone can send, take a [`LessSafeKey`] and [`nonce_of`](crate::aead::nonce_of).
///
/// Programs use the alias of the same name, which fixes `K` and has an example: `deerlapse::aead::OpeningKey` in Rust,
/// `aead_ciphers_wide::aead::OpeningKey` in Rattle.
///
/// <details><summary>Model</summary>
///
/// ```text
/// ghost Value = { BoundState N };
/// ghost view = { λ bound. record { key = bound.key; sequence = bound.nonce_sequence } };
/// ```
///
/// Definitions: [`BoundState`](crate::specs::bound_state#BoundState).
///
/// </details>
pub struct OpeningKey<K: GcmKey, N> {
    key: LessSafeKey<K>,
    nonce_sequence: N,
}

/// <details><summary>Ghost items</summary>
///
/// ```text
/// // `Some` of what `{:?}` prints.
/// ghost debug_output = { λ bound. Some (key_debug_text (codes "OpeningKey") bound.key) };
/// ```
///
/// Definitions: [`key_debug_text`](crate::specs::aead_key#key_debug_text).
///
/// </details>
impl<K: GcmKey, N> fmt::Debug for OpeningKey<K, N> {
    fn fmt(&self, f: &mut fmt::Formatter<'_>) -> fmt::Result {
        let algorithm = self.key.algorithm();
        write!(f, "OpeningKey {{ algorithm: {algorithm:?} }}")
    }
}

/// <details><summary>Ghost items</summary>
///
/// ```text
/// ghost key = { λ bound. bound.key };
/// ghost sequence = { λ bound. bound.sequence };
/// ```
///
/// </details>
impl<K: GcmKey, N: NonceSequence> BoundKey<N> for OpeningKey<K, N> {
    fn new(unbound_key: UnboundKey, nonce_sequence: N) -> Self {
        OpeningKey {
            key: LessSafeKey::new(unbound_key),
            nonce_sequence,
        }
    }

    fn algorithm(&self) -> &'static Algorithm {
        self.key.algorithm()
    }
}

impl<K: GcmKey, N: NonceSequence> OpeningKey<K, N> {
    /// Like [`open_within`](Self::open_within), but returns the length of the plaintext in bytes. The plaintext is at
    /// the front of `in_out`. ring has no such method.
    ///
    /// <details><summary>Contract</summary>
    ///
    /// ```text
    /// ensures call { OpeningCall N.spent N.is_closed N.origin N.gives N.refuses N.is_next self.old self.new
    ///     (aad_bytes aad.entry) ciphertext_and_tag.start in_out.old in_out.new result }
    /// ensures count { IfOk result (λ n. n ≡ length in_out.old - tag_len - ciphertext_and_tag.start) }
    /// ```
    ///
    /// Definitions: [`OpeningCall`](crate::specs::bound_calls#OpeningCall),
    /// [`aad_bytes`](aead_ciphers_base::specs::values#aad_bytes), [`tag_len`](crate::specs::gcm#tag_len).
    ///
    /// </details>
    pub fn open_within_to_front(
        &mut self,
        aad: Aad<'_>,
        in_out: &mut [u8],
        ciphertext_and_tag: RangeFrom<usize>,
    ) -> Result<usize, Unspecified> {
        let nonce = self.nonce_sequence.advance()?;
        self.key
            .open_within_to_front(nonce, aad, in_out, ciphertext_and_tag)
    }

    /// Like [`open_in_place`](Self::open_in_place), but returns the length of the plaintext in bytes. The plaintext is
    /// at the front of `in_out`. ring has no such method.
    ///
    /// <details><summary>Contract</summary>
    ///
    /// ```text
    /// ensures call { OpeningCall N.spent N.is_closed N.origin N.gives N.refuses N.is_next self.old self.new
    ///     (aad_bytes aad.entry) 0 in_out.old in_out.new result }
    /// ensures count { IfOk result (λ n. n ≡ length in_out.old - tag_len) }
    /// ```
    ///
    /// Definitions: [`OpeningCall`](crate::specs::bound_calls#OpeningCall),
    /// [`aad_bytes`](aead_ciphers_base::specs::values#aad_bytes), [`tag_len`](crate::specs::gcm#tag_len).
    ///
    /// </details>
    pub fn open_in_place_to_front(
        &mut self,
        aad: Aad<'_>,
        in_out: &mut [u8],
    ) -> Result<usize, Unspecified> {
        self.open_within_to_front(aad, in_out, 0..)
    }

    /// Opens a ciphertext in place with its tag attached under the next nonce, and returns the plaintext (SP 800-38D
    /// algorithm 5).
    ///
    /// The ciphertext followed by the 16-byte tag is `in_out[ciphertext_and_tag]`. The plaintext, which is as long as
    /// the ciphertext, is written to the front of `in_out`. The bytes after it, including the tag, are unchanged.
    ///
    /// # Errors
    ///
    /// Fails with `Unspecified`, and leaves `in_out` unchanged, if the sequence returns no nonce, which is checked
    /// first. Otherwise the nonce is consumed, and the call fails in the same way if `in_out` is shorter than 16 bytes,
    /// if `ciphertext_and_tag.start` is greater than `in_out.len() - 16`, if the lengths exceed the limits of
    /// [`LessSafeKey::seal_in_place_separate_tag`], or if the tag is not that of the ciphertext and `aad`.
    ///
    /// <details><summary>Contract</summary>
    ///
    /// ```text
    /// ensures call { OpeningCall N.spent N.is_closed N.origin N.gives N.refuses N.is_next self.old self.new
    ///     (aad_bytes aad.entry) ciphertext_and_tag.start in_out.old (lent_buffer result in_out.old) result }
    /// ensures count { IfOk result (λ plaintext.
    ///     length plaintext.now ≡ length in_out.old - tag_len - ciphertext_and_tag.start) }
    /// ensures plaintext { IfOk result (λ plaintext. UnderNext (N.is_next self.old.sequence) (λ nonce. plaintext.now
    ///     ≡ gcm_decrypted (aes self.old.key.bytes) nonce
    ///     (drop ciphertext_and_tag.start (take (length in_out.old - tag_len) in_out.old)))) }
    /// ensures* writes_back { sem 𝓛 (LendsFront in_out.entry result
    ///     (length in_out.old - tag_len - ciphertext_and_tag.start)) }
    /// ```
    ///
    /// Definitions: [`OpeningCall`](crate::specs::bound_calls#OpeningCall),
    /// [`aad_bytes`](aead_ciphers_base::specs::values#aad_bytes), [`lent_buffer`](crate::specs::lending#lent_buffer),
    /// [`tag_len`](crate::specs::gcm#tag_len), [`UnderNext`](crate::specs::nonce_sequence#UnderNext),
    /// [`gcm_decrypted`](crate::specs::gcm#gcm_decrypted), [`aes`](aead_ciphers_base::specs::aes#aes),
    /// [`LendsFront`](crate::specs::lending#LendsFront).
    ///
    /// </details>
    pub fn open_within<'a>(
        &mut self,
        aad: Aad<'_>,
        in_out: &'a mut [u8],
        ciphertext_and_tag: RangeFrom<usize>,
    ) -> Result<&'a mut [u8], Unspecified> {
        let opened = self.open_within_to_front(aad, in_out, ciphertext_and_tag);
        lend_plaintext(in_out, opened)
    }

    /// Opens the whole of `in_out` under the next nonce, like [`open_within`](Self::open_within) with the range `0..`.
    ///
    /// <details><summary>Contract</summary>
    ///
    /// ```text
    /// ensures call { OpeningCall N.spent N.is_closed N.origin N.gives N.refuses N.is_next self.old self.new
    ///     (aad_bytes aad.entry) 0 in_out.old (lent_buffer result in_out.old) result }
    /// ensures count { IfOk result (λ plaintext. length plaintext.now ≡ length in_out.old - tag_len) }
    /// ensures plaintext { IfOk result (λ plaintext. UnderNext (N.is_next self.old.sequence) (λ nonce.
    ///     plaintext.now ≡ gcm_decrypted (aes self.old.key.bytes) nonce (take (length in_out.old - tag_len) in_out.old))) }
    /// ensures* writes_back { sem 𝓛 (LendsFront in_out.entry result (length in_out.old - tag_len)) }
    /// ```
    ///
    /// Definitions: [`OpeningCall`](crate::specs::bound_calls#OpeningCall),
    /// [`aad_bytes`](aead_ciphers_base::specs::values#aad_bytes), [`lent_buffer`](crate::specs::lending#lent_buffer),
    /// [`tag_len`](crate::specs::gcm#tag_len), [`UnderNext`](crate::specs::nonce_sequence#UnderNext),
    /// [`gcm_decrypted`](crate::specs::gcm#gcm_decrypted), [`aes`](aead_ciphers_base::specs::aes#aes),
    /// [`LendsFront`](crate::specs::lending#LendsFront).
    ///
    /// </details>
    pub fn open_in_place<'a>(
        &mut self,
        aad: Aad<'_>,
        in_out: &'a mut [u8],
    ) -> Result<&'a mut [u8], Unspecified> {
        let opened = self.open_in_place_to_front(aad, in_out);
        lend_plaintext(in_out, opened)
    }
}
