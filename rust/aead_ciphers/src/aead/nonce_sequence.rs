// Written by tools/rust from crates/aead_ciphers/src/aead/nonce_sequence.rt. Don't edit.
//! The trait `NonceSequence`, from which a sealing or opening key takes the nonce of each message.

use crate::aead::{Nonce, Unspecified};

/// A sequence of nonces for one key, no two of them equal (SP 800-38D section 8). Once `advance` has failed, the
/// sequence is *closed*, and every later call fails too. It may be closed from the start.
///
/// In Rust nothing checks an implementation: if it returns a nonce twice, the key uses it twice.
///
/// # Examples
///
/// A sequence that returns one nonce, once:
///
/// ```
/// use deerlapse::aead::{
///     AES_128_GCM, Aad, BoundKey, Nonce, NonceSequence, SealingKey, UnboundKey, Unspecified,
/// };
///
/// struct OneNonce(Option<Nonce>);
///
/// impl NonceSequence for OneNonce {
///     fn advance(&mut self) -> Result<Nonce, Unspecified> {
///         self.0.take().ok_or(Unspecified)
///     }
/// }
///
/// let key = UnboundKey::new(&AES_128_GCM, &[7; 16])?; // not a real key
/// let sequence = OneNonce(Some(Nonce::assume_unique_for_key([1; 12])));
/// let mut key = SealingKey::new(key, sequence);
/// assert!(key.seal_in_place_separate_tag(Aad::empty(), &mut [2; 5]).is_ok());
/// assert!(key.seal_in_place_separate_tag(Aad::empty(), &mut [2; 5]).is_err());
/// # Ok::<(), Unspecified>(())
/// ```
///
/// <details><summary>Ghost items</summary>
///
/// ```text
/// // The nonces that it has returned, in order.
/// ghost spent: { Self → List (List ℕ) };
/// // Whether it returns no more nonces.
/// ghost is_closed: { Self → Bool };
/// // Numbers that no call changes.
/// ghost origin: { Self → List ℕ };
/// // What holds of the sequence before and after a call that returns a nonce. ⊤ says nothing.
/// ghost gives: { Self → Self → Type 0 };
/// // What holds of the sequence before and after a call that fails. ⊤ says nothing.
/// ghost refuses: { Self → Self → Type 0 };
/// // Which nonce the next call returns, if it succeeds. ⊥ says nothing.
/// ghost is_next: { Self → List ℕ → Type 0 };
/// ```
///
/// </details>
pub trait NonceSequence {
    /// Returns the next nonce.
    ///
    /// # Errors
    ///
    /// Fails with `Unspecified` if the sequence returns no more nonces. It is then closed.
    ///
    /// <details><summary>Contract</summary>
    ///
    /// ```text
    /// ensures ok { IfOk result (λ nonce.
    ///     Appends (spent self.old) (spent self.new) (is_closed self.old) nonce) }
    /// ensures err { OnErr result (Closes (spent self.old) (spent self.new) (is_closed self.new)) }
    /// ensures origin_kept { origin self.new ≡ origin self.old }
    /// ensures gives { OnOk result (gives self.old self.new) }
    /// ensures refuses { OnErr result (refuses self.old self.new) }
    /// ensures next { IfOk result (λ nonce. UnderNext (is_next self.old) (λ next. nonce ≡ next)) }
    /// ```
    ///
    /// Definitions: [`Appends`](crate::specs::nonce_sequence#Appends), [`Closes`](crate::specs::nonce_sequence#Closes),
    /// [`UnderNext`](crate::specs::nonce_sequence#UnderNext).
    ///
    /// </details>
    fn advance(&mut self) -> Result<Nonce, Unspecified>;
}
