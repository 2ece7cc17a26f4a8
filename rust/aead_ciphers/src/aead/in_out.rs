// Written by tools/rust from crates/aead_ciphers/src/aead/in_out.rt. Don't edit.
//! Buffers that sealing appends a tag to.

use aead_ciphers_base::error::Unspecified;
#[cfg(feature = "alloc")]
use aead_ciphers_base::values::MAX_TAG_LEN;

#[cfg(feature = "alloc")]
use alloc::vec::Vec;

/// A growable buffer of bytes that is sealed in place: it holds the plaintext before the call, and the ciphertext
/// followed by the 16-byte tag after it.
///
/// After `grow_by_tag` has succeeded, `as_mut_bytes` must return 16 bytes more than before. In Rust nothing checks
/// this, and a call that seals may panic otherwise.
///
/// # Examples
///
/// A packet of at most 64 bytes, which needs no allocator:
///
/// ```
/// use deerlapse::aead::{
///     AES_128_GCM, Aad, InOut, LessSafeKey, MAX_TAG_LEN, Nonce, UnboundKey, Unspecified,
/// };
///
/// struct Packet {
///     bytes: [u8; 64],
///     len: usize,
/// }
///
/// impl InOut for Packet {
///     fn as_mut_bytes(&mut self) -> &mut [u8] {
///         &mut self.bytes[..self.len]
///     }
///
///     fn grow_by_tag(&mut self) -> Result<(), Unspecified> {
///         let end = self.len + MAX_TAG_LEN;
///         self.bytes.get_mut(self.len..end).ok_or(Unspecified)?.fill(0);
///         self.len = end;
///         Ok(())
///     }
///
///     fn cut_tag(&mut self) {
///         self.len -= MAX_TAG_LEN;
///     }
/// }
///
/// let key = LessSafeKey::new(UnboundKey::new(&AES_128_GCM, &[7; 16])?); // not a real key
/// let nonce = Nonce::assume_unique_for_key([1; 12]);
///
/// let mut packet = Packet { bytes: [0; 64], len: 5 };
/// packet.as_mut_bytes().copy_from_slice(b"hello");
/// key.seal_in_place_append_tag(nonce, Aad::empty(), &mut packet)?;
/// assert_eq!(packet.len, 5 + 16);
/// # Ok::<(), Unspecified>(())
/// ```
///
/// <details><summary>Ghost items</summary>
///
/// ```text
/// // The bytes in the buffer.
/// ghost bytes: { Self → List ℕ };
/// // The buffer with its bytes replaced by equally many others.
/// ghost with_bytes: { Self → List ℕ → Self };
/// // What holds of the buffer whenever `grow_by_tag` fails.
/// ghost may_refuse: { Self → Type 0 };
/// // What holds of the buffer whenever `grow_by_tag` succeeds.
/// ghost may_grant: { Self → Type 0 };
/// // `with_bytes x bs` holds the bytes `bs`, if these are as many as those of `x`.
/// ghost bytes_with_bytes: { (x : Self) (bs : List ℕ) → length bs ≡ length (bytes x) → bytes (with_bytes x bs) ≡ bs };
/// ```
///
/// </details>
pub trait InOut {
    /// Returns the bytes as a mutable slice.
    ///
    /// <details><summary>Contract</summary>
    ///
    /// ```text
    /// ensures value { result.now ≡ bytes self.old }
    /// ensures* writes_back { sem 𝓛 (Lends Self.row (Array byte 0) self.entry result (with_bytes self.old)) }
    /// ```
    ///
    /// </details>
    fn as_mut_bytes(&mut self) -> &mut [u8];

    /// Appends 16 zero bytes.
    ///
    /// # Errors
    ///
    /// Fails with `Unspecified`, and leaves the bytes unchanged, if there is no room for them.
    ///
    /// <details><summary>Contract</summary>
    ///
    /// ```text
    /// ensures granted { OnOk result (may_grant self.old) }
    /// ensures refused { OnErr result (may_refuse self.old) }
    /// ensures grown { OnOk result (bytes self.new ≡ bytes self.old ++ replicate tag_len 0) }
    /// ensures kept { OnErr result (bytes self.new ≡ bytes self.old) }
    /// ```
    ///
    /// Definitions: [`tag_len`](crate::specs::gcm#tag_len).
    ///
    /// </details>
    fn grow_by_tag(&mut self) -> Result<(), Unspecified>;

    /// Removes the last 16 bytes. The buffer must hold at least 16.
    ///
    /// <details><summary>Contract</summary>
    ///
    /// ```text
    /// requires { tag_len ≤ length (bytes self.old) }
    /// ensures { bytes self.new ≡ take (length (bytes self.old) - tag_len) (bytes self.old) }
    /// ```
    ///
    /// Definitions: [`tag_len`](crate::specs::gcm#tag_len).
    ///
    /// </details>
    fn cut_tag(&mut self);
}

/// `grow_by_tag` fails only if the spare capacity is less than 16 bytes and the allocator refuses to extend it.
///
/// <details><summary>Ghost items</summary>
///
/// ```text
/// ghost bytes = { λ v. v.items };
/// ghost with_bytes = { with_items };
/// ghost may_refuse = { λ v. vec_capacity v < vec_len v + tag_len };
/// ghost may_grant = { λ _. ⊤ };
/// ```
///
/// Definitions: [`tag_len`](crate::specs::gcm#tag_len).
///
/// </details>
#[cfg(feature = "alloc")]
impl InOut for Vec<u8> {
    fn as_mut_bytes(&mut self) -> &mut [u8] {
        self.as_mut_slice()
    }

    fn grow_by_tag(&mut self) -> Result<(), Unspecified> {
        self.try_reserve(MAX_TAG_LEN).map_err(|_| Unspecified)?;
        self.extend_from_slice(&[0; MAX_TAG_LEN]);
        Ok(())
    }

    /// Removes the last 16 bytes. The capacity is unchanged.
    ///
    /// <details><summary>Contract</summary>
    ///
    /// ```text
    /// requires { tag_len ≤ length self.old.items }
    /// ensures bytes { self.new.items ≡ take (length self.old.items - tag_len) self.old.items }
    /// ensures capacity { vec_capacity self.new ≡ vec_capacity self.old }
    /// ```
    ///
    /// Definitions: [`tag_len`](crate::specs::gcm#tag_len).
    ///
    /// </details>
    fn cut_tag(&mut self) {
        let len = self.len() - MAX_TAG_LEN;
        self.truncate(len);
    }
}
