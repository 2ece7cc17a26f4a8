// Written by tools/rust from crates/aead_ciphers/src/aes_gcm/gcm_key.rt. Don't edit.
//! The trait of expanded AES-GCM keys, over which the keys of `aead` and `aes_gcm` are generic.

use aead_ciphers_base::aes::{KeyBytes, Work};
use aead_ciphers_base::error::Unspecified;
use aead_ciphers_base::values::{Aad, Nonce, Tag};
use core::ops::RangeFrom;

/// An expanded AES-GCM key: the round keys of AES (FIPS 197 section 5.2) and the hash subkey (SP 800-38D section 7.1
/// step 1), in the form that a cipher and a hash read. The keys of `aead` and `aes_gcm::Key` are generic over it.
///
/// It is plain data without an invariant, so that it can be expanded in place. Sealing and opening require it to be as
/// `expand` left it. In Rust nothing checks this, and a call with another value may panic or return wrong results.
///
/// Calls that take a `work` add their cipher blocks and field products to it. A caller that doesn't need the numbers
/// passes `&mut Work::new()`.
///
/// <details><summary>Ghost items</summary>
///
/// ```text
/// // The bytes of the key.
/// ghost bytes_of: { Self → List ℕ };
/// // The value is as `expand` left it.
/// ghost is_expanded: { Self → Type 0 };
/// // The value before it is expanded.
/// ghost zero_key: { Self };
/// // A clone is the same value.
/// ghost clones: { (key clone : Self) → Self.is_clone key clone → clone ≡ key };
/// // Cloning never fails.
/// ghost always_clones: { (key : Self) → Self.is_infallible key };
/// ```
///
/// </details>
pub trait GcmKey: Clone {
    /// Returns a value that is not a key until `expand` is called.
    ///
    /// <details><summary>Contract</summary>
    ///
    /// ```text
    /// ensures { result ≡ zero_key }
    /// ```
    ///
    /// </details>
    fn zeros() -> Self
    where
        Self: Sized;

    /// Overwrites this value with the expansion of a key of 16 or 32 bytes, whose hash subkey is computed by one cipher
    /// block.
    ///
    /// <details><summary>Contract</summary>
    ///
    /// ```text
    /// requires { CanAdd work.old 1 0 }
    /// ensures expanded { is_expanded self.new }
    /// ensures bytes { bytes_of self.new ≡ key_bytes bytes.entry }
    /// ensures worked { Adds work.old work.new 1 0 }
    /// ```
    ///
    /// Definitions: [`CanAdd`](aead_ciphers_base::specs::work#CanAdd),
    /// [`key_bytes`](aead_ciphers_base::specs::key_bytes#key_bytes), [`Adds`](aead_ciphers_base::specs::work#Adds).
    ///
    /// </details>
    fn expand(&mut self, bytes: KeyBytes<'_>, work: &mut Work);

    /// Encrypts `in_out` in place, and returns the 16-byte tag of the ciphertext and `aad` (SP 800-38D algorithm 4).
    ///
    /// # Errors
    ///
    /// Fails with `Unspecified`, and leaves `in_out` unchanged, if it is longer than 2^36 - 32 bytes or `aad` is 2^61
    /// bytes or longer (SP 800-38D section 5.2.1.1).
    ///
    /// <details><summary>Contract</summary>
    ///
    /// ```text
    /// requires key { is_expanded self.now }
    /// requires sums { CanSeal work.old (length (aad_bytes aad)) (length in_out.old) }
    /// ensures accepted { IsOk result ↔ Fits (length (aad_bytes aad.entry)) (length in_out.old) }
    /// ensures ciphertext { OnOk result
    ///     (in_out.new ≡ gcm_encrypted (aes_cipher (bytes_of self.now)) nonce in_out.old) }
    /// ensures tag { IfOk result
    ///     (λ t. t ≡ gcm_tag (aes_cipher (bytes_of self.now)) nonce
    ///     (aad_bytes aad.entry) in_out.new) }
    /// ensures refused { OnErr result (in_out.new ≡ in_out.old) }
    /// ensures worked { SealWork (length (aad_bytes aad.entry)) (length in_out.old) result
    ///     work.old work.new }
    /// ```
    ///
    /// Definitions: [`CanSeal`](crate::specs::gcm#CanSeal), [`aad_bytes`](aead_ciphers_base::specs::values#aad_bytes),
    /// [`Fits`](crate::specs::gcm#Fits), [`gcm_encrypted`](crate::specs::gcm#gcm_encrypted),
    /// [`aes_cipher` (`aes`)](aead_ciphers_base::specs::aes#aes), [`gcm_tag`](crate::specs::gcm#gcm_tag),
    /// [`SealWork`](crate::specs::gcm#SealWork).
    ///
    /// </details>
    fn seal(
        &self,
        nonce: Nonce,
        aad: Aad<'_>,
        in_out: &mut [u8],
        work: &mut Work,
    ) -> Result<Tag, Unspecified>;

    /// Opens the ciphertext `in_out[src]` with a separate tag: writes the plaintext to the front of `in_out`, and returns
    /// its length in bytes (SP 800-38D algorithm 5).
    ///
    /// # Errors
    ///
    /// Fails with `Unspecified`, and leaves `in_out` unchanged, in these cases, which are checked in this order:
    ///
    /// - `src.start` is greater than `in_out.len()`.
    /// - The lengths exceed the limits of [`seal`](Self::seal).
    /// - `received_tag` is not the tag of the ciphertext and `aad`.
    ///
    /// <details><summary>Contract</summary>
    ///
    /// ```text
    /// requires key { is_expanded self.now }
    /// requires sums { CanOpen work.old (length (aad_bytes aad)) src.start (length in_out.old) }
    /// ensures opened { Opened (aes_cipher (bytes_of self.now)) nonce (aad_bytes aad.entry)
    ///     received_tag src.start in_out.old (is_ok result) in_out.new }
    /// ensures count { IfOk result (λ n. n ≡ length in_out.old - src.start) }
    /// ensures refused { OnErr result (in_out.new ≡ in_out.old) }
    /// ensures worked { OpenWork (length (aad_bytes aad.entry)) src.start (length in_out.old)
    ///     result work.old work.new }
    /// ```
    ///
    /// Definitions: [`CanOpen`](crate::specs::gcm#CanOpen), [`aad_bytes`](aead_ciphers_base::specs::values#aad_bytes),
    /// [`Opened`](crate::specs::gcm#Opened), [`aes_cipher` (`aes`)](aead_ciphers_base::specs::aes#aes),
    /// [`OpenWork`](crate::specs::gcm#OpenWork).
    ///
    /// </details>
    fn open(
        &self,
        nonce: Nonce,
        aad: Aad<'_>,
        received_tag: Tag,
        in_out: &mut [u8],
        src: RangeFrom<usize>,
        work: &mut Work,
    ) -> Result<usize, Unspecified>;

    /// Opens `ciphertext` with a separate tag, and writes the plaintext to `out`, which must be equally long (SP 800-38D
    /// algorithm 5).
    ///
    /// # Errors
    ///
    /// Fails with `Unspecified`, and leaves `out` unchanged, if the lengths exceed the limits of [`seal`](Self::seal),
    /// or if `received_tag` is not the tag of the ciphertext and `aad`.
    ///
    /// # Panics
    ///
    /// In Rust, panics if the tag is right and `out` and `ciphertext` differ in length.
    ///
    /// <details><summary>Contract</summary>
    ///
    /// ```text
    /// requires key { is_expanded self.now }
    /// requires sums { CanSeal work.old (length (aad_bytes aad)) (length ciphertext.now) }
    /// requires lengths { length out.old ≡ length ciphertext.now }
    /// ensures accepted { IsOk result
    ///     ↔ (Fits (length (aad_bytes aad.entry)) (length ciphertext.now)
    ///     × (received_tag ≡ gcm_tag (aes_cipher (bytes_of self.now)) nonce
    ///     (aad_bytes aad.entry) ciphertext.now)) }
    /// ensures plaintext { OnOk result
    ///     (out.new ≡ gcm_decrypted (aes_cipher (bytes_of self.now)) nonce ciphertext.now) }
    /// ensures refused { OnErr result (out.new ≡ out.old) }
    /// ensures worked { OpenWork (length (aad_bytes aad.entry)) 0 (length ciphertext.now) result
    ///     work.old work.new }
    /// ```
    ///
    /// Definitions: [`CanSeal`](crate::specs::gcm#CanSeal), [`aad_bytes`](aead_ciphers_base::specs::values#aad_bytes),
    /// [`Fits`](crate::specs::gcm#Fits), [`gcm_tag`](crate::specs::gcm#gcm_tag),
    /// [`aes_cipher` (`aes`)](aead_ciphers_base::specs::aes#aes), [`gcm_decrypted`](crate::specs::gcm#gcm_decrypted),
    /// [`OpenWork`](crate::specs::gcm#OpenWork).
    ///
    /// </details>
    fn open_to(
        &self,
        nonce: Nonce,
        aad: Aad<'_>,
        received_tag: Tag,
        ciphertext: &[u8],
        out: &mut [u8],
        work: &mut Work,
    ) -> Result<(), Unspecified>;
}
