// Written by tools/rust from crates/xaes/src/expanded.rt. Don't edit.
//! An expanded key of XAES-256-GCM as plain data, for memory that the library does not own: a C struct, or a table of keys.

use crate::cmac::{Cmac, first_subkey};
use crate::nonce::XNonce;
use aead_ciphers::aes_gcm::GcmKey;
use aead_ciphers::gcm::fits;
use aead_ciphers_base::aes::{AES_256_KEY_LEN, KeyBytes, Work};
use aead_ciphers_base::error::Unspecified;
use aead_ciphers_base::values::{Aad, Nonce, Tag};
use aead_ciphers_wide::aes::{self, BlockKeyRef, Width};
use aead_ciphers_wide::aes_gcm;
use core::ops::RangeFrom;

/// An expanded key of XAES-256-GCM as plain data: what every message needs of the key, which is computed once.
///
/// Sealing and opening require the fields to be as `expand` left them. In Rust nothing checks this, and a call with other fields
/// may panic or return wrong results. The fields are only read, so many threads may use a key at once.
///
/// The key that a call derives for its message, and its expansion, may stay in the memory of the call.
///
/// # Examples
///
/// ```
/// use deerlapse::aead::{Aad, Unspecified};
/// use deerlapse::aes_gcm::Width;
/// use deerlapse::xaes::{ExpandedKey, XNonce};
///
/// let mut key = ExpandedKey::zeros();
/// key.expand(&[7; 32], Width::Bits128); // not a real key
///
/// let nonce = || XNonce::assume_unique_for_key([1; 24]); // another for each message
/// let (mut sealed, mut opened) = ([0; 5], [0; 5]);
/// let tag = key.seal_to(nonce(), Aad::empty(), b"hello", &mut sealed)?;
/// key.open_to(nonce(), Aad::empty(), tag, &sealed, &mut opened)?;
/// assert_eq!(&opened, b"hello");
/// # Ok::<(), Unspecified>(())
/// ```
#[repr(C)]
#[derive(Clone)]
pub struct ExpandedKey {
    /// The number of rounds of AES-256, 14.
    pub rounds: u32,
    /// The width of the planes on which batches of a message are encrypted, in bits: 256, or 128 for any other number. It changes
    /// no result.
    pub width: u32,
    /// The round keys (FIPS 197 section 5.2).
    pub round_keys: [[u8; 16]; 15],
    /// The first subkey K1 of CMAC (SP 800-38B section 6.1).
    pub subkey: [u8; 16],
}

/// Overwrites the secret fields with zeros.
impl Drop for ExpandedKey {
    fn drop(&mut self) {
        simd::wipe(&mut self.round_keys);
        simd::wipe(&mut self.subkey);
    }
}

impl ExpandedKey {
    /// Returns a value that is not a key until `expand` is called.
    ///
    /// <details><summary>Contract</summary>
    ///
    /// ```text
    /// ensures { result ≡ zero_key }
    /// ```
    ///
    /// Definitions: [`zero_key`](crate::specs::expanded#zero_key).
    ///
    /// </details>
    pub fn zeros() -> Self {
        ExpandedKey {
            rounds: 0,
            width: 0,
            round_keys: [[0; 16]; 15],
            subkey: [0; 16],
        }
    }

    /// Overwrites the whole of this value with the expansion of a key, whose messages are encrypted on planes of this width.
    ///
    /// <details><summary>Contract</summary>
    ///
    /// ```text
    /// ensures expanded { IsExpanded self.new }
    /// ensures bytes { bytes_of self.new ≡ bytes.now }
    /// ensures width { self.new.width ≡ width_bits width }
    /// ```
    ///
    /// Definitions: [`IsExpanded`](crate::specs::expanded#IsExpanded), [`bytes_of`](crate::specs::expanded#bytes_of),
    /// [`width_bits`](aead_ciphers_wide::specs::width#width_bits).
    ///
    /// </details>
    pub fn expand(&mut self, bytes: &[u8; AES_256_KEY_LEN], width: Width) {
        simd::run(ExpandedKeyExpand {
            key: self,
            bytes,
            width,
        })
    }

    #[inline(always)]
    fn expand_at<V: simd::Level>(&mut self, bytes: &[u8; AES_256_KEY_LEN], width: Width) {
        let rounds = aes::expand::<V>(&mut self.round_keys, KeyBytes::AES_256(bytes));
        self.rounds = rounds as u32;
        self.width = width.bits();
        self.subkey = first_subkey(&BlockKeyRef::<V>::new(&self.round_keys, rounds));
    }

    /// Borrows CMAC under this key, which derives the keys of messages.
    // requires { IsExpanded self.now }
    // ensures { result ≡ bytes_of self.now }
    pub(crate) fn cmac<V: simd::Level>(&self) -> Cmac<'_, V> {
        Cmac::<V>::new(
            BlockKeyRef::<V>::new(&self.round_keys, self.rounds as usize),
            self.subkey,
        )
    }

    /// Returns the width of the planes on which messages are encrypted.
    // ensures { width_bits result ≡ message_width self.now }
    fn width(&self) -> Width {
        if self.width == Width::Bits256.bits() {
            Width::Bits256
        } else {
            Width::Bits128
        }
    }

    /// Overwrites `message_key` with the expansion of the AES-256-GCM key that is derived for the first half of this nonce, and
    /// returns the last half, which is the nonce of AES-256-GCM.
    ///
    /// <details><summary>Contract</summary>
    ///
    /// ```text
    /// requires { IsExpanded self.now }
    /// ensures expanded { IsGcmKey message_key.new }
    /// ensures bytes { gcm_key_bytes message_key.new ≡ message_key_of (bytes_of self.now) nonce }
    /// ensures nonce { result ≡ message_nonce nonce }
    /// ensures width { message_key.new.width ≡ message_width self.now }
    /// ```
    ///
    /// Definitions: [`IsExpanded`](crate::specs::expanded#IsExpanded),
    /// [`IsGcmKey` (`IsExpanded`)](aead_ciphers_wide::specs::expanded_key#IsExpanded),
    /// [`gcm_key_bytes` (`bytes_of`)](aead_ciphers_wide::specs::expanded_key#bytes_of),
    /// [`message_key_of` (`message_key`)](crate::specs::xaes#message_key),
    /// [`bytes_of`](crate::specs::expanded#bytes_of), [`message_nonce`](crate::specs::xaes#message_nonce),
    /// [`message_width`](crate::specs::expanded#message_width).
    ///
    /// </details>
    pub fn expand_message_key(
        &self,
        nonce: XNonce,
        message_key: &mut aes_gcm::ExpandedKey,
    ) -> Nonce {
        simd::run(ExpandedKeyExpandMessageKey {
            key: self,
            nonce,
            message_key,
        })
    }

    #[inline(always)]
    fn expand_message_key_at<V: simd::Level>(
        &self,
        nonce: XNonce,
        message_key: &mut aes_gcm::ExpandedKey,
    ) -> Nonce {
        let bytes = self.cmac::<V>().derived_key(&nonce.context());
        message_key.expand_with_width(KeyBytes::AES_256(&bytes), self.width(), &mut Work::new());
        nonce.message_nonce()
    }

    /// Encrypts `in_out` in place, and returns the 16-byte tag of the ciphertext and `aad`.
    ///
    /// # Errors
    ///
    /// Fails with `Unspecified`, and leaves `in_out` unchanged, if it is longer than 2^36 - 32 bytes or `aad` is 2^61 bytes or
    /// longer (SP 800-38D section 5.2.1.1).
    ///
    /// <details><summary>Contract</summary>
    ///
    /// ```text
    /// requires { IsExpanded self.now }
    /// ensures accepted { IsOk result ↔ Fits (length (aad_bytes aad.entry)) (length in_out.old) }
    /// ensures ciphertext { OnOk result (in_out.new ≡ xaes_encrypted (bytes_of self.now) nonce in_out.old) }
    /// ensures tag { IfOk result (λ tag. tag ≡ xaes_tag (bytes_of self.now) nonce (aad_bytes aad.entry) in_out.new) }
    /// ensures refused { OnErr result (in_out.new ≡ in_out.old) }
    /// ```
    ///
    /// Definitions: [`IsExpanded`](crate::specs::expanded#IsExpanded), [`Fits`](aead_ciphers::specs::gcm#Fits),
    /// [`aad_bytes`](aead_ciphers_base::specs::values#aad_bytes),
    /// [`xaes_encrypted`](crate::specs::xaes#xaes_encrypted), [`bytes_of`](crate::specs::expanded#bytes_of),
    /// [`xaes_tag`](crate::specs::xaes#xaes_tag).
    ///
    /// </details>
    pub fn seal(&self, nonce: XNonce, aad: Aad<'_>, in_out: &mut [u8]) -> Result<Tag, Unspecified> {
        let mut key = aes_gcm::ExpandedKey::zeros();
        let nonce = self.expand_message_key(nonce, &mut key);
        key.seal(nonce, aad, in_out, &mut Work::new())
    }

    /// Encrypts `plaintext` to `out`, which must be equally long, and returns the 16-byte tag of the ciphertext and `aad`.
    ///
    /// # Errors
    ///
    /// Fails with `Unspecified`, and leaves `out` unchanged, if the lengths exceed the limits of [`seal`](Self::seal).
    ///
    /// # Panics
    ///
    /// In Rust, panics if the lengths are within the limits and `out` and `plaintext` differ in length.
    ///
    /// <details><summary>Contract</summary>
    ///
    /// ```text
    /// requires key { IsExpanded self.now }
    /// requires lengths { length out.old ≡ length plaintext.now }
    /// ensures accepted { IsOk result ↔ Fits (length (aad_bytes aad.entry)) (length plaintext.now) }
    /// ensures ciphertext { OnOk result (out.new ≡ xaes_encrypted (bytes_of self.now) nonce plaintext.now) }
    /// ensures tag { IfOk result (λ tag. tag ≡ xaes_tag (bytes_of self.now) nonce (aad_bytes aad.entry) out.new) }
    /// ensures refused { OnErr result (out.new ≡ out.old) }
    /// ```
    ///
    /// Definitions: [`IsExpanded`](crate::specs::expanded#IsExpanded), [`Fits`](aead_ciphers::specs::gcm#Fits),
    /// [`aad_bytes`](aead_ciphers_base::specs::values#aad_bytes),
    /// [`xaes_encrypted`](crate::specs::xaes#xaes_encrypted), [`bytes_of`](crate::specs::expanded#bytes_of),
    /// [`xaes_tag`](crate::specs::xaes#xaes_tag).
    ///
    /// </details>
    pub fn seal_to(
        &self,
        nonce: XNonce,
        aad: Aad<'_>,
        plaintext: &[u8],
        out: &mut [u8],
    ) -> Result<Tag, Unspecified> {
        if !fits(aad.as_ref().len(), plaintext.len()) {
            return Err(Unspecified);
        }
        out.copy_from_slice(plaintext);
        self.seal(nonce, aad, out)
    }

    /// Opens the ciphertext `in_out[src]` with a separate tag: writes the plaintext to the front of `in_out`, and returns its
    /// length in bytes. The bytes after it are unchanged.
    ///
    /// # Errors
    ///
    /// Fails with `Unspecified`, and leaves `in_out` unchanged, in these cases, which are checked in this order:
    ///
    /// - `src.start` is greater than `in_out.len()`.
    /// - The lengths exceed the limits of [`seal`](Self::seal).
    /// - `received_tag` is not the tag of the ciphertext and `aad`.
    ///
    /// <details><summary>Contract</summary>
    ///
    /// ```text
    /// requires { IsExpanded self.now }
    /// ensures opened { XaesOpened (bytes_of self.now) nonce (aad_bytes aad.entry) received_tag src.start
    ///     in_out.old (is_ok result) in_out.new }
    /// ensures count { IfOk result (λ n. n ≡ length in_out.old - src.start) }
    /// ensures refused { OnErr result (in_out.new ≡ in_out.old) }
    /// ```
    ///
    /// Definitions: [`IsExpanded`](crate::specs::expanded#IsExpanded), [`XaesOpened`](crate::specs::xaes#XaesOpened),
    /// [`bytes_of`](crate::specs::expanded#bytes_of), [`aad_bytes`](aead_ciphers_base::specs::values#aad_bytes).
    ///
    /// </details>
    pub fn open(
        &self,
        nonce: XNonce,
        aad: Aad<'_>,
        received_tag: Tag,
        in_out: &mut [u8],
        src: RangeFrom<usize>,
    ) -> Result<usize, Unspecified> {
        let mut key = aes_gcm::ExpandedKey::zeros();
        let nonce = self.expand_message_key(nonce, &mut key);
        key.open(nonce, aad, received_tag, in_out, src, &mut Work::new())
    }

    /// Opens as [`open`](Self::open) does, but the tag is the last 16 bytes of `in_out`, which are unchanged. Also fails if
    /// `in_out` is shorter than 16 bytes.
    ///
    /// <details><summary>Contract</summary>
    ///
    /// ```text
    /// requires { IsExpanded self.now }
    /// ensures opened { XaesOpenedAttached (bytes_of self.now) nonce (aad_bytes aad.entry)
    ///     ciphertext_and_tag.start in_out.old (is_ok result) in_out.new }
    /// ensures count { IfOk result (λ n. n ≡ length in_out.old - tag_len - ciphertext_and_tag.start) }
    /// ensures refused { OnErr result (in_out.new ≡ in_out.old) }
    /// ```
    ///
    /// Definitions: [`IsExpanded`](crate::specs::expanded#IsExpanded),
    /// [`XaesOpenedAttached`](crate::specs::xaes#XaesOpenedAttached), [`bytes_of`](crate::specs::expanded#bytes_of),
    /// [`aad_bytes`](aead_ciphers_base::specs::values#aad_bytes), [`tag_len`](aead_ciphers::specs::gcm#tag_len).
    ///
    /// </details>
    pub fn open_within_to_front(
        &self,
        nonce: XNonce,
        aad: Aad<'_>,
        in_out: &mut [u8],
        ciphertext_and_tag: RangeFrom<usize>,
    ) -> Result<usize, Unspecified> {
        let mut key = aes_gcm::ExpandedKey::zeros();
        let nonce = self.expand_message_key(nonce, &mut key);
        key.open_within_to_front(nonce, aad, in_out, ciphertext_and_tag)
    }

    /// Opens `ciphertext` with a separate tag, and writes the plaintext to `out`, which must be equally long.
    ///
    /// # Errors
    ///
    /// Fails with `Unspecified`, and leaves `out` unchanged, if the lengths exceed the limits of [`seal`](Self::seal), or if
    /// `received_tag` is not the tag of the ciphertext and `aad`.
    ///
    /// # Panics
    ///
    /// In Rust, panics if the tag is right and `out` and `ciphertext` differ in length.
    ///
    /// <details><summary>Contract</summary>
    ///
    /// ```text
    /// requires key { IsExpanded self.now }
    /// requires lengths { length out.old ≡ length ciphertext.now }
    /// ensures accepted { IsOk result ↔ (Fits (length (aad_bytes aad.entry)) (length ciphertext.now)
    ///     × (received_tag ≡ xaes_tag (bytes_of self.now) nonce (aad_bytes aad.entry) ciphertext.now)) }
    /// ensures plaintext { OnOk result (out.new ≡ xaes_decrypted (bytes_of self.now) nonce ciphertext.now) }
    /// ensures refused { OnErr result (out.new ≡ out.old) }
    /// ```
    ///
    /// Definitions: [`IsExpanded`](crate::specs::expanded#IsExpanded), [`Fits`](aead_ciphers::specs::gcm#Fits),
    /// [`aad_bytes`](aead_ciphers_base::specs::values#aad_bytes), [`xaes_tag`](crate::specs::xaes#xaes_tag),
    /// [`bytes_of`](crate::specs::expanded#bytes_of), [`xaes_decrypted`](crate::specs::xaes#xaes_decrypted).
    ///
    /// </details>
    pub fn open_to(
        &self,
        nonce: XNonce,
        aad: Aad<'_>,
        received_tag: Tag,
        ciphertext: &[u8],
        out: &mut [u8],
    ) -> Result<(), Unspecified> {
        let mut key = aes_gcm::ExpandedKey::zeros();
        let nonce = self.expand_message_key(nonce, &mut key);
        key.open_to(nonce, aad, received_tag, ciphertext, out, &mut Work::new())
    }
}

/// `ExpandedKey::expand` as a job.
struct ExpandedKeyExpand<'a> {
    key: &'a mut ExpandedKey,
    bytes: &'a [u8; AES_256_KEY_LEN],
    width: Width,
}

impl simd::Job for ExpandedKeyExpand<'_> {
    type Output = ();

    #[inline(always)]
    fn run<V: simd::Level>(self) {
        self.key.expand_at::<V>(self.bytes, self.width);
    }
}

/// `ExpandedKey::expand_message_key` as a job.
struct ExpandedKeyExpandMessageKey<'a> {
    key: &'a ExpandedKey,
    nonce: XNonce,
    message_key: &'a mut aes_gcm::ExpandedKey,
}

impl simd::Job for ExpandedKeyExpandMessageKey<'_> {
    type Output = Nonce;

    #[inline(always)]
    fn run<V: simd::Level>(self) -> Nonce {
        self.key
            .expand_message_key_at::<V>(self.nonce, self.message_key)
    }
}
