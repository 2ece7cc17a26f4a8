// Written by tools/rust from crates/xaes/src/key.rt. Don't edit.
//! The key of XAES-256-GCM, whose calls take the nonce as an argument.

use crate::cmac::Context;
use crate::expanded::ExpandedKey;
use crate::nonce::XNonce;
use aead_ciphers::aead::{AES_256_GCM, InOut};
use aead_ciphers::aes_gcm::GcmKey;
use aead_ciphers_base::aes::AES_256_KEY_LEN;
use aead_ciphers_base::error::Unspecified;
use aead_ciphers_base::values::{Aad, Tag};
use aead_ciphers_wide::aead::LessSafeKey;
use aead_ciphers_wide::aes::Width;
use aead_ciphers_wide::aes_gcm;
use core::fmt;
use core::ops::RangeFrom;

/// A key of XAES-256-GCM, whose calls take the nonce as an argument: 24 bytes that may be drawn at random for each message, up to
/// 2^80 messages under one key by the specification. No call draws them. It is the caller's responsibility that no nonce is used
/// twice under one key.
///
/// What each message needs of the key is computed once, by `new`. Each call derives the AES-256-GCM key of its message, and expands
/// it. No contract promises that either is overwritten when the call returns, since none can say what the memory of a call holds
/// afterwards.
///
/// Like AES-GCM, XAES-256-GCM does not commit to the key: a ciphertext and tag can be made that two keys open.
///
/// # Examples
///
/// The key, the nonce and the message of a vector of the specification:
///
/// ```
/// use deerlapse::aead::{Aad, Unspecified};
/// use deerlapse::xaes::{XNonce, Xaes256Gcm};
///
/// let key = Xaes256Gcm::new(&[1; 32]); // a real key is drawn at random and kept secret
/// let nonce = || XNonce::assume_unique_for_key(*b"ABCDEFGHIJKLMNOPQRSTUVWX");
///
/// let mut message = b"XAES-256-GCM".to_vec();
/// key.seal_in_place_append_tag(nonce(), Aad::empty(), &mut message)?;
/// let ciphertext = [0xce, 0x54, 0x6e, 0xf6, 0x3c, 0x9c, 0xc6, 0x07, 0x65, 0x92, 0x36, 0x09];
/// assert_eq!(message[..12], ciphertext);
///
/// let len = key.open_in_place_to_front(nonce(), Aad::empty(), &mut message)?;
/// assert_eq!(&message[..len], b"XAES-256-GCM");
/// # Ok::<(), Unspecified>(())
/// ```
///
/// <details><summary>Model</summary>
///
/// ```text
/// ghost Value = { List ℕ };
/// ghost view = { λ key. bytes_of key.expanded };
/// ghost invariant = { λ key. IsExpanded key.expanded };
/// ```
///
/// Definitions: [`bytes_of`](crate::specs::expanded#bytes_of), [`IsExpanded`](crate::specs::expanded#IsExpanded).
///
/// </details>
pub struct Xaes256Gcm {
    expanded: ExpandedKey,
}

/// Copies the expanded key. Cloning allocates no memory and always succeeds.
///
/// <details><summary>Ghost items</summary>
///
/// ```text
/// // What holds of a value and of what `clone` returns for it.
/// ghost is_clone = { λ key clone. clone ≡ key };
/// // For which values `clone` doesn't fail.
/// ghost is_infallible = { λ _. ⊤ };
/// ```
///
/// </details>
impl Clone for Xaes256Gcm {
    fn clone(&self) -> Self {
        Xaes256Gcm {
            expanded: self.expanded.clone(),
        }
    }
}

impl Xaes256Gcm {
    /// Creates a key from 32 bytes. The round keys (FIPS 197 section 5.2) and the first subkey of CMAC (SP 800-38B section 6.1)
    /// are computed here, once.
    ///
    /// <details><summary>Contract</summary>
    ///
    /// ```text
    /// ensures { result ≡ bytes.now }
    /// ```
    ///
    /// </details>
    pub fn new(bytes: &[u8; AES_256_KEY_LEN]) -> Self {
        let mut expanded = ExpandedKey::zeros();
        expanded.expand(bytes, Width::of_processor());
        Xaes256Gcm { expanded }
    }

    /// Creates a key from its expanded key, which must be as [`ExpandedKey::expand`] left it. Its messages may be encrypted on
    /// planes of either width.
    ///
    /// <details><summary>Contract</summary>
    ///
    /// ```text
    /// requires { IsExpanded key }
    /// ensures { result ≡ bytes_of key }
    /// ```
    ///
    /// Definitions: [`IsExpanded`](crate::specs::expanded#IsExpanded), [`bytes_of`](crate::specs::expanded#bytes_of).
    ///
    /// </details>
    pub fn from_expanded(key: ExpandedKey) -> Self {
        Xaes256Gcm { expanded: key }
    }

    /// Returns the AES-256-GCM key of the messages whose nonces begin with this context.
    ///
    /// <details><summary>Contract</summary>
    ///
    /// ```text
    /// ensures { result ≡ derived_key self.now context.now }
    /// ```
    ///
    /// Definitions: [`derived_key`](crate::specs::derivation#derived_key).
    ///
    /// </details>
    pub fn derived_key(&self, context: &Context) -> [u8; AES_256_KEY_LEN] {
        simd::run(Xaes256GcmDerivedKey { key: self, context })
    }

    #[inline(always)]
    fn derived_key_at<V: simd::Level>(&self, context: &Context) -> [u8; AES_256_KEY_LEN] {
        self.expanded.cmac::<V>().derived_key(context)
    }

    /// Returns two iterations of the derivation of which `derived_key` returns iterations 1 and 2, 16 bytes each, concatenated. A
    /// format may take others for further keys.
    ///
    /// <details><summary>Contract</summary>
    ///
    /// ```text
    /// ensures { result ≡ derived_block self.now context.now first ++ derived_block self.now context.now second }
    /// ```
    ///
    /// Definitions: [`derived_block`](crate::specs::derivation#derived_block).
    ///
    /// </details>
    pub fn derived_blocks(
        &self,
        context: &Context,
        first: u16,
        second: u16,
    ) -> [u8; AES_256_KEY_LEN] {
        simd::run(Xaes256GcmDerivedBlocks {
            key: self,
            context,
            first,
            second,
        })
    }

    #[inline(always)]
    fn derived_blocks_at<V: simd::Level>(
        &self,
        context: &Context,
        first: u16,
        second: u16,
    ) -> [u8; AES_256_KEY_LEN] {
        self.expanded
            .cmac::<V>()
            .derived_blocks(context, first, second)
    }

    /// Encrypts `in_out` in place, and returns the 16-byte tag of the ciphertext and `aad`.
    ///
    /// `in_out` holds the plaintext before the call, and the equally long ciphertext after it.
    ///
    /// # Errors
    ///
    /// Fails with `Unspecified`, and leaves `in_out` unchanged, if the plaintext is longer than 2^36 - 32 bytes or `aad` is 2^61
    /// bytes or longer (SP 800-38D section 5.2.1.1).
    ///
    /// <details><summary>Contract</summary>
    ///
    /// ```text
    /// ensures accepted { IsOk result ↔ Fits (length (aad_bytes aad.entry)) (length in_out.old) }
    /// ensures ciphertext { OnOk result (in_out.new ≡ xaes_encrypted self.now nonce in_out.old) }
    /// ensures tag { IfOk result (λ tag. tag ≡ xaes_tag self.now nonce (aad_bytes aad.entry) in_out.new) }
    /// ensures refused { OnErr result (in_out.new ≡ in_out.old) }
    /// ```
    ///
    /// Definitions: [`Fits`](aead_ciphers::specs::gcm#Fits), [`aad_bytes`](aead_ciphers_base::specs::values#aad_bytes),
    /// [`xaes_encrypted`](crate::specs::xaes#xaes_encrypted), [`xaes_tag`](crate::specs::xaes#xaes_tag).
    ///
    /// </details>
    pub fn seal_in_place_separate_tag(
        &self,
        nonce: XNonce,
        aad: Aad<'_>,
        in_out: &mut [u8],
    ) -> Result<Tag, Unspecified> {
        self.expanded.seal(nonce, aad, in_out)
    }

    /// Encrypts the bytes of `in_out` in place, and appends the tag of the ciphertext and `aad`.
    ///
    /// `in_out` holds n bytes of plaintext before the call, and n bytes of ciphertext followed by the 16-byte tag after it.
    ///
    /// # Errors
    ///
    /// Fails with `Unspecified`, and leaves the bytes of `in_out` unchanged, if there is no room for the tag, which is reserved
    /// first, or else if the lengths exceed the limits of [`seal_in_place_separate_tag`](Self::seal_in_place_separate_tag).
    ///
    /// <details><summary>Contract</summary>
    ///
    /// ```text
    /// ensures sealed { OnOk result (B.bytes in_out.new
    ///     ≡ xaes_sealed self.now nonce (aad_bytes aad.entry) (B.bytes in_out.old)) }
    /// ensures refused { OnErr result (B.bytes in_out.new ≡ B.bytes in_out.old) }
    /// ensures length { OnOk result (length (B.bytes in_out.new) ≡ length (B.bytes in_out.old) + tag_len) }
    /// ensures granted { IsOk result → B.may_grant in_out.old }
    /// ensures fits { IsOk result → Fits (length (aad_bytes aad.entry)) (length (B.bytes in_out.old)) }
    /// ensures refuses { OnErr result (Fits (length (aad_bytes aad.entry)) (length (B.bytes in_out.old))
    ///     → B.may_refuse in_out.old) }
    /// ```
    ///
    /// Definitions: [`xaes_sealed`](crate::specs::xaes#xaes_sealed),
    /// [`aad_bytes`](aead_ciphers_base::specs::values#aad_bytes), [`tag_len`](aead_ciphers::specs::gcm#tag_len),
    /// [`Fits`](aead_ciphers::specs::gcm#Fits).
    ///
    /// </details>
    pub fn seal_in_place_append_tag<B: InOut>(
        &self,
        nonce: XNonce,
        aad: Aad<'_>,
        in_out: &mut B,
    ) -> Result<(), Unspecified> {
        let mut key = aes_gcm::ExpandedKey::zeros();
        let nonce = self.expanded.expand_message_key(nonce, &mut key);
        LessSafeKey::from_expanded(&AES_256_GCM, key).seal_in_place_append_tag(nonce, aad, in_out)
    }

    /// Encrypts `plaintext` to `out`, which must be equally long, and returns the 16-byte tag of the ciphertext and `aad`.
    ///
    /// # Errors
    ///
    /// Fails with `Unspecified`, and leaves `out` unchanged, if the lengths exceed the limits of
    /// [`seal_in_place_separate_tag`](Self::seal_in_place_separate_tag).
    ///
    /// # Panics
    ///
    /// In Rust, panics if the lengths are within the limits and `out` and `plaintext` differ in length.
    ///
    /// <details><summary>Contract</summary>
    ///
    /// ```text
    /// requires { length out.old ≡ length plaintext.now }
    /// ensures accepted { IsOk result ↔ Fits (length (aad_bytes aad.entry)) (length plaintext.now) }
    /// ensures ciphertext { OnOk result (out.new ≡ xaes_encrypted self.now nonce plaintext.now) }
    /// ensures tag { IfOk result (λ tag. tag ≡ xaes_tag self.now nonce (aad_bytes aad.entry) out.new) }
    /// ensures refused { OnErr result (out.new ≡ out.old) }
    /// ```
    ///
    /// Definitions: [`Fits`](aead_ciphers::specs::gcm#Fits), [`aad_bytes`](aead_ciphers_base::specs::values#aad_bytes),
    /// [`xaes_encrypted`](crate::specs::xaes#xaes_encrypted), [`xaes_tag`](crate::specs::xaes#xaes_tag).
    ///
    /// </details>
    pub fn seal_to(
        &self,
        nonce: XNonce,
        aad: Aad<'_>,
        plaintext: &[u8],
        out: &mut [u8],
    ) -> Result<Tag, Unspecified> {
        self.expanded.seal_to(nonce, aad, plaintext, out)
    }

    /// Opens a ciphertext in place with a separate tag, and returns the length of the plaintext in bytes.
    ///
    /// The ciphertext is `in_out[ciphertext]`. The plaintext, which is equally long, is written to the front of `in_out`. The bytes
    /// after it are unchanged.
    ///
    /// # Errors
    ///
    /// Fails with `Unspecified`, and leaves `in_out` unchanged, in these cases, which are checked in this order:
    ///
    /// - `ciphertext.start` is greater than `in_out.len()`.
    /// - The lengths exceed the limits of [`seal_in_place_separate_tag`](Self::seal_in_place_separate_tag).
    /// - `tag` is not the tag of the ciphertext and `aad`.
    ///
    /// <details><summary>Contract</summary>
    ///
    /// ```text
    /// ensures opened { XaesOpened self.now nonce (aad_bytes aad.entry) tag ciphertext.start
    ///     in_out.old (is_ok result) in_out.new }
    /// ensures count { IfOk result (λ n. n ≡ length in_out.old - ciphertext.start) }
    /// ensures refused { OnErr result (in_out.new ≡ in_out.old) }
    /// ```
    ///
    /// Definitions: [`XaesOpened`](crate::specs::xaes#XaesOpened),
    /// [`aad_bytes`](aead_ciphers_base::specs::values#aad_bytes).
    ///
    /// </details>
    pub fn open_in_place_separate_tag_to_front(
        &self,
        nonce: XNonce,
        aad: Aad<'_>,
        tag: Tag,
        in_out: &mut [u8],
        ciphertext: RangeFrom<usize>,
    ) -> Result<usize, Unspecified> {
        self.expanded.open(nonce, aad, tag, in_out, ciphertext)
    }

    /// Opens a ciphertext in place with its tag attached, and returns the length of the plaintext in bytes.
    ///
    /// The ciphertext followed by the 16-byte tag is `in_out[ciphertext_and_tag]`. The plaintext, which is as long as the
    /// ciphertext, is written to the front of `in_out`. The bytes after it, including the tag, are unchanged.
    ///
    /// # Errors
    ///
    /// Fails with `Unspecified`, and leaves `in_out` unchanged, in these cases, which are checked in this order:
    ///
    /// - `in_out` is shorter than 16 bytes.
    /// - `ciphertext_and_tag.start` is greater than `in_out.len() - 16`.
    /// - The lengths exceed the limits of [`seal_in_place_separate_tag`](Self::seal_in_place_separate_tag).
    /// - The tag is not that of the ciphertext and `aad`.
    ///
    /// <details><summary>Contract</summary>
    ///
    /// ```text
    /// ensures opened { XaesOpenedAttached self.now nonce (aad_bytes aad.entry) ciphertext_and_tag.start
    ///     in_out.old (is_ok result) in_out.new }
    /// ensures count { IfOk result (λ n. n ≡ length in_out.old - tag_len - ciphertext_and_tag.start) }
    /// ensures refused { OnErr result (in_out.new ≡ in_out.old) }
    /// ```
    ///
    /// Definitions: [`XaesOpenedAttached`](crate::specs::xaes#XaesOpenedAttached),
    /// [`aad_bytes`](aead_ciphers_base::specs::values#aad_bytes), [`tag_len`](aead_ciphers::specs::gcm#tag_len).
    ///
    /// </details>
    pub fn open_within_to_front(
        &self,
        nonce: XNonce,
        aad: Aad<'_>,
        in_out: &mut [u8],
        ciphertext_and_tag: RangeFrom<usize>,
    ) -> Result<usize, Unspecified> {
        self.expanded
            .open_within_to_front(nonce, aad, in_out, ciphertext_and_tag)
    }

    /// Opens the whole of `in_out`, like [`open_within_to_front`](Self::open_within_to_front) with the range `0..`. If it returns
    /// n, the plaintext is `in_out[..n]`.
    ///
    /// <details><summary>Contract</summary>
    ///
    /// ```text
    /// ensures opened { XaesOpenedAttached self.now nonce (aad_bytes aad.entry) 0
    ///     in_out.old (is_ok result) in_out.new }
    /// ensures count { IfOk result (λ n. n ≡ length in_out.old - tag_len) }
    /// ensures refused { OnErr result (in_out.new ≡ in_out.old) }
    /// ```
    ///
    /// Definitions: [`XaesOpenedAttached`](crate::specs::xaes#XaesOpenedAttached),
    /// [`aad_bytes`](aead_ciphers_base::specs::values#aad_bytes), [`tag_len`](aead_ciphers::specs::gcm#tag_len).
    ///
    /// </details>
    pub fn open_in_place_to_front(
        &self,
        nonce: XNonce,
        aad: Aad<'_>,
        in_out: &mut [u8],
    ) -> Result<usize, Unspecified> {
        self.open_within_to_front(nonce, aad, in_out, 0..)
    }

    /// Opens `ciphertext` with a separate tag, and writes the plaintext to `out`, which must be equally long.
    ///
    /// # Errors
    ///
    /// Fails with `Unspecified`, and leaves `out` unchanged, if the lengths exceed the limits of
    /// [`seal_in_place_separate_tag`](Self::seal_in_place_separate_tag), or if `tag` is not the tag of the ciphertext and `aad`.
    ///
    /// # Panics
    ///
    /// In Rust, panics if the tag is right and `out` and `ciphertext` differ in length.
    ///
    /// <details><summary>Contract</summary>
    ///
    /// ```text
    /// requires { length out.old ≡ length ciphertext.now }
    /// ensures accepted { IsOk result ↔ (Fits (length (aad_bytes aad.entry)) (length ciphertext.now)
    ///     × (tag ≡ xaes_tag self.now nonce (aad_bytes aad.entry) ciphertext.now)) }
    /// ensures plaintext { OnOk result (out.new ≡ xaes_decrypted self.now nonce ciphertext.now) }
    /// ensures refused { OnErr result (out.new ≡ out.old) }
    /// ```
    ///
    /// Definitions: [`Fits`](aead_ciphers::specs::gcm#Fits), [`aad_bytes`](aead_ciphers_base::specs::values#aad_bytes),
    /// [`xaes_tag`](crate::specs::xaes#xaes_tag), [`xaes_decrypted`](crate::specs::xaes#xaes_decrypted).
    ///
    /// </details>
    pub fn open_to(
        &self,
        nonce: XNonce,
        aad: Aad<'_>,
        tag: Tag,
        ciphertext: &[u8],
        out: &mut [u8],
    ) -> Result<(), Unspecified> {
        self.expanded.open_to(nonce, aad, tag, ciphertext, out)
    }
}

/// `Xaes256Gcm::derived_key` as a job.
struct Xaes256GcmDerivedKey<'a> {
    key: &'a Xaes256Gcm,
    context: &'a Context,
}

impl simd::Job for Xaes256GcmDerivedKey<'_> {
    type Output = [u8; AES_256_KEY_LEN];

    #[inline(always)]
    fn run<V: simd::Level>(self) -> [u8; AES_256_KEY_LEN] {
        self.key.derived_key_at::<V>(self.context)
    }
}

/// `Xaes256Gcm::derived_blocks` as a job.
struct Xaes256GcmDerivedBlocks<'a> {
    key: &'a Xaes256Gcm,
    context: &'a Context,
    first: u16,
    second: u16,
}

impl simd::Job for Xaes256GcmDerivedBlocks<'_> {
    type Output = [u8; AES_256_KEY_LEN];

    #[inline(always)]
    fn run<V: simd::Level>(self) -> [u8; AES_256_KEY_LEN] {
        self.key
            .derived_blocks_at::<V>(self.context, self.first, self.second)
    }
}

/// Shows no byte of the key.
///
/// <details><summary>Ghost items</summary>
///
/// ```text
/// // `Some` of what `{:?}` prints.
/// ghost debug_output = { λ _. Some (codes "Xaes256Gcm { .. }") };
/// ```
///
/// </details>
impl fmt::Debug for Xaes256Gcm {
    fn fmt(&self, f: &mut fmt::Formatter<'_>) -> fmt::Result {
        f.write_str("Xaes256Gcm { .. }")
    }
}
