// Written by tools/rust from crates/aead_ciphers_base/src/values.rt. Don't edit.
//! The plain values that calls take and return: nonces, additional authenticated data (AAD), tags and
//! samples.

use crate::error::Unspecified;
use core::fmt;

/// The length of a nonce, in bytes.
pub const NONCE_LEN: usize = 12;

/// The maximum length of a tag, in bytes. Every tag of this library has this length.
pub const MAX_TAG_LEN: usize = 16;

/// The 16 bytes of a packet from which its header protection mask is computed (RFC 9001 section 5.4.2).
/// [`chacha::Key::new_mask`](crate::chacha::Key::new_mask) and `new_mask` of an expanded AES key take
/// it. `HeaderProtectionKey::new_mask` takes a slice instead.
pub type Sample = [u8; 16];

/// A nonce: 12 bytes that are used only once under a key. Calls consume it, and it cannot be cloned.
///
/// # Examples
///
/// A packet that begins with its nonce:
///
/// ```
/// use deerlapse::aead::{NONCE_LEN, Nonce, Unspecified};
///
/// let packet = b"twelve bytes, then the ciphertext and its tag";
/// let (front, rest) = packet.split_at(NONCE_LEN);
/// assert_eq!(Nonce::try_assume_unique_for_key(front)?.as_ref(), b"twelve bytes");
/// assert!(Nonce::try_assume_unique_for_key(rest).is_err());
/// # Ok::<(), Unspecified>(())
/// ```
///
/// <details><summary>Model</summary>
///
/// ```text
/// ghost Value = { List ℕ };
/// ghost view = { λ nonce. nonce.bytes };
/// ```
///
/// </details>
pub struct Nonce {
    bytes: [u8; NONCE_LEN],
}

impl Nonce {
    /// Creates a nonce from 12 bytes. Using them only once under a key is the caller's responsibility.
    ///
    /// <details><summary>Contract</summary>
    ///
    /// ```text
    /// ensures { result ≡ value }
    /// ```
    ///
    /// </details>
    #[inline(always)]
    pub fn assume_unique_for_key(value: [u8; NONCE_LEN]) -> Self {
        Nonce { bytes: value }
    }

    /// Creates a nonce from a slice. Fails with `Unspecified` if the slice is not 12 bytes long. Using
    /// the bytes only once under a key is the caller's responsibility.
    ///
    /// <details><summary>Contract</summary>
    ///
    /// ```text
    /// ensures accepted { IsOk result ↔ (length value.now ≡ NONCE_LEN) }
    /// ensures bytes { IfOk result (λ nonce. nonce ≡ value.now) }
    /// ```
    ///
    /// </details>
    #[inline(always)]
    pub fn try_assume_unique_for_key(value: &[u8]) -> Result<Self, Unspecified> {
        match simd::array_of::<_, NONCE_LEN>(value) {
            Some(bytes) => Ok(Nonce { bytes: *bytes }),
            None => Err(Unspecified),
        }
    }

    /// Returns the 12 bytes of the nonce.
    ///
    /// <details><summary>Contract</summary>
    ///
    /// ```text
    /// ensures { result.now ≡ self.now }
    /// ```
    ///
    /// </details>
    #[inline(always)]
    pub fn as_ref(&self) -> &[u8; NONCE_LEN] {
        &self.bytes
    }
}

/// Additional authenticated data (AAD): bytes that are authenticated by the tag but not encrypted.
///
/// # Examples
///
/// ```
/// use deerlapse::aead::Aad;
///
/// let packet = b"header, then what is encrypted";
/// assert_eq!(Aad::from(&packet[..6]).as_ref(), b"header");
/// assert_eq!(Aad::empty().as_ref(), b"");
/// ```
#[derive(Clone, Copy, PartialEq, Eq)]
pub struct Aad<'a> {
    bytes: &'a [u8],
}

/// Borrows the bytes of a slice as AAD.
///
/// <details><summary>Ghost items</summary>
///
/// ```text
/// // What holds of the argument of `from` and of what it returns.
/// ghost from_gives = { λ bytes aad. aad_bytes aad ≡ bytes.now };
/// ```
///
/// Definitions: [`aad_bytes`](crate::specs::values#aad_bytes).
///
/// </details>
impl<'a> From<&'a [u8]> for Aad<'a> {
    #[inline(always)]
    fn from(bytes: &'a [u8]) -> Self {
        Aad { bytes }
    }
}

impl<'a> Aad<'a> {
    /// Creates AAD of no bytes.
    ///
    /// <details><summary>Contract</summary>
    ///
    /// ```text
    /// ensures { aad_bytes result ≡ [] }
    /// ```
    ///
    /// Definitions: [`aad_bytes`](crate::specs::values#aad_bytes).
    ///
    /// </details>
    #[inline(always)]
    pub fn empty() -> Self {
        Aad { bytes: &[] }
    }

    /// Returns the bytes of the AAD.
    ///
    /// <details><summary>Contract</summary>
    ///
    /// ```text
    /// ensures { result.now ≡ aad_bytes self.now }
    /// ```
    ///
    /// Definitions: [`aad_bytes`](crate::specs::values#aad_bytes).
    ///
    /// </details>
    #[inline(always)]
    pub fn as_ref(&self) -> &'a [u8] {
        self.bytes
    }
}

/// Formats the bytes as a list, such as `Aad([1, 2])`.
///
/// <details><summary>Ghost items</summary>
///
/// ```text
/// // `Some` of what `{:?}` prints.
/// ghost debug_output = { λ aad. debug_variant (codes "Aad") (debug_list (λ b. Some (decimal b)) (aad_bytes aad)) };
/// ```
///
/// Definitions: [`aad_bytes`](crate::specs::values#aad_bytes).
///
/// </details>
impl fmt::Debug for Aad<'_> {
    #[inline(always)]
    fn fmt(&self, f: &mut fmt::Formatter<'_>) -> fmt::Result {
        let bytes = self.bytes;
        write!(f, "Aad({bytes:?})")
    }
}

/// An authentication tag of 16 bytes.
///
/// # Examples
///
/// ```
/// use deerlapse::aead::{Tag, Unspecified};
///
/// let received = *b"sixteen bytes of";
/// assert_eq!(Tag::from(received).as_ref(), received);
/// assert_eq!(Tag::try_from(&received[..])?.as_ref(), received);
/// assert!(Tag::try_from(&received[1..]).is_err());
/// # Ok::<(), Unspecified>(())
/// ```
///
/// <details><summary>Model</summary>
///
/// ```text
/// ghost Value = { List ℕ };
/// ghost view = { λ tag. tag.bytes };
/// ```
///
/// </details>
#[must_use]
#[derive(Clone, Copy)]
pub struct Tag {
    bytes: [u8; MAX_TAG_LEN],
}

/// Creates a tag from 16 bytes.
///
/// <details><summary>Ghost items</summary>
///
/// ```text
/// // What holds of the argument of `from` and of what it returns.
/// ghost from_gives = { λ bytes tag. tag ≡ bytes };
/// ```
///
/// </details>
impl From<[u8; MAX_TAG_LEN]> for Tag {
    #[inline(always)]
    fn from(bytes: [u8; MAX_TAG_LEN]) -> Self {
        Tag { bytes }
    }
}

/// Creates a tag from a slice. Fails with `Unspecified` if the slice is not 16 bytes long.
///
/// <details><summary>Ghost items</summary>
///
/// ```text
/// // What holds of the argument of `try_from` and of what it returns.
/// ghost try_from_gives = { λ bytes r. (IsOk r ↔ (length bytes.now ≡ 16)) × IfOk r (λ tag. tag ≡ bytes.now) };
/// ```
///
/// </details>
impl TryFrom<&[u8]> for Tag {
    type Error = Unspecified;

    #[inline(always)]
    fn try_from(value: &[u8]) -> Result<Self, Unspecified> {
        match simd::array_of::<_, MAX_TAG_LEN>(value) {
            Some(bytes) => Ok(Tag { bytes: *bytes }),
            None => Err(Unspecified),
        }
    }
}

impl Tag {
    /// Returns the 16 bytes of the tag.
    ///
    /// <details><summary>Contract</summary>
    ///
    /// ```text
    /// ensures { result.now ≡ self.now }
    /// ```
    ///
    /// </details>
    #[inline(always)]
    pub fn as_ref(&self) -> &[u8] {
        self.bytes.as_slice()
    }
}
