//! Authenticated encryption with associated data (`ring::aead`; RFC 5116 section 2): AES-GCM of SP 800-38D, with nonces of
//! 12 bytes and tags of 16.

mod algorithm;
mod less_safe_key;
mod nonce;
mod opening_key;
pub mod quic;
mod sealing_key;
mod unbound_key;

pub use algorithm::{Algorithm, AES_128_GCM, AES_256_GCM};
pub use less_safe_key::LessSafeKey;
pub use nonce::{Nonce, NONCE_LEN};
pub use opening_key::OpeningKey;
pub use sealing_key::SealingKey;
pub use unbound_key::UnboundKey;

use crate::error::Unspecified;
use core::fmt;

/// The greatest length of a tag, in bytes, which is that of every tag (RFC 5116 sections 5.1 and 5.2).
pub const MAX_TAG_LEN: usize = deerlapse::TAG_LEN;

/// A sequence of nonces, no two of which are the same (RFC 5116 section 3.1; SP 800-38D section 8).
///
/// A key that is bound to it takes the next nonce for each call. A type that is one should be neither `Clone` nor `Copy`,
/// since a clone would return the same nonces again.
///
/// ```no_run
/// use deerlapse_ring::aead::{Nonce, NonceSequence};
/// use deerlapse_ring::error::Unspecified;
///
/// /// Counts the messages, and ends after the last 32-bit number.
/// struct Counter(u32);
///
/// impl NonceSequence for Counter {
///     fn advance(&mut self) -> Result<Nonce, Unspecified> {
///         let number = self.0;
///         self.0 = number.checked_add(1).ok_or(Unspecified)?;
///         let mut nonce = [0; 12];
///         nonce[8..].copy_from_slice(&number.to_be_bytes());
///         Ok(Nonce::assume_unique_for_key(nonce))
///     }
/// }
/// assert!(Counter(0).advance().is_ok());
/// assert!(Counter(u32::MAX).advance().is_err());
/// ```
pub trait NonceSequence {
    /// Returns the next nonce, which it has never returned before (RFC 5116 section 3.1).
    ///
    /// # Errors
    ///
    /// Fails when there is none, for example after as many messages as a key may seal (SP 800-38D section 8.3), and
    /// then in each later call too.
    fn advance(&mut self) -> Result<Nonce, Unspecified>;
}

/// A key that takes the nonce of each call from a sequence: a [`SealingKey`] or an [`OpeningKey`] (`ring::aead::BoundKey`;
/// RFC 5116 section 3.1).
pub trait BoundKey<N: NonceSequence>: fmt::Debug {
    /// Binds a key to a sequence, neither of which anything else uses (RFC 5116 section 3.1).
    fn new(key: UnboundKey, nonce_sequence: N) -> Self;

    /// Returns the algorithm of the key (RFC 5116 section 5).
    fn algorithm(&self) -> &'static Algorithm;
}

/// Data that is authenticated and not encrypted: the AAD, A of SP 800-38D section 5.2.1.1.
///
/// It is less than 2^61 bytes of any type that has them, such as `&[u8]`, `[u8; 5]` or `Vec<u8>`.
///
/// ```no_run
/// use deerlapse_ring::aead::Aad;
///
/// let aad = Aad::from([23, 3, 3]);
/// assert_eq!(aad.as_ref(), [23, 3, 3]);
/// assert_eq!(format!("{aad:?}"), "Aad([23, 3, 3])");
/// assert!(Aad::empty().as_ref().is_empty());
/// ```
#[derive(Clone, Copy, Debug, PartialEq, Eq)]
pub struct Aad<A>(A);

impl<A: AsRef<[u8]>> Aad<A> {
    /// Makes the AAD of these bytes (A of SP 800-38D section 5.2.1.1).
    #[inline]
    #[must_use]
    pub fn from(aad: A) -> Self {
        Aad(aad)
    }
}

impl Aad<[u8; 0]> {
    /// Makes the AAD of no byte, for a message that has none (SP 800-38D section 5.2.1.1).
    #[inline]
    #[must_use]
    pub fn empty() -> Self {
        Aad([])
    }
}

impl<A: AsRef<[u8]>> AsRef<[u8]> for Aad<A> {
    #[inline]
    fn as_ref(&self) -> &[u8] {
        self.0.as_ref()
    }
}

/// A tag of 16 bytes, T of SP 800-38D section 5.2.1.2, which an opening compares with the right one.
///
/// It is made from an array, or from a slice of 16 bytes: `try_from` refuses any other length.
///
/// ```no_run
/// use deerlapse_ring::aead::Tag;
///
/// assert_eq!(Tag::from([7; 16]).as_ref(), [7; 16]);
/// assert!(Tag::try_from([7; 16].as_slice()).is_ok());
/// assert!(Tag::try_from([7; 12].as_slice()).is_err());
/// ```
#[must_use]
#[derive(Clone, Copy)]
pub struct Tag([u8; MAX_TAG_LEN]);

impl AsRef<[u8]> for Tag {
    #[inline]
    fn as_ref(&self) -> &[u8] {
        &self.0
    }
}

impl TryFrom<&[u8]> for Tag {
    type Error = Unspecified;

    fn try_from(value: &[u8]) -> Result<Self, Unspecified> {
        value.try_into().map(Tag).map_err(|_| Unspecified)
    }
}

impl From<[u8; MAX_TAG_LEN]> for Tag {
    #[inline]
    fn from(value: [u8; MAX_TAG_LEN]) -> Self {
        Tag(value)
    }
}
