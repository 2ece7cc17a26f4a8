// Written by tools/rust from crates/aead_ciphers_wide/src/aead.rt. Don't edit.
//! The keys of `aead_ciphers::aead` over the ciphers of this crate.

pub mod quic;

use crate::aes_gcm::ExpandedKey;
use aead_ciphers::aead::generic;

/// A key whose calls take the nonce as an argument. It is [`generic::LessSafeKey`], which has the methods, over [`ExpandedKey`].
///
/// # Examples
///
/// ```
/// use deerlapse::aead::{AES_256_GCM, Aad, LessSafeKey, Nonce, UnboundKey, Unspecified};
///
/// let bytes = [7; 32]; // not a real key, which is drawn at random and kept secret
/// let key = LessSafeKey::new(UnboundKey::new(&AES_256_GCM, &bytes)?);
/// let nonce = || Nonce::assume_unique_for_key([1; 12]); // another for each message
///
/// let mut message = *b"hello";
/// let tag = key.seal_in_place_separate_tag(nonce(), Aad::empty(), &mut message)?;
///
/// // With other AAD the call refuses the tag, and leaves the message as it is.
/// let other = Aad::from(&b"v2"[..]);
/// assert!(key.open_in_place_separate_tag(nonce(), other, tag, &mut message, 0..).is_err());
///
/// let opened = key.open_in_place_separate_tag(nonce(), Aad::empty(), tag, &mut message, 0..)?;
/// assert_eq!(opened, b"hello");
/// # Ok::<(), Unspecified>(())
/// ```
pub type LessSafeKey = generic::LessSafeKey<ExpandedKey>;

/// A key that seals each message under the next nonce of its sequence. It is [`generic::SealingKey`], which has the methods, over
/// [`ExpandedKey`].
///
/// # Examples
///
/// ```
/// use deerlapse::aead::{
///     AES_128_GCM, Aad, BoundKey, CounterSequence, SealingKey, UnboundKey, Unspecified,
/// };
///
/// let key = UnboundKey::new(&AES_128_GCM, &[7; 16])?; // not a real key
/// let mut key = SealingKey::new(key, CounterSequence::new([1, 2, 3, 4], 0, 2)?);
///
/// let mut message = b"hello".to_vec();
/// key.seal_in_place_append_tag(Aad::empty(), &mut message)?;
/// assert_eq!(message.len(), 5 + 16);
///
/// let mut second = *b"hello";
/// let _tag = key.seal_in_place_separate_tag(Aad::empty(), &mut second)?;
/// assert_ne!(second, message[..5]); // the same text under another nonce
///
/// // The sequence has no third nonce.
/// assert!(key.seal_in_place_append_tag(Aad::empty(), &mut message).is_err());
/// # Ok::<(), Unspecified>(())
/// ```
pub type SealingKey<N> = generic::SealingKey<ExpandedKey, N>;

/// A key that opens each message under the next nonce of its sequence. It is [`generic::OpeningKey`], which has the methods, over
/// [`ExpandedKey`].
///
/// A nonce is used up even if the tag is wrong, so one message that is lost or inserted makes all later ones fail. For packets
/// that anyone can send, take a [`LessSafeKey`] and [`nonce_of`](aead_ciphers::aead::nonce_of).
///
/// # Examples
///
/// ```
/// use deerlapse::aead::{
///     AES_128_GCM, Aad, BoundKey, CounterSequence, OpeningKey, SealingKey, UnboundKey, Unspecified,
/// };
///
/// let key = || UnboundKey::new(&AES_128_GCM, &[7; 16]); // not a real key
/// let sequence = || CounterSequence::new([1, 2, 3, 4], 0, 2);
/// let mut sealing = SealingKey::new(key()?, sequence()?);
/// let mut opening = OpeningKey::new(key()?, sequence()?);
///
/// let mut message = b"hello".to_vec();
/// sealing.seal_in_place_append_tag(Aad::empty(), &mut message)?;
/// assert_eq!(opening.open_in_place(Aad::empty(), &mut message)?, b"hello");
///
/// // A message that is refused uses up its nonce too.
/// let mut forged = [3; 20];
/// assert!(opening.open_in_place(Aad::empty(), &mut forged).is_err());
/// let mut second = b"hello".to_vec();
/// sealing.seal_in_place_append_tag(Aad::empty(), &mut second)?;
/// assert!(opening.open_in_place(Aad::empty(), &mut second).is_err());
/// # Ok::<(), Unspecified>(())
/// ```
pub type OpeningKey<N> = generic::OpeningKey<ExpandedKey, N>;
