//! Keys that seal messages under the nonces of a sequence.

use super::{Aad, Algorithm, BoundKey, LessSafeKey, NonceSequence, Tag, UnboundKey};
use crate::error::Unspecified;
use core::fmt;

/// A key that seals messages, each under the next nonce of a sequence (`ring::aead::SealingKey`; RFC 5116 section 2.1).
///
/// A call that fails has used a nonce too, except where the sequence had none.
///
/// ```no_run
/// use deerlapse_ring::aead::{
///     Aad, BoundKey, Nonce, NonceSequence, OpeningKey, SealingKey, UnboundKey, AES_128_GCM,
/// };
/// use deerlapse_ring::error::Unspecified;
///
/// struct Counter(u32);
///
/// impl NonceSequence for Counter {
///     fn advance(&mut self) -> Result<Nonce, Unspecified> {
///         let number = self.0;
///         self.0 = number.checked_add(1).ok_or(Unspecified)?;
///         let mut nonce = [0; 12];
///         nonce[8..].copy_from_slice(&number.to_be_bytes());
///         Ok(Nonce::assume_unique_for_key(nonce))
///     }
/// }
///
/// let mut sealing = SealingKey::new(UnboundKey::new(&AES_128_GCM, &[0; 16])?, Counter(0));
/// let mut opening = OpeningKey::new(UnboundKey::new(&AES_128_GCM, &[0; 16])?, Counter(0));
/// for message in ["hello", "bye"] {
///     let mut buffer = message.as_bytes().to_vec();
///     sealing.seal_in_place_append_tag(Aad::empty(), &mut buffer)?;
///     assert_eq!(opening.open_in_place(Aad::empty(), &mut buffer)?, message.as_bytes());
/// }
/// # Ok::<(), Unspecified>(())
/// ```
pub struct SealingKey<N: NonceSequence> {
    key: LessSafeKey,
    nonce_sequence: N,
}

impl<N: NonceSequence> BoundKey<N> for SealingKey<N> {
    fn new(key: UnboundKey, nonce_sequence: N) -> Self {
        SealingKey {
            key: key.into_inner(),
            nonce_sequence,
        }
    }

    #[inline]
    fn algorithm(&self) -> &'static Algorithm {
        self.key.algorithm()
    }
}

/// Prints the algorithm, and nothing of the key or the sequence.
impl<N: NonceSequence> fmt::Debug for SealingKey<N> {
    fn fmt(&self, f: &mut fmt::Formatter<'_>) -> fmt::Result {
        self.key.fmt_as("SealingKey", f)
    }
}

impl<N: NonceSequence> SealingKey<N> {
    /// Seals `in_out` in place under the next nonce, and appends the tag: n bytes become n + 16 (GCM-AE of SP 800-38D
    /// section 7.1).
    ///
    /// # Errors
    ///
    /// Fails if the sequence does, or as [`LessSafeKey::seal_in_place_separate_tag`] does. `in_out` is then unchanged.
    pub fn seal_in_place_append_tag<A, InOut>(
        &mut self,
        aad: Aad<A>,
        in_out: &mut InOut,
    ) -> Result<(), Unspecified>
    where
        A: AsRef<[u8]>,
        InOut: AsMut<[u8]> + for<'in_out> Extend<&'in_out u8>,
    {
        let nonce = self.nonce_sequence.advance()?;
        self.key.seal_in_place_append_tag(nonce, aad, in_out)
    }

    /// Seals `in_out` in place under the next nonce, and returns the tag of the ciphertext and the AAD (GCM-AE of SP
    /// 800-38D section 7.1).
    ///
    /// # Errors
    ///
    /// Fails if the sequence does, or as [`LessSafeKey::seal_in_place_separate_tag`] does. `in_out` is then unchanged.
    pub fn seal_in_place_separate_tag<A>(
        &mut self,
        aad: Aad<A>,
        in_out: &mut [u8],
    ) -> Result<Tag, Unspecified>
    where
        A: AsRef<[u8]>,
    {
        let nonce = self.nonce_sequence.advance()?;
        self.key.seal_in_place_separate_tag(nonce, aad, in_out)
    }
}
