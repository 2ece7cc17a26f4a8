//! Keys that open the messages of a sequence.

use super::{Aad, Algorithm, BoundKey, LessSafeKey, NonceSequence, UnboundKey};
use crate::error::Unspecified;
use core::fmt;
use core::ops::RangeFrom;

/// A key that opens messages, each with the next nonce of a sequence (`ring::aead::OpeningKey`; RFC 5116 section 2.2).
///
/// The sequence is that of the [`SealingKey`](super::SealingKey) that sealed them, from its start. A call that fails has
/// used a nonce too, except where the sequence had none.
pub struct OpeningKey<N: NonceSequence> {
    key: LessSafeKey,
    nonce_sequence: N,
}

impl<N: NonceSequence> BoundKey<N> for OpeningKey<N> {
    fn new(key: UnboundKey, nonce_sequence: N) -> Self {
        OpeningKey {
            key: key.into_inner(),
            nonce_sequence,
        }
    }

    #[inline]
    fn algorithm(&self) -> &'static Algorithm {
        self.key.algorithm()
    }
}

/// Prints the algorithm, and nothing of the key or the sequence.
impl<N: NonceSequence> fmt::Debug for OpeningKey<N> {
    fn fmt(&self, f: &mut fmt::Formatter<'_>) -> fmt::Result {
        self.key.fmt_as("OpeningKey", f)
    }
}

impl<N: NonceSequence> OpeningKey<N> {
    /// Opens the ciphertext and tag in the whole of `in_out`, as [`open_within`](Self::open_within) does (SP 800-38D
    /// section 7.2).
    ///
    /// # Errors
    ///
    /// Fails as [`open_within`](Self::open_within) does.
    pub fn open_in_place<'in_out, A>(
        &mut self,
        aad: Aad<A>,
        in_out: &'in_out mut [u8],
    ) -> Result<&'in_out mut [u8], Unspecified>
    where
        A: AsRef<[u8]>,
    {
        self.open_within(aad, in_out, 0..)
    }

    /// Opens with the next nonce the ciphertext and tag in `in_out` from `ciphertext_and_tag.start` on, and returns the
    /// plaintext, which is then at the front of `in_out` (GCM-AD of SP 800-38D section 7.2). The bytes after it are
    /// unchanged, so that packets with headers can be put together in place.
    ///
    /// # Errors
    ///
    /// Fails if the sequence does, or as [`LessSafeKey::open_within`] does. `in_out` is then unchanged.
    pub fn open_within<'in_out, A>(
        &mut self,
        aad: Aad<A>,
        in_out: &'in_out mut [u8],
        ciphertext_and_tag: RangeFrom<usize>,
    ) -> Result<&'in_out mut [u8], Unspecified>
    where
        A: AsRef<[u8]>,
    {
        let nonce = self.nonce_sequence.advance()?;
        self.key.open_within(nonce, aad, in_out, ciphertext_and_tag)
    }
}
