//! Keys whose calls take the nonce.

use super::{Aad, Algorithm, Nonce, Tag, UnboundKey};
use crate::cipher::Key;
use crate::error::Unspecified;
use core::fmt;
use core::ops::RangeFrom;

/// A key whose calls take the nonce (`ring::aead::LessSafeKey`; RFC 5116 section 2).
///
/// It is less safe than a [`SealingKey`](super::SealingKey), since nothing keeps its caller from sealing twice under one
/// nonce, which reveals the XOR of the two messages and lets others forge tags. Threads may share a key. It is wiped when
/// it is dropped; if it was moved, its bytes may remain where it was before.
///
/// ```no_run
/// use deerlapse_ring::aead::{Aad, LessSafeKey, Nonce, UnboundKey, AES_256_GCM};
///
/// let key = LessSafeKey::new(UnboundKey::new(&AES_256_GCM, &[0; 32])?);
/// let nonce = || Nonce::assume_unique_for_key([0; 12]);
/// let mut buffer = b"hello".to_vec();
/// key.seal_in_place_append_tag(nonce(), Aad::from(b"v1"), &mut buffer)?;
/// assert_eq!(key.open_in_place(nonce(), Aad::from(b"v1"), &mut buffer)?, b"hello");
/// # Ok::<(), deerlapse_ring::error::Unspecified>(())
/// ```
#[derive(Clone)]
pub struct LessSafeKey {
    key: Key,
    algorithm: &'static Algorithm,
}

impl LessSafeKey {
    /// Makes a key whose calls take the nonce (RFC 5116 section 2).
    #[inline]
    #[must_use]
    pub fn new(key: UnboundKey) -> Self {
        key.into_inner()
    }

    pub(super) fn expand(algorithm: &'static Algorithm, bytes: &[u8]) -> Result<Self, Unspecified> {
        if bytes.len() != algorithm.key_len() {
            return Err(Unspecified);
        }
        let key = Key::new(algorithm.id(), bytes)?;
        Ok(LessSafeKey { key, algorithm })
    }

    /// Opens the ciphertext in `in_out` from `ciphertext.start` on, whose tag is `tag`, and returns the plaintext, which is
    /// then at the front of `in_out` (GCM-AD of SP 800-38D section 7.2). The bytes after it are unchanged.
    ///
    /// # Errors
    ///
    /// Fails if the tag is wrong, if the start is after the end, or if a length is not one that
    /// [`seal_in_place_separate_tag`](Self::seal_in_place_separate_tag) takes. `in_out` is then unchanged.
    ///
    /// # Examples
    ///
    /// ```no_run
    /// use deerlapse_ring::aead::{Aad, LessSafeKey, Nonce, UnboundKey, AES_128_GCM};
    ///
    /// let key = LessSafeKey::new(UnboundKey::new(&AES_128_GCM, &[0; 16])?);
    /// let nonce = || Nonce::assume_unique_for_key([0; 12]);
    /// let mut packet = *b"header: hello";
    /// let tag = key.seal_in_place_separate_tag(nonce(), Aad::empty(), &mut packet[8..])?;
    /// let opened = key.open_in_place_separate_tag(nonce(), Aad::empty(), tag, &mut packet, 8..)?;
    /// assert_eq!(opened, b"hello");
    /// # Ok::<(), deerlapse_ring::error::Unspecified>(())
    /// ```
    pub fn open_in_place_separate_tag<'in_out, A>(
        &self,
        nonce: Nonce,
        aad: Aad<A>,
        tag: Tag,
        in_out: &'in_out mut [u8],
        ciphertext: RangeFrom<usize>,
    ) -> Result<&'in_out mut [u8], Unspecified>
    where
        A: AsRef<[u8]>,
    {
        self.key
            .open_separate_tag(nonce.into_inner(), aad.as_ref(), tag.0, in_out, ciphertext)
    }

    /// Opens the ciphertext and tag in the whole of `in_out`, as [`open_within`](Self::open_within) does (SP 800-38D
    /// section 7.2).
    ///
    /// # Errors
    ///
    /// Fails as [`open_within`](Self::open_within) does.
    pub fn open_in_place<'in_out, A>(
        &self,
        nonce: Nonce,
        aad: Aad<A>,
        in_out: &'in_out mut [u8],
    ) -> Result<&'in_out mut [u8], Unspecified>
    where
        A: AsRef<[u8]>,
    {
        self.open_within(nonce, aad, in_out, 0..)
    }

    /// Opens the ciphertext and tag in `in_out` from `ciphertext_and_tag.start` on, and returns the plaintext, which is
    /// then at the front of `in_out` (GCM-AD of SP 800-38D section 7.2). The bytes after it are unchanged.
    ///
    /// # Errors
    ///
    /// Fails if the tag is wrong, if there are fewer than 16 bytes after the start, or if a length is not one that
    /// [`seal_in_place_separate_tag`](Self::seal_in_place_separate_tag) takes. `in_out` is then unchanged.
    pub fn open_within<'in_out, A>(
        &self,
        nonce: Nonce,
        aad: Aad<A>,
        in_out: &'in_out mut [u8],
        ciphertext_and_tag: RangeFrom<usize>,
    ) -> Result<&'in_out mut [u8], Unspecified>
    where
        A: AsRef<[u8]>,
    {
        self.key
            .open(nonce.into_inner(), aad.as_ref(), in_out, ciphertext_and_tag)
    }

    /// Seals `in_out` in place, and appends the tag: n bytes become n + 16 (GCM-AE of SP 800-38D section 7.1).
    ///
    /// # Errors
    ///
    /// Fails as [`seal_in_place_separate_tag`](Self::seal_in_place_separate_tag) does.
    pub fn seal_in_place_append_tag<A, InOut>(
        &self,
        nonce: Nonce,
        aad: Aad<A>,
        in_out: &mut InOut,
    ) -> Result<(), Unspecified>
    where
        A: AsRef<[u8]>,
        InOut: AsMut<[u8]> + for<'in_out> Extend<&'in_out u8>,
    {
        let tag = self.seal_in_place_separate_tag(nonce, aad, in_out.as_mut())?;
        in_out.extend(tag.as_ref());
        Ok(())
    }

    /// Seals `in_out` in place, and returns the tag of the ciphertext and the AAD (GCM-AE of SP 800-38D section 7.1).
    ///
    /// # Errors
    ///
    /// Fails if the message is longer than 2^36 - 32 bytes or the AAD than 2^61 - 1 (SP 800-38D section 5.2.1.1). `in_out`
    /// is then unchanged.
    pub fn seal_in_place_separate_tag<A>(
        &self,
        nonce: Nonce,
        aad: Aad<A>,
        in_out: &mut [u8],
    ) -> Result<Tag, Unspecified>
    where
        A: AsRef<[u8]>,
    {
        self.key
            .seal(nonce.into_inner(), aad.as_ref(), in_out)
            .map(Tag)
    }

    /// Returns the algorithm of the key (RFC 5116 section 5).
    #[inline]
    #[must_use]
    pub fn algorithm(&self) -> &'static Algorithm {
        self.algorithm
    }

    /// Prints the algorithm, as of a type of this name.
    pub(super) fn fmt_as(&self, name: &str, f: &mut fmt::Formatter<'_>) -> fmt::Result {
        f.debug_struct(name)
            .field("algorithm", self.algorithm)
            .finish()
    }
}

/// Prints the algorithm, and nothing of the key.
impl fmt::Debug for LessSafeKey {
    fn fmt(&self, f: &mut fmt::Formatter<'_>) -> fmt::Result {
        self.fmt_as("LessSafeKey", f)
    }
}
