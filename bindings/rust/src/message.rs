//! A message that is sealed in pieces.

use crate::{accepted, ffi, LessSafeKey, Nonce, Unspecified, TAG_LEN};
use core::fmt;

/// A message that is sealed in pieces of any lengths, under the key that it borrows.
///
/// However the message is cut, its ciphertext and its tag are those of
/// [`seal_in_place_separate_tag`](LessSafeKey::seal_in_place_separate_tag). It is wiped when it is dropped. No message is
/// opened in pieces, since its plaintext would be used before it is verified.
///
/// ```no_run
/// use deerlapse::{LessSafeKey, Nonce};
///
/// let key = LessSafeKey::new(&[0; 16])?;
/// let (mut first, mut second) = (*b"hel", *b"lo");
/// let mut message = key.begin(Nonce::assume_unique_for_key([0; 12]), b"v1")?;
/// message.update(&mut first)?;
/// message.update(&mut second)?;
/// let tag = message.finish();
///
/// let mut whole = *b"hello";
/// let nonce = Nonce::assume_unique_for_key([0; 12]);
/// assert_eq!(key.seal_in_place_separate_tag(nonce, b"v1", &mut whole)?, tag);
/// assert_eq!([first.as_slice(), &second].concat(), whole);
/// # Ok::<(), deerlapse::Unspecified>(())
/// ```
///
/// It cannot be cloned, because the clone would use the same keystream again:
///
/// ```compile_fail
/// use deerlapse::{LessSafeKey, Nonce};
///
/// let key = LessSafeKey::new(&[0; 16])?;
/// let message = key.begin(Nonce::assume_unique_for_key([0; 12]), b"v1")?;
/// let again = message.clone();
/// # Ok::<(), deerlapse::Unspecified>(())
/// ```
pub struct SealingMessage<'k> {
    key: &'k ffi::Key,
    state: ffi::Message,
}

impl LessSafeKey {
    /// Begins a message that is sealed in pieces.
    ///
    /// # Errors
    ///
    /// Fails if the AAD has 2^61 bytes or more.
    ///
    /// # Examples
    ///
    /// ```no_run
    /// use deerlapse::{LessSafeKey, Nonce};
    ///
    /// // McGrew and Viega, "The Galois/Counter Mode of Operation (GCM)", appendix B, test case 1
    /// let key = LessSafeKey::new(&[0; 16])?;
    /// let message = key.begin(Nonce::assume_unique_for_key([0; 12]), b"")?;
    /// assert_eq!(u128::from_be_bytes(message.finish()), 0x58e2fccefa7e3061367f1d57a4e7455a);
    /// # Ok::<(), deerlapse::Unspecified>(())
    /// ```
    pub fn begin(&self, nonce: Nonce, aad: &[u8]) -> Result<SealingMessage<'_>, Unspecified> {
        let key = &self.0;
        let mut state = ffi::Message { words: [0; 22] };
        // SAFETY: the pointer and its length are those of one slice, the others are references, and `state` is borrowed
        // for writing. `LessSafeKey::new` filled the key.
        accepted(unsafe {
            ffi::key_begin(key, nonce.as_ref(), aad.as_ptr(), aad.len(), &mut state)
        })?;
        Ok(SealingMessage { key, state })
    }
}

impl SealingMessage<'_> {
    /// Encrypts the next piece in place.
    ///
    /// # Errors
    ///
    /// Fails if the message would be longer than 2^36 - 32 bytes. The piece is then unchanged, and is not part of the
    /// message.
    ///
    /// # Examples
    ///
    /// ```no_run
    /// use deerlapse::{LessSafeKey, Nonce};
    ///
    /// // McGrew and Viega, "The Galois/Counter Mode of Operation (GCM)", appendix B, test case 2
    /// let key = LessSafeKey::new(&[0; 16])?;
    /// let mut block = [0; 16];
    /// let mut message = key.begin(Nonce::assume_unique_for_key([0; 12]), b"")?;
    /// for piece in block.chunks_mut(5) {
    ///     message.update(piece)?;
    /// }
    /// assert_eq!(u128::from_be_bytes(block), 0x0388dace60b6a392f328c2b971b2fe78);
    /// # Ok::<(), deerlapse::Unspecified>(())
    /// ```
    pub fn update(&mut self, in_out: &mut [u8]) -> Result<(), Unspecified> {
        // SAFETY: the pointer and its length are those of one slice, and both it and the state are borrowed for writing.
        // `begin` filled the state, under this key.
        accepted(unsafe {
            ffi::key_update(self.key, &mut self.state, in_out.as_mut_ptr(), in_out.len())
        })
    }

    /// Ends the message, and returns the tag of its AAD and of the ciphertexts of all pieces in a row.
    ///
    /// ```no_run
    /// use deerlapse::{LessSafeKey, Nonce};
    ///
    /// let key = LessSafeKey::new(&[0; 16])?;
    /// let nonce = || Nonce::assume_unique_for_key([0; 12]);
    /// let mut piece = *b"hello";
    /// let mut message = key.begin(nonce(), b"v1")?;
    /// message.update(&mut piece)?;
    /// let tag = message.finish();
    /// assert_eq!(key.open_in_place_separate_tag(nonce(), b"v1", tag, &mut piece, 0..)?, b"hello");
    /// # Ok::<(), deerlapse::Unspecified>(())
    /// ```
    #[must_use]
    pub fn finish(mut self) -> [u8; TAG_LEN] {
        let mut tag = [0; TAG_LEN];
        let finished = self.write_tag(&mut tag);
        debug_assert!(finished, "`begin` filled the state, under this key");
        tag
    }

    /// Writes the tag and overwrites the state with zeros, or returns false if it is zeros.
    fn write_tag(&mut self, tag: &mut [u8; TAG_LEN]) -> bool {
        // SAFETY: the parameters are references, and the state is one that `begin` filled under this key, or zeros.
        unsafe { ffi::key_finish(self.key, &mut self.state, tag) }
    }
}

/// Wipes the state, which contains keystream.
impl Drop for SealingMessage<'_> {
    fn drop(&mut self) {
        self.write_tag(&mut [0; TAG_LEN]);
    }
}

/// Prints nothing of the message.
impl fmt::Debug for SealingMessage<'_> {
    fn fmt(&self, f: &mut fmt::Formatter<'_>) -> fmt::Result {
        f.debug_struct("SealingMessage").finish_non_exhaustive()
    }
}
