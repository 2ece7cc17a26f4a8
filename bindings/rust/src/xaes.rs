//! A key whose nonces are long enough to be random.

use crate::{accepted, cpu, ffi, Unspecified, XaesNonce, TAG_LEN};
#[cfg(feature = "alloc")]
use alloc::vec::Vec;
use core::fmt;
use core::ops::RangeFrom;

/// An XAES-256-GCM key (`c2sp.org/XAES-256-GCM`), whose nonces have 24 bytes: enough to be drawn at random for each message.
///
/// Each message is sealed by AES-256-GCM under a key of its own, which is derived from this key and the first 12 bytes of the
/// nonce, and with the last 12 bytes as its nonce. The specification allows 2^80 messages under one key with random nonces;
/// under a [`LessSafeKey`](crate::LessSafeKey), 2^32 random nonces of 12 bytes are allowed (SP 800-38D section 8.3). A nonce
/// that is used twice reveals the XOR of the two messages, and lets others forge tags of nonces with the same first 12 bytes.
///
/// The key is expanded once, in [`new`](Self::new). It is 264 bytes of plain data, which threads may share. Each message
/// expands the key that is derived for it, so a short one takes longer than under a `LessSafeKey`. A call that fails leaves its
/// buffer unchanged. A key is wiped when it is dropped; if it was moved, its bytes may remain where it was before, and what is
/// derived for a message stays on the stack.
///
/// The package draws no random bytes. They come for example from the crate `getrandom`, or from `OsRng` of the crate `aead`,
/// whose traits the package `deerlapse-aead` has for this cipher.
///
/// ```no_run
/// use deerlapse::{Xaes256Gcm, XaesNonce};
///
/// let (key, nonce) = ([0; 32], [0; 24]); // both are drawn at random, and a new nonce for each message
/// let key = Xaes256Gcm::new(&key);
/// let mut buffer = b"hello".to_vec();
/// key.seal_in_place_append_tag(XaesNonce::assume_unique_for_key(nonce), b"v1", &mut buffer)?;
/// let opened = key.open_in_place(XaesNonce::assume_unique_for_key(nonce), b"v1", &mut buffer)?;
/// assert_eq!(opened, b"hello");
/// # Ok::<(), deerlapse::Unspecified>(())
/// ```
#[derive(Clone)]
pub struct Xaes256Gcm(pub(crate) ffi::Xaes);

impl Xaes256Gcm {
    /// Creates a key from 32 bytes.
    ///
    /// ```no_run
    /// use deerlapse::{Xaes256Gcm, XaesNonce};
    ///
    /// let key = Xaes256Gcm::new(&[7; 32]);
    /// let nonce = XaesNonce::assume_unique_for_key([0; 24]);
    /// assert!(key.seal_in_place_separate_tag(nonce, b"", &mut []).is_ok());
    /// ```
    #[must_use]
    pub fn new(key_bytes: &[u8; 32]) -> Self {
        cpu::require();
        let mut key = ffi::Xaes { words: [0; 33] };
        // SAFETY: the parameters are references, and the key is borrowed for writing.
        unsafe { ffi::xaes_init(&mut key, key_bytes) };
        Xaes256Gcm(key)
    }

    /// Encrypts `in_out` in place, and returns the tag of the ciphertext and the AAD.
    ///
    /// # Errors
    ///
    /// Fails if the message is longer than 2^36 - 32 bytes.
    ///
    /// # Examples
    ///
    /// ```no_run
    /// use deerlapse::{Xaes256Gcm, XaesNonce};
    ///
    /// // The first vector of the specification
    /// let nonce = XaesNonce::assume_unique_for_key(*b"ABCDEFGHIJKLMNOPQRSTUVWX");
    /// let mut message = *b"XAES-256-GCM";
    /// let tag = Xaes256Gcm::new(&[1; 32]).seal_in_place_separate_tag(nonce, b"", &mut message)?;
    /// assert_eq!(message[..8], 0xce546ef63c9cc607_u64.to_be_bytes());
    /// assert_eq!(u128::from_be_bytes(tag), 0xb33a9a1974e96e52daf2fcf7075e2271);
    /// # Ok::<(), deerlapse::Unspecified>(())
    /// ```
    pub fn seal_in_place_separate_tag(
        &self,
        nonce: XaesNonce,
        aad: &[u8],
        in_out: &mut [u8],
    ) -> Result<[u8; TAG_LEN], Unspecified> {
        let mut tag = [0; TAG_LEN];
        // SAFETY: each pointer and its length are those of one slice, which is borrowed for the call. No pointer of a
        // slice is null. `in_out` and `tag` are borrowed for writing, so they overlap nothing. `new` filled the key.
        accepted(unsafe {
            ffi::xaes_seal(
                &self.0,
                nonce.as_ref(),
                aad.as_ptr(),
                aad.len(),
                in_out.as_mut_ptr(),
                in_out.len(),
                &mut tag,
            )
        })?;
        Ok(tag)
    }

    /// Encrypts `in_out` in place, and appends the tag: n bytes become n + 16.
    ///
    /// # Errors
    ///
    /// Fails as [`seal_in_place_separate_tag`](Self::seal_in_place_separate_tag) does.
    ///
    /// # Examples
    ///
    /// ```no_run
    /// use deerlapse::{Xaes256Gcm, XaesNonce};
    ///
    /// let mut buffer = b"hello".to_vec();
    /// let nonce = XaesNonce::assume_unique_for_key([0; 24]);
    /// Xaes256Gcm::new(&[0; 32]).seal_in_place_append_tag(nonce, b"v1", &mut buffer)?;
    /// assert_eq!(buffer.len(), 21);
    /// # Ok::<(), deerlapse::Unspecified>(())
    /// ```
    #[cfg(feature = "alloc")]
    pub fn seal_in_place_append_tag(
        &self,
        nonce: XaesNonce,
        aad: &[u8],
        in_out: &mut Vec<u8>,
    ) -> Result<(), Unspecified> {
        let tag = self.seal_in_place_separate_tag(nonce, aad, in_out)?;
        in_out.extend_from_slice(&tag);
        Ok(())
    }

    /// Opens the ciphertext and tag in `in_out` from `ciphertext_and_tag.start` on, and returns the plaintext, which is
    /// then at the front of `in_out`. The bytes after it are unchanged.
    ///
    /// # Errors
    ///
    /// Fails if the tag is wrong, if there are fewer than 16 bytes after the start, or if a length is not one that
    /// [`seal_in_place_separate_tag`](Self::seal_in_place_separate_tag) takes.
    ///
    /// # Examples
    ///
    /// ```no_run
    /// use deerlapse::{Xaes256Gcm, XaesNonce};
    ///
    /// let key = Xaes256Gcm::new(&[0; 32]);
    /// let nonce = [0; 24]; // in front of the message that it sealed
    /// let mut message = b"hello".to_vec();
    /// key.seal_in_place_append_tag(XaesNonce::assume_unique_for_key(nonce), b"v1", &mut message)?;
    /// let mut sent = [nonce.as_slice(), &message].concat();
    ///
    /// let nonce = XaesNonce::try_assume_unique_for_key(&sent[..24])?;
    /// assert_eq!(key.open_within(nonce, b"v1", &mut sent, 24..)?, b"hello");
    /// # Ok::<(), deerlapse::Unspecified>(())
    /// ```
    pub fn open_within<'a>(
        &self,
        nonce: XaesNonce,
        aad: &[u8],
        in_out: &'a mut [u8],
        ciphertext_and_tag: RangeFrom<usize>,
    ) -> Result<&'a mut [u8], Unspecified> {
        let mut len = 0;
        // SAFETY: as in `seal_in_place_separate_tag`, with `len` in the place of the tag.
        accepted(unsafe {
            ffi::xaes_open(
                &self.0,
                nonce.as_ref(),
                aad.as_ptr(),
                aad.len(),
                in_out.as_mut_ptr(),
                in_out.len(),
                ciphertext_and_tag.start,
                &mut len,
            )
        })?;
        Ok(&mut in_out[..len])
    }

    /// Opens the ciphertext and tag in the whole of `in_out`, as [`open_within`](Self::open_within) does.
    ///
    /// # Errors
    ///
    /// Fails as [`open_within`](Self::open_within) does.
    ///
    /// # Examples
    ///
    /// ```no_run
    /// use deerlapse::{Unspecified, Xaes256Gcm, XaesNonce};
    ///
    /// let key = Xaes256Gcm::new(&[0; 32]);
    /// let nonce = |byte| XaesNonce::assume_unique_for_key([byte; 24]);
    /// let mut buffer = b"hello".to_vec();
    /// key.seal_in_place_append_tag(nonce(0), b"v1", &mut buffer)?;
    /// assert_eq!(key.open_in_place(nonce(1), b"v1", &mut buffer), Err(Unspecified));
    /// assert_eq!(key.open_in_place(nonce(0), b"v1", &mut buffer)?, b"hello");
    /// # Ok::<(), deerlapse::Unspecified>(())
    /// ```
    pub fn open_in_place<'a>(
        &self,
        nonce: XaesNonce,
        aad: &[u8],
        in_out: &'a mut [u8],
    ) -> Result<&'a mut [u8], Unspecified> {
        self.open_within(nonce, aad, in_out, 0..)
    }

    /// Opens the ciphertext in `in_out` from `ciphertext.start` on, whose tag is `tag`, and returns the plaintext,
    /// which is then at the front of `in_out`. The bytes after it are unchanged.
    ///
    /// # Errors
    ///
    /// Fails if the tag is wrong, if the start is after the end, or if a length is not one that
    /// [`seal_in_place_separate_tag`](Self::seal_in_place_separate_tag) takes.
    ///
    /// # Examples
    ///
    /// ```no_run
    /// use deerlapse::{Xaes256Gcm, XaesNonce};
    ///
    /// let key = Xaes256Gcm::new(&[0; 32]);
    /// let nonce = || XaesNonce::assume_unique_for_key([0; 24]);
    /// let mut buffer = *b"v1hello";
    /// let tag = key.seal_in_place_separate_tag(nonce(), b"v1", &mut buffer[2..])?;
    /// let opened = key.open_in_place_separate_tag(nonce(), b"v1", tag, &mut buffer, 2..)?;
    /// assert_eq!(opened, b"hello");
    /// # Ok::<(), deerlapse::Unspecified>(())
    /// ```
    pub fn open_in_place_separate_tag<'a>(
        &self,
        nonce: XaesNonce,
        aad: &[u8],
        tag: [u8; TAG_LEN],
        in_out: &'a mut [u8],
        ciphertext: RangeFrom<usize>,
    ) -> Result<&'a mut [u8], Unspecified> {
        // SAFETY: as in `seal_in_place_separate_tag`, and the tag is only read.
        accepted(unsafe {
            ffi::xaes_open_separate_tag(
                &self.0,
                nonce.as_ref(),
                aad.as_ptr(),
                aad.len(),
                in_out.as_mut_ptr(),
                in_out.len(),
                ciphertext.start,
                &tag,
            )
        })?;
        let len = in_out.len() - ciphertext.start;
        Ok(&mut in_out[..len])
    }

    /// Encrypts `message` to `out`, and returns the tag of the ciphertext and the AAD.
    ///
    /// # Errors
    ///
    /// Fails if `out` is not as long as `message`, or if the message is longer than 2^36 - 32 bytes. `out` is then
    /// unchanged.
    ///
    /// # Examples
    ///
    /// ```no_run
    /// use deerlapse::{Xaes256Gcm, XaesNonce};
    ///
    /// let key = Xaes256Gcm::new(&[0; 32]);
    /// let nonce = || XaesNonce::assume_unique_for_key([0; 24]);
    /// let (mut sealed, mut opened) = ([0; 5], [0; 5]);
    /// let tag = key.seal_to(nonce(), b"v1", b"hello", &mut sealed)?;
    /// key.open_to(nonce(), b"v1", tag, &sealed, &mut opened)?;
    /// assert_eq!(opened, *b"hello");
    /// # Ok::<(), deerlapse::Unspecified>(())
    /// ```
    pub fn seal_to(
        &self,
        nonce: XaesNonce,
        aad: &[u8],
        message: &[u8],
        out: &mut [u8],
    ) -> Result<[u8; TAG_LEN], Unspecified> {
        let mut tag = [0; TAG_LEN];
        // SAFETY: each pointer and its length are those of one slice, which is borrowed for the call; `out` and `tag`
        // are borrowed for writing, so they overlap nothing. `new` filled the key.
        accepted(unsafe {
            ffi::xaes_seal_to_sized(
                &self.0,
                nonce.as_ref(),
                aad.as_ptr(),
                aad.len(),
                message.as_ptr(),
                message.len(),
                out.as_mut_ptr(),
                out.len(),
                &mut tag,
            )
        })?;
        Ok(tag)
    }

    /// Opens `ciphertext`, whose tag is `tag`, to `out`.
    ///
    /// # Errors
    ///
    /// Fails if the tag is wrong, if `out` is not as long as `ciphertext`, or if a length is not one that
    /// [`seal_to`](Self::seal_to) takes. `out` is then unchanged.
    ///
    /// # Examples
    ///
    /// ```no_run
    /// use deerlapse::{Unspecified, Xaes256Gcm, XaesNonce};
    ///
    /// let nonce = XaesNonce::assume_unique_for_key([0; 24]);
    /// let mut out = *b"12345";
    /// let opened = Xaes256Gcm::new(&[0; 32]).open_to(nonce, b"v1", [0; 16], b"hello", &mut out);
    /// assert_eq!(opened, Err(Unspecified));
    /// assert_eq!(out, *b"12345");
    /// ```
    pub fn open_to(
        &self,
        nonce: XaesNonce,
        aad: &[u8],
        tag: [u8; TAG_LEN],
        ciphertext: &[u8],
        out: &mut [u8],
    ) -> Result<(), Unspecified> {
        // SAFETY: as in `seal_to`, and the tag is only read.
        accepted(unsafe {
            ffi::xaes_open_to_sized(
                &self.0,
                nonce.as_ref(),
                aad.as_ptr(),
                aad.len(),
                ciphertext.as_ptr(),
                ciphertext.len(),
                out.as_mut_ptr(),
                out.len(),
                &tag,
            )
        })
    }

    /// Encrypts `message` to `out`, and writes the tag after the ciphertext: n bytes become n + 16.
    ///
    /// # Errors
    ///
    /// Fails if `out` does not have 16 bytes more than `message`, or if the message is longer than 2^36 - 32 bytes. `out`
    /// is then unchanged.
    ///
    /// # Examples
    ///
    /// ```no_run
    /// use deerlapse::{Xaes256Gcm, XaesNonce};
    ///
    /// let key = Xaes256Gcm::new(&[0; 32]);
    /// let nonce = || XaesNonce::assume_unique_for_key([0; 24]);
    /// let (mut sealed, mut opened) = ([0; 21], [0; 5]);
    /// key.seal_append_tag_to(nonce(), b"v1", b"hello", &mut sealed)?;
    /// key.open_appended_tag_to(nonce(), b"v1", &sealed, &mut opened)?;
    /// assert_eq!(opened, *b"hello");
    /// # Ok::<(), deerlapse::Unspecified>(())
    /// ```
    pub fn seal_append_tag_to(
        &self,
        nonce: XaesNonce,
        aad: &[u8],
        message: &[u8],
        out: &mut [u8],
    ) -> Result<(), Unspecified> {
        // SAFETY: as in `seal_to`.
        accepted(unsafe {
            ffi::xaes_seal_append_tag_sized(
                &self.0,
                nonce.as_ref(),
                aad.as_ptr(),
                aad.len(),
                message.as_ptr(),
                message.len(),
                out.as_mut_ptr(),
                out.len(),
            )
        })
    }

    /// Opens the ciphertext and the tag after it to `out`: n bytes become n - 16.
    ///
    /// # Errors
    ///
    /// Fails if the tag is wrong, if `out` does not have 16 bytes less than `ciphertext_and_tag`, or if a length is not
    /// one that [`seal_append_tag_to`](Self::seal_append_tag_to) takes. `out` is then unchanged.
    ///
    /// # Examples
    ///
    /// ```no_run
    /// use deerlapse::{Unspecified, Xaes256Gcm, XaesNonce};
    ///
    /// let nonce = XaesNonce::assume_unique_for_key([0; 24]);
    /// let mut out = *b"12345";
    /// let opened = Xaes256Gcm::new(&[0; 32]).open_appended_tag_to(nonce, b"v1", &[0; 21], &mut out);
    /// assert_eq!(opened, Err(Unspecified));
    /// assert_eq!(out, *b"12345");
    /// ```
    pub fn open_appended_tag_to(
        &self,
        nonce: XaesNonce,
        aad: &[u8],
        ciphertext_and_tag: &[u8],
        out: &mut [u8],
    ) -> Result<(), Unspecified> {
        // SAFETY: as in `seal_to`.
        accepted(unsafe {
            ffi::xaes_open_appended_tag_sized(
                &self.0,
                nonce.as_ref(),
                aad.as_ptr(),
                aad.len(),
                ciphertext_and_tag.as_ptr(),
                ciphertext_and_tag.len(),
                out.as_mut_ptr(),
                out.len(),
            )
        })
    }
}

/// Prints nothing of the key.
impl fmt::Debug for Xaes256Gcm {
    fn fmt(&self, f: &mut fmt::Formatter<'_>) -> fmt::Result {
        f.debug_struct("Xaes256Gcm").finish_non_exhaustive()
    }
}

/// Wipes the key.
impl Drop for ffi::Xaes {
    fn drop(&mut self) {
        // SAFETY: the parameter is a reference.
        unsafe { ffi::xaes_wipe(self) };
    }
}
