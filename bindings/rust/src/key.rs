//! A key that is expanded once, and whose calls take the nonce.

use crate::{accepted, cpu, ffi, initialized, Nonce, Unspecified, TAG_LEN};
#[cfg(feature = "alloc")]
use alloc::vec::Vec;
use core::fmt;
use core::ops::RangeFrom;

/// An AES-128-GCM or AES-256-GCM key whose calls take the nonce.
///
/// It is less safe than a [`Sealer`](crate::Sealer), which counts its own nonces. A nonce that is used twice under one
/// key reveals the XOR of the two messages, and lets others forge tags under that key.
///
/// The key is expanded once, in [`new`](Self::new). It is about 3 kilobytes of plain data, which threads may share. No
/// call allocates for it, and a call takes at most 8 KiB of stack. A call that fails leaves its buffer unchanged. A key
/// is wiped when it is dropped; if it was moved, its bytes may remain where it was before.
///
/// ```no_run
/// use deerlapse::{LessSafeKey, Nonce};
///
/// let key = LessSafeKey::new(&[0; 32])?; // 32 bytes: AES-256-GCM; 16 bytes: AES-128-GCM
/// let nonce = || Nonce::assume_unique_for_key([0; 12]);
/// let mut buffer = b"hello".to_vec();
/// key.seal_in_place_append_tag(nonce(), b"v1", &mut buffer)?;
/// std::thread::scope(|scope| {
///     scope.spawn(|| assert!(key.open_in_place(nonce(), b"v1", &mut buffer).is_ok()));
/// });
/// # Ok::<(), deerlapse::Unspecified>(())
/// ```
#[derive(Clone)]
pub struct LessSafeKey(pub(crate) ffi::Key);

impl LessSafeKey {
    /// Creates a key from 16 bytes, for AES-128-GCM, or 32, for AES-256-GCM.
    ///
    /// # Errors
    ///
    /// Fails if `key_bytes` has any other length.
    ///
    /// # Examples
    ///
    /// ```no_run
    /// use deerlapse::LessSafeKey;
    ///
    /// assert!(LessSafeKey::new(&[0; 16]).is_ok());
    /// assert!(LessSafeKey::new(&[0; 32]).is_ok());
    /// assert!(LessSafeKey::new(&[0; 24]).is_err());
    /// ```
    #[inline]
    pub fn new(key_bytes: &[u8]) -> Result<Self, Unspecified> {
        cpu::require();
        Ok(LessSafeKey(ffi::Key::new(key_bytes)?))
    }

    /// Encrypts `in_out` in place, and returns the tag of the ciphertext and the AAD.
    ///
    /// # Errors
    ///
    /// Fails if the message is longer than 2^36 - 32 bytes.
    ///
    /// # Examples
    ///
    /// ```no_run
    /// use deerlapse::{LessSafeKey, Nonce};
    ///
    /// // McGrew and Viega, "The Galois/Counter Mode of Operation (GCM)", appendix B, test case 1
    /// let nonce = Nonce::assume_unique_for_key([0; 12]);
    /// let tag = LessSafeKey::new(&[0; 16])?.seal_in_place_separate_tag(nonce, b"", &mut [])?;
    /// assert_eq!(u128::from_be_bytes(tag), 0x58e2fccefa7e3061367f1d57a4e7455a);
    /// # Ok::<(), deerlapse::Unspecified>(())
    /// ```
    pub fn seal_in_place_separate_tag(
        &self,
        nonce: Nonce,
        aad: &[u8],
        in_out: &mut [u8],
    ) -> Result<[u8; TAG_LEN], Unspecified> {
        let mut tag = [0; TAG_LEN];
        // SAFETY: each pointer and its length are those of one slice, which is borrowed for the call. No pointer of a
        // slice is null. `in_out` and `tag` are borrowed for writing, so they overlap nothing. `new` filled the key.
        let sealed = unsafe {
            ffi::key_seal(
                &self.0,
                nonce.as_ref(),
                aad.as_ptr(),
                aad.len(),
                in_out.as_mut_ptr(),
                in_out.len(),
                &mut tag,
            )
        };
        accepted(sealed)?;
        Ok(tag)
    }

    /// Encrypts `in_out` in place, and appends the tag: n bytes become n + 16.
    ///
    /// # Errors
    ///
    /// Fails as [`seal_in_place_separate_tag`](Self::seal_in_place_separate_tag) does.
    ///
    /// # Examples
    ///
    /// ```no_run
    /// use deerlapse::{LessSafeKey, Nonce};
    ///
    /// let mut buffer = b"hello".to_vec();
    /// let nonce = Nonce::assume_unique_for_key([0; 12]);
    /// LessSafeKey::new(&[0; 16])?.seal_in_place_append_tag(nonce, b"v1", &mut buffer)?;
    /// assert_eq!(buffer.len(), 21);
    /// # Ok::<(), deerlapse::Unspecified>(())
    /// ```
    #[cfg(feature = "alloc")]
    pub fn seal_in_place_append_tag(
        &self,
        nonce: Nonce,
        aad: &[u8],
        in_out: &mut Vec<u8>,
    ) -> Result<(), Unspecified> {
        let tag = self.seal_in_place_separate_tag(nonce, aad, in_out)?;
        in_out.extend_from_slice(&tag);
        Ok(())
    }

    /// Opens the ciphertext and tag in `in_out` from `ciphertext_and_tag.start` on, and returns the plaintext, which is
    /// then at the front of `in_out`. The bytes after it are unchanged.
    ///
    /// If the AAD is a header before the ciphertext in the same buffer, use `split_at_mut` and
    /// [`open_in_place`](Self::open_in_place).
    ///
    /// # Errors
    ///
    /// Fails if the tag is wrong, if there are fewer than 16 bytes after the start, or if a length is not one that
    /// [`seal_in_place_separate_tag`](Self::seal_in_place_separate_tag) takes.
    ///
    /// # Examples
    ///
    /// ```no_run
    /// use deerlapse::{LessSafeKey, Nonce};
    ///
    /// let key = LessSafeKey::new(&[0; 16])?;
    /// let nonce = || Nonce::assume_unique_for_key([0; 12]);
    /// let mut message = b"hello".to_vec();
    /// key.seal_in_place_append_tag(nonce(), b"v1", &mut message)?;
    /// let mut packet = [b"header".as_slice(), &message].concat();
    /// assert_eq!(key.open_within(nonce(), b"v1", &mut packet, 6..)?, b"hello");
    /// # Ok::<(), deerlapse::Unspecified>(())
    /// ```
    pub fn open_within<'a>(
        &self,
        nonce: Nonce,
        aad: &[u8],
        in_out: &'a mut [u8],
        ciphertext_and_tag: RangeFrom<usize>,
    ) -> Result<&'a mut [u8], Unspecified> {
        let mut len = 0;
        // SAFETY: as in `seal_in_place_separate_tag`, with `len` in the place of the tag.
        let opened = unsafe {
            ffi::key_open(
                &self.0,
                nonce.as_ref(),
                aad.as_ptr(),
                aad.len(),
                in_out.as_mut_ptr(),
                in_out.len(),
                ciphertext_and_tag.start,
                &mut len,
            )
        };
        accepted(opened)?;
        Ok(&mut in_out[..len])
    }

    /// Opens the ciphertext and tag in the whole of `in_out`, as [`open_within`](Self::open_within) does.
    ///
    /// # Errors
    ///
    /// Fails as [`open_within`](Self::open_within) does.
    ///
    /// # Examples
    ///
    /// ```no_run
    /// use deerlapse::{LessSafeKey, Nonce, Unspecified};
    ///
    /// let key = LessSafeKey::new(&[0; 16])?;
    /// let nonce = |byte| Nonce::assume_unique_for_key([byte; 12]);
    /// let mut buffer = b"hello".to_vec();
    /// key.seal_in_place_append_tag(nonce(0), b"v1", &mut buffer)?;
    /// assert_eq!(key.open_in_place(nonce(1), b"v1", &mut buffer), Err(Unspecified));
    /// assert_eq!(key.open_in_place(nonce(0), b"v1", &mut buffer)?, b"hello");
    /// # Ok::<(), deerlapse::Unspecified>(())
    /// ```
    pub fn open_in_place<'a>(
        &self,
        nonce: Nonce,
        aad: &[u8],
        in_out: &'a mut [u8],
    ) -> Result<&'a mut [u8], Unspecified> {
        self.open_within(nonce, aad, in_out, 0..)
    }

    /// Opens the ciphertext in `in_out` from `ciphertext.start` on, whose tag is `tag`, and returns the plaintext,
    /// which is then at the front of `in_out`. The bytes after it are unchanged.
    ///
    /// # Errors
    ///
    /// Fails if the tag is wrong, if the start is after the end, or if a length is not one that
    /// [`seal_in_place_separate_tag`](Self::seal_in_place_separate_tag) takes.
    ///
    /// # Examples
    ///
    /// ```no_run
    /// use deerlapse::{LessSafeKey, Nonce};
    ///
    /// let key = LessSafeKey::new(&[0; 16])?;
    /// let nonce = || Nonce::assume_unique_for_key([0; 12]);
    /// let mut buffer = *b"v1hello";
    /// let tag = key.seal_in_place_separate_tag(nonce(), b"v1", &mut buffer[2..])?;
    /// let opened = key.open_in_place_separate_tag(nonce(), b"v1", tag, &mut buffer, 2..)?;
    /// assert_eq!(opened, b"hello");
    /// # Ok::<(), deerlapse::Unspecified>(())
    /// ```
    pub fn open_in_place_separate_tag<'a>(
        &self,
        nonce: Nonce,
        aad: &[u8],
        tag: [u8; TAG_LEN],
        in_out: &'a mut [u8],
        ciphertext: RangeFrom<usize>,
    ) -> Result<&'a mut [u8], Unspecified> {
        // SAFETY: as in `seal_in_place_separate_tag`, and the tag is only read.
        let opened = unsafe {
            ffi::key_open_separate_tag(
                &self.0,
                nonce.as_ref(),
                aad.as_ptr(),
                aad.len(),
                in_out.as_mut_ptr(),
                in_out.len(),
                ciphertext.start,
                &tag,
            )
        };
        accepted(opened)?;
        let len = in_out.len() - ciphertext.start;
        Ok(&mut in_out[..len])
    }

    /// Encrypts `message` to `out`, and returns the tag of the ciphertext and the AAD.
    ///
    /// # Errors
    ///
    /// Fails if `out` is not as long as `message`, or if the message is longer than 2^36 - 32 bytes. `out` is then
    /// unchanged.
    ///
    /// # Examples
    ///
    /// ```no_run
    /// use deerlapse::{LessSafeKey, Nonce};
    ///
    /// let key = LessSafeKey::new(&[0; 16])?;
    /// let nonce = || Nonce::assume_unique_for_key([0; 12]);
    /// let (mut sealed, mut opened) = ([0; 5], [0; 5]);
    /// let tag = key.seal_to(nonce(), b"v1", b"hello", &mut sealed)?;
    /// key.open_to(nonce(), b"v1", tag, &sealed, &mut opened)?;
    /// assert_eq!(opened, *b"hello");
    /// # Ok::<(), deerlapse::Unspecified>(())
    /// ```
    pub fn seal_to(
        &self,
        nonce: Nonce,
        aad: &[u8],
        message: &[u8],
        out: &mut [u8],
    ) -> Result<[u8; TAG_LEN], Unspecified> {
        let mut tag = [0; TAG_LEN];
        // SAFETY: each pointer and its length are those of one slice, which is borrowed for the call; `out` and `tag`
        // are borrowed for writing, so they overlap nothing. `new` filled the key.
        let sealed = unsafe {
            ffi::key_seal_to_sized(
                &self.0,
                nonce.as_ref(),
                aad.as_ptr(),
                aad.len(),
                message.as_ptr(),
                message.len(),
                out.as_mut_ptr(),
                out.len(),
                &mut tag,
            )
        };
        accepted(sealed)?;
        Ok(tag)
    }

    /// Opens `ciphertext`, whose tag is `tag`, to `out`.
    ///
    /// # Errors
    ///
    /// Fails if the tag is wrong, if `out` is not as long as `ciphertext`, or if a length is not one that
    /// [`seal_to`](Self::seal_to) takes. `out` is then unchanged.
    ///
    /// # Examples
    ///
    /// ```no_run
    /// use deerlapse::{LessSafeKey, Nonce, Unspecified};
    ///
    /// let key = LessSafeKey::new(&[0; 16])?;
    /// let nonce = Nonce::assume_unique_for_key([0; 12]);
    /// let mut out = *b"12345";
    /// assert_eq!(key.open_to(nonce, b"v1", [0; 16], b"hello", &mut out), Err(Unspecified));
    /// assert_eq!(out, *b"12345");
    /// # Ok::<(), deerlapse::Unspecified>(())
    /// ```
    pub fn open_to(
        &self,
        nonce: Nonce,
        aad: &[u8],
        tag: [u8; TAG_LEN],
        ciphertext: &[u8],
        out: &mut [u8],
    ) -> Result<(), Unspecified> {
        // SAFETY: as in `seal_to`, and the tag is only read.
        accepted(unsafe {
            ffi::key_open_to_sized(
                &self.0,
                nonce.as_ref(),
                aad.as_ptr(),
                aad.len(),
                ciphertext.as_ptr(),
                ciphertext.len(),
                out.as_mut_ptr(),
                out.len(),
                &tag,
            )
        })
    }

    /// Encrypts `message` to `out`, and writes the tag after the ciphertext: n bytes become n + 16.
    ///
    /// # Errors
    ///
    /// Fails if `out` does not have 16 bytes more than `message`, or if the message is longer than 2^36 - 32 bytes. `out`
    /// is then unchanged.
    ///
    /// # Examples
    ///
    /// ```no_run
    /// use deerlapse::{LessSafeKey, Nonce};
    ///
    /// let key = LessSafeKey::new(&[0; 16])?;
    /// let nonce = || Nonce::assume_unique_for_key([0; 12]);
    /// let (mut sealed, mut opened) = ([0; 21], [0; 5]);
    /// key.seal_append_tag_to(nonce(), b"v1", b"hello", &mut sealed)?;
    /// key.open_appended_tag_to(nonce(), b"v1", &sealed, &mut opened)?;
    /// assert_eq!(opened, *b"hello");
    /// # Ok::<(), deerlapse::Unspecified>(())
    /// ```
    pub fn seal_append_tag_to(
        &self,
        nonce: Nonce,
        aad: &[u8],
        message: &[u8],
        out: &mut [u8],
    ) -> Result<(), Unspecified> {
        // SAFETY: as in `seal_to`.
        accepted(unsafe {
            ffi::key_seal_append_tag_sized(
                &self.0,
                nonce.as_ref(),
                aad.as_ptr(),
                aad.len(),
                message.as_ptr(),
                message.len(),
                out.as_mut_ptr(),
                out.len(),
            )
        })
    }

    /// Opens the ciphertext and the tag after it to `out`: n bytes become n - 16.
    ///
    /// # Errors
    ///
    /// Fails if the tag is wrong, if `out` does not have 16 bytes less than `ciphertext_and_tag`, or if a length is not
    /// one that [`seal_append_tag_to`](Self::seal_append_tag_to) takes. `out` is then unchanged.
    ///
    /// # Examples
    ///
    /// ```no_run
    /// use deerlapse::{LessSafeKey, Nonce, Unspecified};
    ///
    /// let key = LessSafeKey::new(&[0; 16])?;
    /// let nonce = Nonce::assume_unique_for_key([0; 12]);
    /// let mut out = *b"12345";
    /// assert_eq!(key.open_appended_tag_to(nonce, b"v1", &[0; 21], &mut out), Err(Unspecified));
    /// assert_eq!(out, *b"12345");
    /// # Ok::<(), deerlapse::Unspecified>(())
    /// ```
    pub fn open_appended_tag_to(
        &self,
        nonce: Nonce,
        aad: &[u8],
        ciphertext_and_tag: &[u8],
        out: &mut [u8],
    ) -> Result<(), Unspecified> {
        // SAFETY: as in `seal_to`.
        accepted(unsafe {
            ffi::key_open_appended_tag_sized(
                &self.0,
                nonce.as_ref(),
                aad.as_ptr(),
                aad.len(),
                ciphertext_and_tag.as_ptr(),
                ciphertext_and_tag.len(),
                out.as_mut_ptr(),
                out.len(),
            )
        })
    }
}

/// Prints nothing of the key.
impl fmt::Debug for LessSafeKey {
    fn fmt(&self, f: &mut fmt::Formatter<'_>) -> fmt::Result {
        f.debug_struct("LessSafeKey").finish_non_exhaustive()
    }
}

impl ffi::Key {
    /// Expands a key of 16 or 32 bytes.
    #[inline]
    pub(crate) fn new(bytes: &[u8]) -> Result<Self, Unspecified> {
        // SAFETY: the pointer and its length are those of one slice. A call that returns true wrote the whole key.
        unsafe { initialized(|key| ffi::key_init(key, bytes.as_ptr(), bytes.len())) }
    }
}

/// Wipes the key.
impl Drop for ffi::Key {
    fn drop(&mut self) {
        // SAFETY: the parameter is a reference.
        unsafe { ffi::key_wipe(self) };
    }
}
