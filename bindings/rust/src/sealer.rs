//! A key that counts its nonces.

use crate::{accepted, cpu, ffi, initialized, Unspecified, NONCE_LEN, TAG_LEN};
#[cfg(feature = "alloc")]
use alloc::vec::Vec;
use core::fmt;
use core::ops::Range;

/// An AES-GCM key that seals each message under its own nonce: an IV XOR the message's number (RFC 8446 section 5.3,
/// RFC 9001 section 5.3).
///
/// It holds the expanded key, as [`LessSafeKey`](crate::LessSafeKey) does, and is wiped when it is dropped.
/// [`Opener`](crate::Opener) opens what it seals.
///
/// ```no_run
/// use deerlapse::{Opener, Sealer};
///
/// let mut sealer = Sealer::new(&[0; 16], &[0; 12], 0..1 << 24)?;
/// let mut buffer = b"hello".to_vec();
/// sealer.seal_in_place_append_tag(b"v1", &mut buffer)?;
///
/// let mut opener = Opener::new(&[0; 16], &[0; 12], 0..1 << 24)?;
/// assert_eq!(opener.open_in_place(b"v1", &mut buffer)?, b"hello");
/// # Ok::<(), deerlapse::Unspecified>(())
/// ```
///
/// It cannot be cloned, because the clone would use the same nonces again:
///
/// ```compile_fail
/// let sealer = deerlapse::Sealer::new(&[0; 16], &[0; 12], 0..9)?;
/// let again = sealer.clone();
/// # Ok::<(), deerlapse::Unspecified>(())
/// ```
pub struct Sealer {
    state: ffi::Sealer,
    limit: u64,
}

impl Sealer {
    /// Creates a sealer whose messages have these numbers, in order.
    ///
    /// Under the same key, none of its nonces may be used by another sealer, or for sealing with a `LessSafeKey`. The
    /// simplest way is a key for this sealer alone.
    ///
    /// # Errors
    ///
    /// Fails if the key does not have 16 or 32 bytes, or if the range starts after its end.
    ///
    /// # Examples
    ///
    /// ```no_run
    /// use deerlapse::Sealer;
    ///
    /// assert!(Sealer::new(&[0; 16], &[0; 12], 7..9).is_ok());
    /// assert!(Sealer::new(&[0; 16], &[0; 12], 9..7).is_err());
    /// assert!(Sealer::new(&[0; 24], &[0; 12], 7..9).is_err());
    /// ```
    #[inline]
    pub fn new(
        key_bytes: &[u8],
        iv: &[u8; NONCE_LEN],
        numbers: Range<u64>,
    ) -> Result<Self, Unspecified> {
        cpu::require();
        // SAFETY: the pointer and its length are those of one slice, and the IV is a reference. A call that returns true
        // wrote the whole state.
        let state = unsafe {
            initialized(|state| {
                ffi::sealer_init(
                    state,
                    key_bytes.as_ptr(),
                    key_bytes.len(),
                    iv,
                    numbers.start,
                    numbers.end,
                )
            })
        };
        Ok(Sealer {
            state: state?,
            limit: numbers.end,
        })
    }

    /// Returns the numbers that are left. The first is the number of the next message.
    ///
    /// ```no_run
    /// let mut sealer = deerlapse::Sealer::new(&[0; 16], &[0; 12], 7..9)?;
    /// sealer.seal_in_place_separate_tag(b"", &mut [])?;
    /// assert_eq!(sealer.numbers_left(), 8..9);
    /// # Ok::<(), deerlapse::Unspecified>(())
    /// ```
    #[must_use]
    pub fn numbers_left(&self) -> Range<u64> {
        // SAFETY: the parameter is a reference.
        let next = unsafe { ffi::sealer_next(&self.state) };
        next..self.limit
    }

    /// Encrypts `in_out` in place under the nonce of the next number, and returns the tag of the ciphertext and the
    /// AAD.
    ///
    /// # Errors
    ///
    /// Fails if no number is left, or if the message is longer than 2^36 - 32 bytes. No number is then used, and the
    /// buffer is unchanged.
    ///
    /// # Examples
    ///
    /// ```no_run
    /// use deerlapse::{Sealer, Unspecified};
    ///
    /// let mut sealer = Sealer::new(&[0; 16], &[0; 12], 0..1)?;
    /// let mut message = *b"hello";
    /// assert!(sealer.seal_in_place_separate_tag(b"v1", &mut message).is_ok());
    /// assert_eq!(sealer.seal_in_place_separate_tag(b"v1", &mut message), Err(Unspecified));
    /// # Ok::<(), deerlapse::Unspecified>(())
    /// ```
    pub fn seal_in_place_separate_tag(
        &mut self,
        aad: &[u8],
        in_out: &mut [u8],
    ) -> Result<[u8; TAG_LEN], Unspecified> {
        let mut tag = [0; TAG_LEN];
        // SAFETY: each pointer and its length are those of one slice, which is borrowed for the call; the sealer,
        // `in_out` and `tag` are borrowed for writing. `new` filled the sealer.
        accepted(unsafe {
            ffi::sealer_seal(
                &mut self.state,
                aad.as_ptr(),
                aad.len(),
                in_out.as_mut_ptr(),
                in_out.len(),
                &mut tag,
            )
        })?;
        Ok(tag)
    }

    /// Encrypts `in_out` in place as [`seal_in_place_separate_tag`](Self::seal_in_place_separate_tag) does, and appends
    /// the tag: n bytes become n + 16.
    ///
    /// # Errors
    ///
    /// Fails as [`seal_in_place_separate_tag`](Self::seal_in_place_separate_tag) does.
    ///
    /// # Examples
    ///
    /// ```no_run
    /// let mut sealer = deerlapse::Sealer::new(&[0; 16], &[0; 12], 0..1)?;
    /// let mut buffer = b"hello".to_vec();
    /// sealer.seal_in_place_append_tag(b"v1", &mut buffer)?;
    /// assert_eq!(buffer.len(), 21);
    /// # Ok::<(), deerlapse::Unspecified>(())
    /// ```
    #[cfg(feature = "alloc")]
    pub fn seal_in_place_append_tag(
        &mut self,
        aad: &[u8],
        in_out: &mut Vec<u8>,
    ) -> Result<(), Unspecified> {
        let tag = self.seal_in_place_separate_tag(aad, in_out)?;
        in_out.extend_from_slice(&tag);
        Ok(())
    }
}

/// Wipes the key and the IV.
impl Drop for Sealer {
    fn drop(&mut self) {
        // SAFETY: the parameter is a reference.
        unsafe { ffi::sealer_wipe(&mut self.state) };
    }
}

/// Prints the numbers that are left, but not the key or the IV.
impl fmt::Debug for Sealer {
    fn fmt(&self, f: &mut fmt::Formatter<'_>) -> fmt::Result {
        f.debug_struct("Sealer")
            .field("numbers_left", &self.numbers_left())
            .finish_non_exhaustive()
    }
}
