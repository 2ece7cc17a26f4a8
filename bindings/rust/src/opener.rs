//! A key that opens what a `Sealer` sealed.

use crate::{accepted, cpu, ffi, initialized, Unspecified, NONCE_LEN};
use core::fmt;
use core::ops::{Range, RangeFrom};

/// An AES-GCM key that opens what a [`Sealer`](crate::Sealer) with the same key and IV sealed, in order or by number.
///
/// It holds the expanded key, as [`LessSafeKey`](crate::LessSafeKey) does, and is wiped when it is dropped.
///
/// ```no_run
/// use deerlapse::{Opener, Sealer, Unspecified};
///
/// let mut sealer = Sealer::new(&[0; 16], &[0; 12], 0..9)?;
/// let mut buffer = b"hello".to_vec();
/// sealer.seal_in_place_append_tag(b"v1", &mut buffer)?;
///
/// let mut opener = Opener::new(&[0; 16], &[0; 12], 0..9)?;
/// let again = &mut buffer.clone();
/// assert_eq!(opener.open_in_place(b"v1", &mut buffer)?, b"hello");
/// assert_eq!(opener.open_in_place(b"v1", again), Err(Unspecified)); // it isn't message 1
/// # Ok::<(), deerlapse::Unspecified>(())
/// ```
pub struct Opener {
    state: ffi::Opener,
    limit: u64,
}

impl Opener {
    /// Creates an opener for messages with these numbers, in order.
    ///
    /// # Errors
    ///
    /// Fails if the key does not have 16 or 32 bytes, or if the range starts after its end.
    ///
    /// # Examples
    ///
    /// ```no_run
    /// use deerlapse::Opener;
    ///
    /// assert!(Opener::new(&[0; 16], &[0; 12], 7..9).is_ok());
    /// assert!(Opener::new(&[0; 16], &[0; 12], 9..7).is_err());
    /// assert!(Opener::new(&[0; 24], &[0; 12], 7..9).is_err());
    /// ```
    #[inline]
    pub fn new(
        key_bytes: &[u8],
        iv: &[u8; NONCE_LEN],
        numbers: Range<u64>,
    ) -> Result<Self, Unspecified> {
        cpu::require();
        // SAFETY: the pointer and its length are those of one slice, and the IV is a reference. A call that returns true
        // wrote the whole state.
        let state = unsafe {
            initialized(|state| {
                ffi::opener_init(
                    state,
                    key_bytes.as_ptr(),
                    key_bytes.len(),
                    iv,
                    numbers.start,
                    numbers.end,
                )
            })
        };
        Ok(Opener {
            state: state?,
            limit: numbers.end,
        })
    }

    /// Returns the numbers that are left. The first is the number of the message that is opened next in order.
    ///
    /// ```no_run
    /// let opener = deerlapse::Opener::new(&[0; 16], &[0; 12], 7..9)?;
    /// assert_eq!(opener.numbers_left(), 7..9);
    /// # Ok::<(), deerlapse::Unspecified>(())
    /// ```
    #[must_use]
    pub fn numbers_left(&self) -> Range<u64> {
        // SAFETY: the parameter is a reference.
        let next = unsafe { ffi::opener_next(&self.state) };
        next..self.limit
    }

    /// Opens the next message in order, whose ciphertext and tag are in `in_out` from `ciphertext_and_tag.start` on,
    /// and returns the plaintext, which is then at the front of `in_out`. The bytes after it are unchanged.
    ///
    /// # Errors
    ///
    /// Fails if no number is left, or if [`LessSafeKey::open_within`](crate::LessSafeKey::open_within) does. The number
    /// is then not counted, so the message with this number can still be opened.
    ///
    /// # Examples
    ///
    /// ```no_run
    /// use deerlapse::{Opener, Sealer};
    ///
    /// let mut message = b"hello".to_vec();
    /// Sealer::new(&[0; 16], &[0; 12], 0..9)?.seal_in_place_append_tag(b"v1", &mut message)?;
    /// let mut packet = [b"header".as_slice(), &message].concat();
    /// let mut opener = Opener::new(&[0; 16], &[0; 12], 0..9)?;
    /// assert_eq!(opener.open_within(b"v1", &mut packet, 6..)?, b"hello");
    /// # Ok::<(), deerlapse::Unspecified>(())
    /// ```
    pub fn open_within<'a>(
        &mut self,
        aad: &[u8],
        in_out: &'a mut [u8],
        ciphertext_and_tag: RangeFrom<usize>,
    ) -> Result<&'a mut [u8], Unspecified> {
        let mut len = 0;
        // SAFETY: each pointer and its length are those of one slice, which is borrowed for the call; the opener,
        // `in_out` and `len` are borrowed for writing. `new` filled the opener.
        accepted(unsafe {
            ffi::opener_open(
                &mut self.state,
                aad.as_ptr(),
                aad.len(),
                in_out.as_mut_ptr(),
                in_out.len(),
                ciphertext_and_tag.start,
                &mut len,
            )
        })?;
        Ok(&mut in_out[..len])
    }

    /// Opens the ciphertext and tag in the whole of `in_out`, as [`open_within`](Self::open_within) does.
    ///
    /// # Errors
    ///
    /// Fails as [`open_within`](Self::open_within) does.
    ///
    /// # Examples
    ///
    /// ```no_run
    /// use deerlapse::{Opener, Sealer};
    ///
    /// let mut buffer = b"hello".to_vec();
    /// Sealer::new(&[0; 16], &[0; 12], 0..9)?.seal_in_place_append_tag(b"v1", &mut buffer)?;
    /// let mut opener = Opener::new(&[0; 16], &[0; 12], 0..9)?;
    /// assert_eq!(opener.open_in_place(b"v1", &mut buffer)?, b"hello");
    /// assert_eq!(opener.numbers_left(), 1..9);
    /// # Ok::<(), deerlapse::Unspecified>(())
    /// ```
    pub fn open_in_place<'a>(
        &mut self,
        aad: &[u8],
        in_out: &'a mut [u8],
    ) -> Result<&'a mut [u8], Unspecified> {
        self.open_within(aad, in_out, 0..)
    }

    /// Opens the message with a number that the caller knows, for example from a packet, as
    /// [`open_within`](Self::open_within) does.
    ///
    /// It counts nothing and has no limit, and threads may share the opener. It opens a message any number of times:
    /// whether a number was opened before is the caller's responsibility.
    ///
    /// # Errors
    ///
    /// Fails if [`LessSafeKey::open_within`](crate::LessSafeKey::open_within) does.
    ///
    /// # Examples
    ///
    /// ```no_run
    /// use deerlapse::{Opener, Sealer};
    ///
    /// let mut message = b"hello".to_vec();
    /// Sealer::new(&[0; 16], &[0; 12], 7..9)?.seal_in_place_append_tag(b"v1", &mut message)?;
    /// let mut packet = [b"header".as_slice(), &message].concat();
    /// let opener = Opener::new(&[0; 16], &[0; 12], 0..9)?;
    /// assert_eq!(opener.open_number_within(7, b"v1", &mut packet, 6..)?, b"hello");
    /// # Ok::<(), deerlapse::Unspecified>(())
    /// ```
    pub fn open_number_within<'a>(
        &self,
        number: u64,
        aad: &[u8],
        in_out: &'a mut [u8],
        ciphertext_and_tag: RangeFrom<usize>,
    ) -> Result<&'a mut [u8], Unspecified> {
        let mut len = 0;
        // SAFETY: as in `open_within`, and the opener is only read.
        accepted(unsafe {
            ffi::opener_open_number(
                &self.state,
                number,
                aad.as_ptr(),
                aad.len(),
                in_out.as_mut_ptr(),
                in_out.len(),
                ciphertext_and_tag.start,
                &mut len,
            )
        })?;
        Ok(&mut in_out[..len])
    }

    /// Opens the ciphertext and tag in the whole of `in_out`, as [`open_number_within`](Self::open_number_within) does.
    ///
    /// # Errors
    ///
    /// Fails as [`open_number_within`](Self::open_number_within) does.
    ///
    /// # Examples
    ///
    /// ```no_run
    /// use deerlapse::{Opener, Sealer};
    ///
    /// let mut buffer = b"hello".to_vec();
    /// Sealer::new(&[0; 16], &[0; 12], 7..9)?.seal_in_place_append_tag(b"v1", &mut buffer)?;
    /// let opener = Opener::new(&[0; 16], &[0; 12], 0..9)?;
    /// assert_eq!(opener.open_number_in_place(7, b"v1", &mut buffer)?, b"hello");
    /// assert_eq!(opener.numbers_left(), 0..9);
    /// # Ok::<(), deerlapse::Unspecified>(())
    /// ```
    pub fn open_number_in_place<'a>(
        &self,
        number: u64,
        aad: &[u8],
        in_out: &'a mut [u8],
    ) -> Result<&'a mut [u8], Unspecified> {
        self.open_number_within(number, aad, in_out, 0..)
    }
}

/// Wipes the key and the IV.
impl Drop for Opener {
    fn drop(&mut self) {
        // SAFETY: the parameter is a reference.
        unsafe { ffi::opener_wipe(&mut self.state) };
    }
}

/// Prints the numbers that are left, but not the key or the IV.
impl fmt::Debug for Opener {
    fn fmt(&self, f: &mut fmt::Formatter<'_>) -> fmt::Result {
        f.debug_struct("Opener")
            .field("numbers_left", &self.numbers_left())
            .finish_non_exhaustive()
    }
}
