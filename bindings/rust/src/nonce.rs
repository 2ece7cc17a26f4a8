//! Nonces.

use crate::{cpu, ffi, Unspecified, NONCE_LEN, XAES_NONCE_LEN};

/// A nonce of 12 bytes, for one message under a key.
///
/// It moves into the call that uses it, so it can't be used again by mistake; it is neither `Copy` nor `Clone`.
///
/// ```compile_fail
/// use deerlapse::{LessSafeKey, Nonce};
///
/// let key = LessSafeKey::new(&[0; 16])?;
/// let nonce = Nonce::assume_unique_for_key([0; 12]);
/// key.seal_in_place_separate_tag(nonce, b"", &mut [])?;
/// key.seal_in_place_separate_tag(nonce, b"", &mut [])?;
/// # Ok::<(), deerlapse::Unspecified>(())
/// ```
pub struct Nonce([u8; NONCE_LEN]);

impl Nonce {
    /// Makes a nonce of 12 bytes that no other message under the key was sealed with, which is the caller's
    /// responsibility.
    ///
    /// ```no_run
    /// use deerlapse::Nonce;
    ///
    /// assert_eq!(Nonce::assume_unique_for_key([7; 12]).as_ref(), &[7; 12]);
    /// ```
    #[must_use]
    pub fn assume_unique_for_key(value: [u8; NONCE_LEN]) -> Self {
        Nonce(value)
    }

    /// Makes a nonce as [`assume_unique_for_key`](Self::assume_unique_for_key) does.
    ///
    /// # Errors
    ///
    /// Fails if `value` does not have 12 bytes.
    ///
    /// # Examples
    ///
    /// ```no_run
    /// use deerlapse::Nonce;
    ///
    /// assert!(Nonce::try_assume_unique_for_key(&[7; 12]).is_ok());
    /// assert!(Nonce::try_assume_unique_for_key(&[7; 13]).is_err());
    /// ```
    pub fn try_assume_unique_for_key(value: &[u8]) -> Result<Self, Unspecified> {
        value.try_into().map(Nonce).map_err(|_| Unspecified)
    }
}

impl AsRef<[u8; NONCE_LEN]> for Nonce {
    fn as_ref(&self) -> &[u8; NONCE_LEN] {
        &self.0
    }
}

/// A nonce of 24 bytes, for one message under an [`Xaes256Gcm`](crate::Xaes256Gcm).
///
/// Random bytes, drawn anew for each message, are one. It moves into the call that uses it, as a [`Nonce`] does.
///
/// ```compile_fail
/// use deerlapse::{Xaes256Gcm, XaesNonce};
///
/// let key = Xaes256Gcm::new(&[0; 32]);
/// let nonce = XaesNonce::assume_unique_for_key([0; 24]);
/// key.seal_in_place_separate_tag(nonce, b"", &mut [])?;
/// key.seal_in_place_separate_tag(nonce, b"", &mut [])?;
/// # Ok::<(), deerlapse::Unspecified>(())
/// ```
pub struct XaesNonce([u8; XAES_NONCE_LEN]);

impl XaesNonce {
    /// Makes a nonce of 24 bytes that no other message under the key was sealed with, which is the caller's
    /// responsibility.
    ///
    /// ```no_run
    /// use deerlapse::XaesNonce;
    ///
    /// assert_eq!(XaesNonce::assume_unique_for_key([7; 24]).as_ref(), &[7; 24]);
    /// ```
    #[must_use]
    pub fn assume_unique_for_key(value: [u8; XAES_NONCE_LEN]) -> Self {
        XaesNonce(value)
    }

    /// Makes a nonce as [`assume_unique_for_key`](Self::assume_unique_for_key) does.
    ///
    /// # Errors
    ///
    /// Fails if `value` does not have 24 bytes.
    ///
    /// # Examples
    ///
    /// ```no_run
    /// use deerlapse::XaesNonce;
    ///
    /// assert!(XaesNonce::try_assume_unique_for_key(&[7; 24]).is_ok());
    /// assert!(XaesNonce::try_assume_unique_for_key(&[7; 12]).is_err());
    /// ```
    pub fn try_assume_unique_for_key(value: &[u8]) -> Result<Self, Unspecified> {
        value.try_into().map(XaesNonce).map_err(|_| Unspecified)
    }
}

impl AsRef<[u8; XAES_NONCE_LEN]> for XaesNonce {
    fn as_ref(&self) -> &[u8; XAES_NONCE_LEN] {
        &self.0
    }
}

/// Returns the nonce of a number under an IV, for opening with a [`LessSafeKey`](crate::LessSafeKey) what a
/// [`Sealer`](crate::Sealer) sealed.
///
/// ```no_run
/// // RFC 9001 appendix A.5
/// let iv = [0xe0, 0x45, 0x9b, 0x34, 0x74, 0xbd, 0xd0, 0xe4, 0x4a, 0x41, 0xc1, 0x44];
/// let nonce = [0xe0, 0x45, 0x9b, 0x34, 0x74, 0xbd, 0xd0, 0xe4, 0x6d, 0x41, 0x7e, 0xb0];
/// assert_eq!(deerlapse::nonce_of(&iv, 654_360_564).as_ref(), &nonce);
/// ```
#[must_use]
pub fn nonce_of(iv: &[u8; NONCE_LEN], number: u64) -> Nonce {
    cpu::require();
    let mut nonce = [0; NONCE_LEN];
    // SAFETY: the parameters are references.
    unsafe { ffi::nonce(iv, number, &mut nonce) };
    Nonce(nonce)
}
