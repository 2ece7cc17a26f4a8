//! Nonces.

use crate::error::Unspecified;

/// The length of a nonce, in bytes: N_MIN and N_MAX of RFC 5116 sections 5.1 and 5.2.
pub const NONCE_LEN: usize = deerlapse::NONCE_LEN;

/// A nonce for one call, which consumes it: the initialization vector IV of SP 800-38D section 5.2.1.1.
///
/// The caller seals no two messages under the same key and nonce (SP 800-38D section 8). It is neither `Clone` nor `Copy`,
/// so that one value is for one call:
///
/// ```compile_fail
/// let nonce = deerlapse_ring::aead::Nonce::assume_unique_for_key([0; 12]);
/// let again = nonce.clone();
/// ```
pub struct Nonce(deerlapse::Nonce);

impl Nonce {
    /// Makes a nonce of a slice, assuming that no other is the same under its key (SP 800-38D section 8).
    ///
    /// # Errors
    ///
    /// Fails if the slice doesn't have [`NONCE_LEN`] bytes.
    ///
    /// # Examples
    ///
    /// ```no_run
    /// use deerlapse_ring::aead::Nonce;
    ///
    /// assert!(Nonce::try_assume_unique_for_key(&[0; 12]).is_ok());
    /// assert!(Nonce::try_assume_unique_for_key(&[0; 8]).is_err());
    /// ```
    #[inline]
    pub fn try_assume_unique_for_key(value: &[u8]) -> Result<Self, Unspecified> {
        deerlapse::Nonce::try_assume_unique_for_key(value)
            .map(Nonce)
            .map_err(|_| Unspecified)
    }

    /// Makes a nonce of an array, assuming that no other is the same under its key (SP 800-38D section 8).
    ///
    /// ```no_run
    /// let nonce = deerlapse_ring::aead::Nonce::assume_unique_for_key([7; 12]);
    /// assert_eq!(nonce.as_ref(), &[7; 12]);
    /// ```
    #[inline]
    #[must_use]
    pub fn assume_unique_for_key(value: [u8; NONCE_LEN]) -> Self {
        Nonce(deerlapse::Nonce::assume_unique_for_key(value))
    }

    pub(super) fn into_inner(self) -> deerlapse::Nonce {
        self.0
    }
}

impl AsRef<[u8; NONCE_LEN]> for Nonce {
    #[inline]
    fn as_ref(&self) -> &[u8; NONCE_LEN] {
        self.0.as_ref()
    }
}
