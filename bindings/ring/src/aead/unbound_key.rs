//! Keys that nothing is bound to yet.

use super::{Algorithm, LessSafeKey};
use crate::error::Unspecified;
use core::fmt;

/// A key without a sequence of nonces, of which a [`SealingKey`](super::SealingKey), an
/// [`OpeningKey`](super::OpeningKey) or a [`LessSafeKey`] is made: K of SP 800-38D section 5.2.1.1, expanded.
pub struct UnboundKey(LessSafeKey);

impl UnboundKey {
    /// Expands a key (K of RFC 5116 section 2.1; FIPS 197 section 5.2).
    ///
    /// # Errors
    ///
    /// Fails if `key_bytes` doesn't have `algorithm.key_len()` bytes.
    ///
    /// # Panics
    ///
    /// Panics if the processor lacks an instruction that the library was built for, as `deerlapse::cpu_supported` tells.
    ///
    /// # Examples
    ///
    /// ```no_run
    /// use deerlapse_ring::aead::{UnboundKey, AES_128_GCM};
    ///
    /// let key = UnboundKey::new(&AES_128_GCM, &[0; 16])?;
    /// assert_eq!(format!("{key:?}"), "UnboundKey { algorithm: AES_128_GCM }");
    /// assert!(UnboundKey::new(&AES_128_GCM, &[0; 32]).is_err());
    /// # Ok::<(), deerlapse_ring::error::Unspecified>(())
    /// ```
    pub fn new(algorithm: &'static Algorithm, key_bytes: &[u8]) -> Result<Self, Unspecified> {
        LessSafeKey::expand(algorithm, key_bytes).map(UnboundKey)
    }

    /// Returns the algorithm of the key (RFC 5116 section 5).
    #[inline]
    #[must_use]
    pub fn algorithm(&self) -> &'static Algorithm {
        self.0.algorithm()
    }

    pub(super) fn into_inner(self) -> LessSafeKey {
        self.0
    }
}

/// Prints the algorithm, and nothing of the key.
impl fmt::Debug for UnboundKey {
    fn fmt(&self, f: &mut fmt::Formatter<'_>) -> fmt::Result {
        self.0.fmt_as("UnboundKey", f)
    }
}
