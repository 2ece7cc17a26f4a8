//! The algorithms, which keys are made for.

use super::{MAX_TAG_LEN, NONCE_LEN};
use crate::cipher::Id;
use core::fmt;

/// An algorithm of authenticated encryption (RFC 5116 section 5).
///
/// `Debug` prints its name.
///
/// ```no_run
/// use deerlapse_ring::aead::{AES_128_GCM, AES_256_GCM};
///
/// for algorithm in [&AES_128_GCM, &AES_256_GCM] {
///     assert_eq!((algorithm.nonce_len(), algorithm.tag_len()), (12, 16));
/// }
/// assert_eq!((AES_128_GCM.key_len(), AES_256_GCM.key_len()), (16, 32));
/// assert_eq!(format!("{AES_128_GCM:?}"), "AES_128_GCM");
/// ```
#[derive(PartialEq, Eq)]
pub struct Algorithm {
    id: Id,
    key_len: usize,
}

/// AES-GCM with keys of 16 bytes: AEAD_AES_128_GCM of RFC 5116 section 5.1 (SP 800-38D).
pub static AES_128_GCM: Algorithm = Algorithm::new(Id::AES_128_GCM, 16);

/// AES-GCM with keys of 32 bytes: AEAD_AES_256_GCM of RFC 5116 section 5.2 (SP 800-38D).
pub static AES_256_GCM: Algorithm = Algorithm::new(Id::AES_256_GCM, 32);

impl Algorithm {
    pub(crate) const fn new(id: Id, key_len: usize) -> Self {
        Algorithm { id, key_len }
    }

    pub(super) fn id(&self) -> &Id {
        &self.id
    }

    /// Returns the length of a key, in bytes: K_LEN of RFC 5116 section 5.
    #[inline]
    #[must_use]
    pub fn key_len(&self) -> usize {
        self.key_len
    }

    /// Returns the length of a tag, 16 bytes (RFC 5116 sections 5.1 and 5.2).
    #[inline]
    #[must_use]
    pub fn tag_len(&self) -> usize {
        MAX_TAG_LEN
    }

    /// Returns the length of a nonce, 12 bytes: N_MIN and N_MAX of RFC 5116 section 5.
    #[inline]
    #[must_use]
    pub fn nonce_len(&self) -> usize {
        NONCE_LEN
    }
}

impl fmt::Debug for Algorithm {
    fn fmt(&self, f: &mut fmt::Formatter<'_>) -> fmt::Result {
        self.id.fmt(f)
    }
}
