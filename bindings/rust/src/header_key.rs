//! A key of QUIC's header protection that is expanded once.

use crate::{accepted, cpu, ffi, initialized, QuicVersion, Unspecified, MASK_LEN, SAMPLE_LEN};
use core::fmt;

/// An AES key of QUIC's header protection (RFC 9001 section 5.4.3), which is expanded once and makes many masks.
///
/// It is 248 bytes of plain data, which threads may share, and is wiped when it is dropped; if it was moved, its bytes may
/// remain where it was before. [`mask_chacha20`](crate::mask_chacha20) has nothing to expand.
///
/// ```no_run
/// use deerlapse::HeaderProtectionKey;
///
/// // RFC 9001 appendix A.2
/// let key: u128 = 0x9f50449e04a0e810283a1e9933adedd2;
/// let sample: u128 = 0xd1b1c98dd7689fb8ec11d242b123dc9b;
/// let key = HeaderProtectionKey::new(&key.to_be_bytes())?;
/// assert_eq!(key.new_mask(&sample.to_be_bytes()), [0x43, 0x7b, 0x9a, 0xec, 0x36]);
/// # Ok::<(), deerlapse::Unspecified>(())
/// ```
#[derive(Clone)]
pub struct HeaderProtectionKey(ffi::QuicHeaderKey);

impl HeaderProtectionKey {
    /// Creates a key from 16 bytes, for AES-128, or 32, for AES-256.
    ///
    /// # Errors
    ///
    /// Fails if `key_bytes` has any other length.
    ///
    /// # Examples
    ///
    /// ```no_run
    /// use deerlapse::HeaderProtectionKey;
    ///
    /// assert!(HeaderProtectionKey::new(&[0; 16]).is_ok());
    /// assert!(HeaderProtectionKey::new(&[0; 32]).is_ok());
    /// assert!(HeaderProtectionKey::new(&[0; 24]).is_err());
    /// ```
    #[inline]
    pub fn new(key_bytes: &[u8]) -> Result<Self, Unspecified> {
        cpu::require();
        // SAFETY: the pointer and its length are those of one slice. A call that returns true wrote the whole key.
        let key = unsafe {
            initialized(|key| ffi::quic_header_key_init(key, key_bytes.as_ptr(), key_bytes.len()))
        };
        Ok(HeaderProtectionKey(key?))
    }

    /// Creates the key of a secret (RFC 9001 section 5.1, RFC 9369 section 3.3.2), which has 32 bytes for
    /// TLS_AES_128_GCM_SHA256 and 48 for TLS_AES_256_GCM_SHA384. A key update leaves it as it is (RFC 9001 section 6.1).
    ///
    /// # Errors
    ///
    /// Fails if the secret has any other length.
    ///
    /// # Examples
    ///
    /// ```no_run
    /// use deerlapse::{quic_initial_secrets, HeaderProtectionKey, QuicVersion};
    ///
    /// // RFC 9001 appendices A.1 and A.2
    /// let id: u64 = 0x8394c8f03e515708;
    /// let (client, _) = quic_initial_secrets(QuicVersion::V1, &id.to_be_bytes())?;
    /// let key = HeaderProtectionKey::from_secret(QuicVersion::V1, &client)?;
    /// let sample: u128 = 0xd1b1c98dd7689fb8ec11d242b123dc9b;
    /// assert_eq!(key.new_mask(&sample.to_be_bytes()), [0x43, 0x7b, 0x9a, 0xec, 0x36]);
    /// # Ok::<(), deerlapse::Unspecified>(())
    /// ```
    #[inline]
    pub fn from_secret(version: QuicVersion, secret: &[u8]) -> Result<Self, Unspecified> {
        cpu::require();
        // SAFETY: the pointer and its length are those of one slice. A call that returns true wrote the whole key.
        let key = unsafe {
            initialized(|key| {
                ffi::quic_header_key_from_secret(key, version as u32, secret.as_ptr(), secret.len())
            })
        };
        Ok(HeaderProtectionKey(key?))
    }

    /// Returns the mask of 5 bytes for a sample of 16 bytes.
    ///
    /// ```no_run
    /// use deerlapse::{mask_aes, HeaderProtectionKey};
    ///
    /// let mask = HeaderProtectionKey::new(&[7; 32])?.new_mask(&[0; 16]);
    /// assert_eq!(mask, mask_aes(&[7; 32], &[0; 16])?);
    /// # Ok::<(), deerlapse::Unspecified>(())
    /// ```
    #[must_use]
    pub fn new_mask(&self, sample: &[u8; SAMPLE_LEN]) -> [u8; MASK_LEN] {
        let mut mask = [0; MASK_LEN];
        // SAFETY: the parameters are references, and `new` or `from_secret` filled the key.
        let made = unsafe { ffi::quic_header_key_mask(&self.0, sample, &mut mask) };
        accepted(made).expect("the key is not zeros");
        mask
    }
}

impl Drop for ffi::QuicHeaderKey {
    fn drop(&mut self) {
        // SAFETY: the parameter is a reference.
        unsafe { ffi::quic_header_key_wipe(self) };
    }
}

/// Prints nothing of the key.
impl fmt::Debug for HeaderProtectionKey {
    fn fmt(&self, f: &mut fmt::Formatter<'_>) -> fmt::Result {
        f.debug_struct("HeaderProtectionKey")
            .finish_non_exhaustive()
    }
}
