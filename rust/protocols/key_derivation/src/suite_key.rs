// By hand: in Rattle, an `ArrayVec` holds these bytes.
//! The bytes of a key, as many as the keys of its suite have.

use crate::suite::Suite;
use aead_ciphers_base::aes::{AES_128_KEY_LEN, AES_256_KEY_LEN};
use core::ops::{Deref, DerefMut};

/// The bytes of a key, as many as the keys of its suite have.
pub(crate) enum SuiteKey {
    Aes128Gcm([u8; AES_128_KEY_LEN]),
    Aes256Gcm([u8; AES_256_KEY_LEN]),
}

impl SuiteKey {
    /// Creates zeros, which the key is then written over.
    pub(crate) fn zeros(suite: Suite) -> Self {
        match suite {
            Suite::Aes128Gcm => SuiteKey::Aes128Gcm([0; AES_128_KEY_LEN]),
            Suite::Aes256Gcm => SuiteKey::Aes256Gcm([0; AES_256_KEY_LEN]),
        }
    }
}

impl Deref for SuiteKey {
    type Target = [u8];

    fn deref(&self) -> &[u8] {
        match self {
            SuiteKey::Aes128Gcm(bytes) => bytes,
            SuiteKey::Aes256Gcm(bytes) => bytes,
        }
    }
}

impl DerefMut for SuiteKey {
    fn deref_mut(&mut self) -> &mut [u8] {
        match self {
            SuiteKey::Aes128Gcm(bytes) => bytes,
            SuiteKey::Aes256Gcm(bytes) => bytes,
        }
    }
}

/// Overwrites the key with zeros.
impl Drop for SuiteKey {
    fn drop(&mut self) {
        match self {
            SuiteKey::Aes128Gcm(bytes) => simd::wipe(bytes),
            SuiteKey::Aes256Gcm(bytes) => simd::wipe(bytes),
        }
    }
}
