//! Header protection of QUIC (`ring::aead::quic`; RFC 9001 section 5.4).

use crate::error::Unspecified;
use core::fmt;

/// A sample of a packet's ciphertext, of which a mask is made (RFC 9001 section 5.4.2).
pub type Sample = [u8; SAMPLE_LEN];

const SAMPLE_LEN: usize = deerlapse::SAMPLE_LEN;

/// An algorithm of header protection (RFC 9001 section 5.4.1).
///
/// `Debug` prints its name.
///
/// ```no_run
/// use deerlapse_ring::aead::quic::{AES_128, AES_256, CHACHA20};
///
/// assert_eq!([&AES_128, &AES_256, &CHACHA20].map(|it| it.key_len()), [16, 32, 32]);
/// assert_eq!(AES_128.sample_len(), 16);
/// assert_eq!(format!("{CHACHA20:?}"), "CHACHA20");
/// ```
#[derive(PartialEq, Eq)]
pub struct Algorithm {
    id: Id,
    key_len: usize,
}

/// The algorithms. `Debug` prints the name of the static.
#[allow(non_camel_case_types)]
#[derive(Debug, PartialEq, Eq)]
enum Id {
    AES_128,
    AES_256,
    CHACHA20,
}

/// Masks by AES with keys of 16 bytes (RFC 9001 section 5.4.3).
pub static AES_128: Algorithm = Algorithm {
    id: Id::AES_128,
    key_len: 16,
};

/// Masks by AES with keys of 32 bytes (RFC 9001 section 5.4.3).
pub static AES_256: Algorithm = Algorithm {
    id: Id::AES_256,
    key_len: 32,
};

/// Masks by ChaCha20, with keys of 32 bytes (RFC 9001 section 5.4.4).
pub static CHACHA20: Algorithm = Algorithm {
    id: Id::CHACHA20,
    key_len: 32,
};

impl Algorithm {
    /// Returns the length of a key, in bytes (RFC 9001 sections 5.4.3 and 5.4.4).
    #[inline]
    #[must_use]
    pub fn key_len(&self) -> usize {
        self.key_len
    }

    /// Returns the length of a sample, 16 bytes (RFC 9001 section 5.4.2).
    #[inline]
    #[must_use]
    pub fn sample_len(&self) -> usize {
        SAMPLE_LEN
    }
}

impl fmt::Debug for Algorithm {
    fn fmt(&self, f: &mut fmt::Formatter<'_>) -> fmt::Result {
        self.id.fmt(f)
    }
}

/// A header protection key: hp_key of RFC 9001 section 5.4.1.
///
/// One for AES is expanded once, and wiped when it is dropped. The bytes of one for ChaCha20 are not wiped.
pub struct HeaderProtectionKey {
    key: Key,
    algorithm: &'static Algorithm,
}

#[allow(clippy::large_enum_variant)]
enum Key {
    Aes(deerlapse::HeaderProtectionKey),
    ChaCha20([u8; 32]),
}

impl HeaderProtectionKey {
    /// Makes a key of bytes that were derived with the label "quic hp" (RFC 9001 section 5.1).
    ///
    /// # Errors
    ///
    /// Fails if `key_bytes` doesn't have `algorithm.key_len()` bytes.
    ///
    /// # Panics
    ///
    /// Panics as [`UnboundKey::new`](super::UnboundKey::new) does.
    ///
    /// # Examples
    ///
    /// ```no_run
    /// use deerlapse_ring::aead::quic::{HeaderProtectionKey, AES_128};
    ///
    /// assert!(HeaderProtectionKey::new(&AES_128, &[0; 16]).is_ok());
    /// assert!(HeaderProtectionKey::new(&AES_128, &[0; 32]).is_err());
    /// ```
    pub fn new(algorithm: &'static Algorithm, key_bytes: &[u8]) -> Result<Self, Unspecified> {
        if key_bytes.len() != algorithm.key_len {
            return Err(Unspecified);
        }
        let key = match algorithm.id {
            Id::AES_128 | Id::AES_256 => deerlapse::HeaderProtectionKey::new(key_bytes)
                .map(Key::Aes)
                .map_err(|_| Unspecified)?,
            Id::CHACHA20 => Key::ChaCha20(key_bytes.try_into()?),
        };
        Ok(HeaderProtectionKey { key, algorithm })
    }

    /// Returns the mask for a sample, of which the first byte is for the packet's first byte, and the others for its
    /// number (RFC 9001 sections 5.4.1, 5.4.3 and 5.4.4).
    ///
    /// # Errors
    ///
    /// Fails if the sample doesn't have 16 bytes.
    ///
    /// # Examples
    ///
    /// ```no_run
    /// use deerlapse_ring::aead::quic::{HeaderProtectionKey, AES_128};
    ///
    /// // RFC 9001 appendix A.2
    /// let key: u128 = 0x9f50449e04a0e810283a1e9933adedd2;
    /// let sample: u128 = 0xd1b1c98dd7689fb8ec11d242b123dc9b;
    /// let mask = HeaderProtectionKey::new(&AES_128, &key.to_be_bytes())?.new_mask(&sample.to_be_bytes())?;
    /// assert_eq!(mask, [0x43, 0x7b, 0x9a, 0xec, 0x36]);
    /// # Ok::<(), deerlapse_ring::error::Unspecified>(())
    /// ```
    pub fn new_mask(&self, sample: &[u8]) -> Result<[u8; 5], Unspecified> {
        let sample: &Sample = sample.try_into()?;
        Ok(match &self.key {
            Key::Aes(key) => key.new_mask(sample),
            Key::ChaCha20(key) => deerlapse::mask_chacha20(key, sample),
        })
    }

    /// Returns the algorithm of the key (RFC 9001 section 5.4.1).
    #[inline]
    #[must_use]
    pub fn algorithm(&self) -> &'static Algorithm {
        self.algorithm
    }
}
