//! The two algorithms.

use deerlapse::NONCE_LEN;
use rustls::crypto::cipher::{AeadKey, Iv};
use rustls::ConnectionTrafficSecrets;

/// AES-GCM, by the length of its keys. It implements rustls' traits for TLS 1.3, TLS 1.2 and QUIC, and for TLS 1.3 and QUIC
/// those of HKDF too, with the hash function of the suite.
pub(crate) enum Gcm {
    Aes128,
    Aes256,
}

impl Gcm {
    /// The length of a key, in bytes.
    pub(crate) fn len(&self) -> usize {
        match self {
            Gcm::Aes128 => 16,
            Gcm::Aes256 => 32,
        }
    }

    /// The length of an output of the suite's hash function in TLS 1.3, in bytes: SHA-256, or SHA-384 for AES-256-GCM (RFC 8446
    /// appendix B.4).
    pub(crate) fn hash_len(&self) -> usize {
        match self {
            Gcm::Aes128 => 32,
            Gcm::Aes256 => 48,
        }
    }

    /// A key and an IV in the form in which rustls gives them to its caller, for example for the kernel.
    pub(crate) fn secrets(&self, key: AeadKey, iv: Iv) -> ConnectionTrafficSecrets {
        match self {
            Gcm::Aes128 => ConnectionTrafficSecrets::Aes128Gcm { key, iv },
            Gcm::Aes256 => ConnectionTrafficSecrets::Aes256Gcm { key, iv },
        }
    }
}

/// The bytes of an IV.
pub(crate) fn bytes(iv: &Iv) -> [u8; NONCE_LEN] {
    iv.as_ref().try_into().expect("an IV has 12 bytes")
}
