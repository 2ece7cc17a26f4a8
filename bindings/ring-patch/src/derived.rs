//! Keys that ring's HKDF derives (RFC 5869 section 2.3).

use crate::hkdf::{KeyType, Okm};
use crate::shared::{quic, Algorithm, UnboundKey};

/// The length of the longest key.
const MAX_KEY_LEN: usize = 32;

impl KeyType for &'static Algorithm {
    fn len(&self) -> usize {
        self.key_len()
    }
}

impl KeyType for &'static quic::Algorithm {
    fn len(&self) -> usize {
        self.key_len()
    }
}

/// Makes a key of the bytes that were expanded for it.
fn derived<L: KeyType, K>(okm: Okm<'_, L>, new: impl FnOnce(&[u8]) -> K) -> K {
    let mut bytes = [0; MAX_KEY_LEN];
    let bytes = &mut bytes[..okm.len().len()];
    okm.fill(bytes).expect("the length that was asked for");
    new(bytes)
}

impl From<Okm<'_, &'static Algorithm>> for UnboundKey {
    fn from(okm: Okm<'_, &'static Algorithm>) -> Self {
        let algorithm = *okm.len();
        derived(okm, |bytes| UnboundKey::new(algorithm, bytes)).expect("the algorithm's length")
    }
}

impl From<Okm<'_, &'static quic::Algorithm>> for quic::HeaderProtectionKey {
    fn from(okm: Okm<'_, &'static quic::Algorithm>) -> Self {
        let algorithm = *okm.len();
        derived(okm, |bytes| {
            quic::HeaderProtectionKey::new(algorithm, bytes)
        })
        .expect("the algorithm's length")
    }
}
