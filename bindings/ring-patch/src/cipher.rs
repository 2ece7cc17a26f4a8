//! What the calls of `aead` are made of: AES-GCM by `deerlapse`, and ChaCha20-Poly1305 by ring, which isn't proved.

use crate::error::Unspecified;
use crate::shared::{Algorithm, MAX_TAG_LEN};
use core::ops::RangeFrom;
use others::aead;

/// ChaCha20-Poly1305 (RFC 8439 section 2.8), by ring.
pub static CHACHA20_POLY1305: Algorithm = Algorithm::new(Id::CHACHA20_POLY1305, 32);

/// The algorithms. `Debug` prints the name of the static.
#[allow(non_camel_case_types)]
#[derive(Debug, PartialEq, Eq)]
pub(crate) enum Id {
    AES_128_GCM,
    AES_256_GCM,
    CHACHA20_POLY1305,
}

/// An expanded key.
#[allow(clippy::large_enum_variant)]
#[derive(Clone)]
pub(crate) enum Key {
    AesGcm(deerlapse::LessSafeKey),
    ChaCha20Poly1305(aead::LessSafeKey),
}

impl Key {
    /// Expands the bytes of a key, which have the length of the algorithm's keys.
    pub(crate) fn new(id: &Id, bytes: &[u8]) -> Result<Self, Unspecified> {
        match id {
            Id::AES_128_GCM | Id::AES_256_GCM => deerlapse::LessSafeKey::new(bytes)
                .map(Key::AesGcm)
                .map_err(|_| Unspecified),
            Id::CHACHA20_POLY1305 => aead::UnboundKey::new(&aead::CHACHA20_POLY1305, bytes)
                .map(aead::LessSafeKey::new)
                .map(Key::ChaCha20Poly1305),
        }
    }

    pub(crate) fn seal(
        &self,
        nonce: deerlapse::Nonce,
        aad: &[u8],
        in_out: &mut [u8],
    ) -> Result<[u8; MAX_TAG_LEN], Unspecified> {
        match self {
            Key::AesGcm(key) => key
                .seal_in_place_separate_tag(nonce, aad, in_out)
                .map_err(|_| Unspecified),
            Key::ChaCha20Poly1305(key) => {
                let tag =
                    key.seal_in_place_separate_tag(of_ring(nonce), aead::Aad::from(aad), in_out)?;
                Ok(tag.as_ref().try_into()?)
            }
        }
    }

    pub(crate) fn open<'a>(
        &self,
        nonce: deerlapse::Nonce,
        aad: &[u8],
        in_out: &'a mut [u8],
        ciphertext_and_tag: RangeFrom<usize>,
    ) -> Result<&'a mut [u8], Unspecified> {
        match self {
            Key::AesGcm(key) => key
                .open_within(nonce, aad, in_out, ciphertext_and_tag)
                .map_err(|_| Unspecified),
            Key::ChaCha20Poly1305(key) => {
                let aad = aead::Aad::from(aad);
                key.open_within(of_ring(nonce), aad, in_out, ciphertext_and_tag)
            }
        }
    }

    pub(crate) fn open_separate_tag<'a>(
        &self,
        nonce: deerlapse::Nonce,
        aad: &[u8],
        tag: [u8; MAX_TAG_LEN],
        in_out: &'a mut [u8],
        ciphertext: RangeFrom<usize>,
    ) -> Result<&'a mut [u8], Unspecified> {
        match self {
            Key::AesGcm(key) => key
                .open_in_place_separate_tag(nonce, aad, tag, in_out, ciphertext)
                .map_err(|_| Unspecified),
            Key::ChaCha20Poly1305(key) => {
                let (nonce, aad) = (of_ring(nonce), aead::Aad::from(aad));
                key.open_in_place_separate_tag(nonce, aad, tag.into(), in_out, ciphertext)
            }
        }
    }
}

fn of_ring(nonce: deerlapse::Nonce) -> aead::Nonce {
    aead::Nonce::assume_unique_for_key(*nonce.as_ref())
}
