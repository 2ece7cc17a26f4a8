//! What the calls of `aead` are made of: AES-GCM, by `deerlapse`.

use crate::error::Unspecified;
use core::ops::RangeFrom;

/// The algorithms. `Debug` prints the name of the static.
#[allow(non_camel_case_types)]
#[derive(Debug, PartialEq, Eq)]
pub(crate) enum Id {
    AES_128_GCM,
    AES_256_GCM,
}

/// An expanded key, which is wiped when it is dropped.
#[derive(Clone)]
pub(crate) struct Key(deerlapse::LessSafeKey);

impl Key {
    /// Expands the bytes of a key, which have the length of the algorithm's keys.
    pub(crate) fn new(id: &Id, bytes: &[u8]) -> Result<Self, Unspecified> {
        match id {
            Id::AES_128_GCM | Id::AES_256_GCM => deerlapse::LessSafeKey::new(bytes)
                .map(Key)
                .map_err(|_| Unspecified),
        }
    }

    pub(crate) fn seal(
        &self,
        nonce: deerlapse::Nonce,
        aad: &[u8],
        in_out: &mut [u8],
    ) -> Result<[u8; deerlapse::TAG_LEN], Unspecified> {
        self.0
            .seal_in_place_separate_tag(nonce, aad, in_out)
            .map_err(|_| Unspecified)
    }

    pub(crate) fn open<'a>(
        &self,
        nonce: deerlapse::Nonce,
        aad: &[u8],
        in_out: &'a mut [u8],
        ciphertext_and_tag: RangeFrom<usize>,
    ) -> Result<&'a mut [u8], Unspecified> {
        self.0
            .open_within(nonce, aad, in_out, ciphertext_and_tag)
            .map_err(|_| Unspecified)
    }

    pub(crate) fn open_separate_tag<'a>(
        &self,
        nonce: deerlapse::Nonce,
        aad: &[u8],
        tag: [u8; deerlapse::TAG_LEN],
        in_out: &'a mut [u8],
        ciphertext: RangeFrom<usize>,
    ) -> Result<&'a mut [u8], Unspecified> {
        self.0
            .open_in_place_separate_tag(nonce, aad, tag, in_out, ciphertext)
            .map_err(|_| Unspecified)
    }
}
