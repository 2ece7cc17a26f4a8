//! The Rust of `rust/`.

use deerlapse::aead::{Aad, LessSafeKey, Nonce, Tag};
use deerlapse::xaes::{XNonce, Xaes256Gcm};

use crate::cipher::{Cipher, Given, TAG_LEN};

/// Returns the bytes of a tag.
pub fn bytes_of(tag: &Tag) -> [u8; TAG_LEN] {
    tag.as_ref().try_into().expect("16 bytes")
}

/// The calls of `LessSafeKey` and of `Xaes256Gcm`, whose nonces have different types.
macro_rules! cipher {
    ($key:ident, $len:literal: $nonce:ident) => {
        impl Cipher<$len> for $key {
            fn seal(&self, given: Given<$len>, in_out: &mut [u8]) -> Option<[u8; TAG_LEN]> {
                let nonce = $nonce::assume_unique_for_key(given.nonce);
                let tag = self.seal_in_place_separate_tag(nonce, Aad::from(given.aad), in_out);
                tag.ok().as_ref().map(bytes_of)
            }

            fn seal_append_tag(&self, given: Given<$len>, message: &[u8]) -> Option<Vec<u8>> {
                let nonce = $nonce::assume_unique_for_key(given.nonce);
                let mut out = message.to_vec();
                self.seal_in_place_append_tag(nonce, Aad::from(given.aad), &mut out)
                    .ok()?;
                Some(out)
            }

            fn open(&self, given: Given<$len>, in_out: &mut [u8], start: usize) -> Option<usize> {
                let nonce = $nonce::assume_unique_for_key(given.nonce);
                self.open_within_to_front(nonce, Aad::from(given.aad), in_out, start..)
                    .ok()
            }

            fn open_separate_tag(
                &self,
                given: Given<$len>,
                tag: [u8; TAG_LEN],
                in_out: &mut [u8],
                start: usize,
            ) -> Option<usize> {
                let nonce = $nonce::assume_unique_for_key(given.nonce);
                let (aad, tag) = (Aad::from(given.aad), Tag::from(tag));
                self.open_in_place_separate_tag_to_front(nonce, aad, tag, in_out, start..)
                    .ok()
            }

            fn open_to(
                &self,
                given: Given<$len>,
                tag: [u8; TAG_LEN],
                ciphertext: &[u8],
                out: &mut [u8],
            ) -> Option<usize> {
                let nonce = $nonce::assume_unique_for_key(given.nonce);
                let (aad, tag) = (Aad::from(given.aad), Tag::from(tag));
                self.open_to(nonce, aad, tag, ciphertext, out).ok()?;
                Some(ciphertext.len())
            }
        }
    };
}

cipher!(LessSafeKey, 12: Nonce);
cipher!(Xaes256Gcm, 24: XNonce);
