//! The Rust of `rust/`.

use deerlapse::aead::quic::{HeaderProtectionKey, AES_128, AES_256, CHACHA20};
use deerlapse::aead::{Aad, Nonce, Tag};
use deerlapse::aes_gcm::{ExpandedKey, GcmKey, KeyBytes, Work};
use deerlapse::xaes::{XNonce, Xaes256Gcm};

use crate::{Side, TAG_LEN};

pub struct Plain;

fn bytes_of(tag: &Tag) -> [u8; TAG_LEN] {
    tag.as_ref().try_into().expect("16 bytes")
}

impl Side for Plain {
    type Key = ExpandedKey;
    type Xaes = Xaes256Gcm;
    type HeaderKey = HeaderProtectionKey;

    fn expand(key: &mut ExpandedKey, bytes: &[u8]) {
        let bytes = match <&[u8; 16]>::try_from(bytes) {
            Ok(bytes) => KeyBytes::AES_128(bytes),
            Err(_) => KeyBytes::AES_256(bytes.try_into().expect("16 or 32 bytes")),
        };
        key.expand(bytes, &mut Work::new());
    }

    fn zeros() -> ExpandedKey {
        ExpandedKey::zeros()
    }

    fn seal(key: &ExpandedKey, nonce: [u8; 12], buffer: &mut [u8]) -> [u8; TAG_LEN] {
        let nonce = Nonce::assume_unique_for_key(nonce);
        let tag = key.seal(nonce, Aad::empty(), buffer, &mut Work::new());
        bytes_of(&tag.expect("a short message"))
    }

    fn open(key: &ExpandedKey, nonce: [u8; 12], tag: [u8; TAG_LEN], buffer: &mut [u8]) -> bool {
        let (nonce, tag) = (Nonce::assume_unique_for_key(nonce), Tag::from(tag));
        key.open(nonce, Aad::empty(), tag, buffer, 0.., &mut Work::new())
            .is_ok()
    }

    fn xaes(bytes: &[u8; 32]) -> Xaes256Gcm {
        Xaes256Gcm::new(bytes)
    }

    fn seal_by_xaes(key: &Xaes256Gcm, nonce: [u8; 24], buffer: &mut [u8]) -> [u8; TAG_LEN] {
        let nonce = XNonce::assume_unique_for_key(nonce);
        let tag = key.seal_in_place_separate_tag(nonce, Aad::empty(), buffer);
        bytes_of(&tag.expect("a short message"))
    }

    fn header_key(bytes: &[u8], is_chacha20: bool) -> HeaderProtectionKey {
        let algorithm = match bytes.len() {
            16 => &AES_128,
            _ if is_chacha20 => &CHACHA20,
            _ => &AES_256,
        };
        HeaderProtectionKey::new(algorithm, bytes).expect("a key of the right length")
    }

    fn mask(key: &HeaderProtectionKey, sample: &[u8; 16]) -> [u8; 5] {
        key.new_mask(sample).expect("a sample of the right length")
    }
}
