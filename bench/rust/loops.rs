//! The loops of `bench.h` over ring and over RustCrypto's `aes-gcm`, which `bench/arm64` links.

use aes::cipher::{BlockEncrypt, KeyInit};
use aes::{Aes128, Aes256, Block};
use aes_gcm::{AeadInPlace, Aes128Gcm, Aes256Gcm};
use ring::aead::quic::{self, HeaderProtectionKey};
use ring::aead::{Aad, LessSafeKey, Nonce, UnboundKey, AES_128_GCM, AES_256_GCM};
use std::hint::black_box;
use std::slice;

const NONCE: [u8; 12] = [1; 12];
const MASK_LEN: usize = 5;

type Tag = [u8; 16];

/// A key that seals and opens in place.
trait GcmKey {
    fn new(key: &[u8]) -> Self;
    fn seal(&self, aad: &[u8], data: &mut [u8]) -> Tag;
    /// Returns whether the tag is that of the ciphertext, without an AAD.
    fn open(&self, tag: &Tag, data: &mut [u8]) -> bool;
}

impl GcmKey for LessSafeKey {
    fn new(key: &[u8]) -> Self {
        let algorithm = if key.len() == 16 {
            &AES_128_GCM
        } else {
            &AES_256_GCM
        };
        LessSafeKey::new(UnboundKey::new(algorithm, key).expect("a key"))
    }

    fn seal(&self, aad: &[u8], data: &mut [u8]) -> Tag {
        let nonce = Nonce::assume_unique_for_key(NONCE);
        let tag = self.seal_in_place_separate_tag(nonce, Aad::from(aad), data);
        tag.expect("a short message")
            .as_ref()
            .try_into()
            .expect("16 bytes")
    }

    fn open(&self, tag: &Tag, data: &mut [u8]) -> bool {
        let nonce = Nonce::assume_unique_for_key(NONCE);
        self.open_in_place_separate_tag(nonce, Aad::empty(), (*tag).into(), data, 0..)
            .is_ok()
    }
}

/// Both lengths of a key are types of their own.
macro_rules! gcm_key {
    ($key:ty) => {
        impl GcmKey for $key {
            fn new(key: &[u8]) -> Self {
                KeyInit::new_from_slice(key).expect("a key")
            }

            fn seal(&self, aad: &[u8], data: &mut [u8]) -> Tag {
                self.encrypt_in_place_detached(&NONCE.into(), aad, data)
                    .expect("a short message")
                    .into()
            }

            fn open(&self, tag: &Tag, data: &mut [u8]) -> bool {
                self.decrypt_in_place_detached(&NONCE.into(), &[], data, tag.into())
                    .is_ok()
            }
        }
    };
}

gcm_key!(Aes128Gcm);
gcm_key!(Aes256Gcm);

/// A key that makes masks.
trait MaskKey {
    fn new(key: &[u8]) -> Self;
    fn mask(&self, sample: &[u8]) -> [u8; MASK_LEN];
}

impl MaskKey for HeaderProtectionKey {
    fn new(key: &[u8]) -> Self {
        let algorithm = if key.len() == 16 {
            &quic::AES_128
        } else {
            &quic::AES_256
        };
        HeaderProtectionKey::new(algorithm, key).expect("a key")
    }

    fn mask(&self, sample: &[u8]) -> [u8; MASK_LEN] {
        self.new_mask(sample).expect("a sample")
    }
}

macro_rules! mask_key {
    ($key:ty) => {
        impl MaskKey for $key {
            fn new(key: &[u8]) -> Self {
                KeyInit::new_from_slice(key).expect("a key")
            }

            fn mask(&self, sample: &[u8]) -> [u8; MASK_LEN] {
                let mut block = Block::clone_from_slice(sample);
                self.encrypt_block(&mut block);
                [block[0], block[1], block[2], block[3], block[4]]
            }
        }
    };
}

mask_key!(Aes128);
mask_key!(Aes256);

fn first_bytes(bytes: &[u8]) -> u64 {
    u64::from_le_bytes(bytes[..8].try_into().expect("8 bytes"))
}

fn seal<K: GcmKey>(times: u64, key: &[u8], buffer: &mut [u8]) -> u64 {
    let (key, mut tag) = (K::new(key), [0; 16]);
    for _ in 0..times {
        tag = key.seal(&[], buffer);
    }
    first_bytes(&tag)
}

/// Opening makes the plaintext the ciphertext of what stood there before: two tags take turns.
fn open<K: GcmKey>(times: u64, key: &[u8], buffer: &mut [u8]) -> u64 {
    let key = K::new(key);
    let odd = key.seal(&[], buffer);
    let even = key.seal(&[], buffer);
    let opened = (0..times).filter(|i| key.open(if i % 2 == 0 { &even } else { &odd }, buffer));
    first_bytes(&even).wrapping_add(opened.count() as u64)
}

fn gcm_key<K: GcmKey>(times: u64, key: &[u8], buffer: &mut [u8]) -> u64 {
    let mut made = K::new(key);
    for i in 0..times {
        buffer[..8].copy_from_slice(&i.to_le_bytes());
        made = black_box(K::new(buffer));
    }
    first_bytes(&made.seal(&NONCE, &mut []))
}

fn mask<K: MaskKey>(times: u64, key: &[u8], sample: &mut [u8]) -> u64 {
    let key = K::new(key);
    for _ in 0..times {
        let mask = key.mask(sample);
        sample[..MASK_LEN].copy_from_slice(&mask);
    }
    first_bytes(sample)
}

/// Exports a loop over a type for keys of 16 bytes, and one for those of 32 bytes.
macro_rules! exported {
    ($name:ident, $loop:ident, $of_16:ty, $of_32:ty) => {
        /// # Safety
        ///
        /// Each pointer is of as many bytes as the number after it says, and nothing else uses the buffer's.
        #[no_mangle]
        unsafe extern "C" fn $name(
            times: u64,
            key: *const u8,
            key_len: usize,
            buffer: *mut u8,
            len: usize,
        ) -> u64 {
            let key = unsafe { slice::from_raw_parts(key, key_len) };
            let buffer = unsafe { slice::from_raw_parts_mut(buffer, len) };
            if key_len == 16 {
                $loop::<$of_16>(times, key, buffer)
            } else {
                $loop::<$of_32>(times, key, buffer)
            }
        }
    };
}

exported!(ring_seal, seal, LessSafeKey, LessSafeKey);
exported!(ring_open, open, LessSafeKey, LessSafeKey);
exported!(ring_key, gcm_key, LessSafeKey, LessSafeKey);
exported!(ring_mask, mask, HeaderProtectionKey, HeaderProtectionKey);
exported!(aes_gcm_seal, seal, Aes128Gcm, Aes256Gcm);
exported!(aes_gcm_open, open, Aes128Gcm, Aes256Gcm);
exported!(aes_gcm_key, gcm_key, Aes128Gcm, Aes256Gcm);
exported!(aes_gcm_mask, mask, Aes128, Aes256);
