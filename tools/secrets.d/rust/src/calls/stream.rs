//! ChaCha20, and the masks of header protection.

use deerlapse::aead::quic::{AES_128, AES_256, Algorithm, CHACHA20, HeaderProtectionKey};
use deerlapse::chacha::{Counter, Key, Overlapping};

use super::{LENGTHS, nonce};
use crate::marks::{assert_are_those, secret, secrets, told};

/// Encrypts from a start on, and decrypts what this wrote to the front.
fn encrypt(key: &Key, len: usize, start: usize) {
    let counter = || Counter::from_nonce_and_ctr(nonce(), 7);
    let mut bytes = secrets(start + len);
    let all = Overlapping::new(&mut bytes, start..).expect("a start in the slice");
    key.encrypt(counter(), all);
    let front = &mut bytes[..len];
    key.encrypt(counter(), Overlapping::from(&mut *front));
    assert_are_those(front);
}

/// The mask of a sample, by the key over vectors and by the one over words.
fn masks(algorithm: &Algorithm) {
    let bytes = secrets(algorithm.key_len());
    let key = HeaderProtectionKey::new(algorithm, &bytes).expect("a key of its length");
    let by_words = aead_ciphers::aead::quic::HeaderProtectionKey::new(algorithm, &bytes)
        .expect("a key of its length");
    let sample = secrets(algorithm.sample_len());
    let mask = key.new_mask(&sample).expect("a sample of its length");
    let other = by_words.new_mask(&sample).expect("a sample of its length");
    assert_eq!(told(&mask), told(&other));
}

pub fn make() {
    let key = Key::new(secret());
    for (start, len) in LENGTHS.into_iter().enumerate() {
        encrypt(&key, len, start);
    }
    assert_are_those(&key.words_less_safe().map(u32::to_le_bytes).concat());
    let mut block = secret::<64>();
    let next = key.encrypt_single_block_with_ctr_0(nonce(), &mut block);
    key.encrypt(next, Overlapping::from(&mut block[..]));
    for algorithm in [&AES_128, &AES_256, &CHACHA20] {
        masks(algorithm);
    }
}
