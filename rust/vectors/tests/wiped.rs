//! A dropped key leaves no byte of its own in its memory.

use std::mem::MaybeUninit;

use aead_ciphers::gcm;
use aead_ciphers_base::aes::{self, KeyBytes};
use deerlapse::aead::quic::{self, HeaderProtectionKey};
use deerlapse::aead::{AES_256_GCM, Aad, LessSafeKey, Nonce, UnboundKey};
use deerlapse::chacha;
use deerlapse::xaes::Xaes256Gcm;

/// Returns the bytes that a value leaves in its memory when it is dropped.
fn left<T>(value: T) -> Vec<u8> {
    let mut place = MaybeUninit::new(value);
    // SAFETY: the place holds a value, which is dropped once. The volatile reads stay within the place. They may read padding, of
    // which the test only asks what the memory holds.
    unsafe {
        place.as_mut_ptr().drop_in_place();
        (0..size_of::<T>())
            .map(|at| place.as_ptr().cast::<u8>().add(at).read_volatile())
            .collect()
    }
}

/// Asserts that no eight bytes in a row are as they would be in a key that wasn't wiped: few bytes are left that aren't zero.
#[track_caller]
fn is_wiped<T>(value: T) {
    let bytes = left(value);
    let rest = bytes.iter().filter(|byte| **byte != 0).count();
    assert!(rest <= 16, "{rest} of {} bytes are left", bytes.len());
}

#[test]
fn keys_are_wiped() {
    let unbound = || UnboundKey::new(&AES_256_GCM, &[0xa5; 32]).expect("a key of its length");
    is_wiped(unbound());
    is_wiped(LessSafeKey::new(unbound()));
    is_wiped(Xaes256Gcm::new(&[0xa5; 32]));
    is_wiped(HeaderProtectionKey::new(&quic::AES_256, &[0xa5; 32]).expect("a key of its length"));
    is_wiped(chacha::Key::new([0xa5; 32]));
    is_wiped(aead_ciphers::aead::LessSafeKey::new(unbound()));
    is_wiped(aes::Key::new(KeyBytes::AES_256(&[0xa5; 32])).expect("a key"));
    is_wiped(gcm::Key::new(gcm::KeyValue::new([0xa5; 16])));
}

#[test]
fn states_are_wiped() {
    let key =
        LessSafeKey::new(UnboundKey::new(&AES_256_GCM, &[0xa5; 32]).expect("a key of its length"));
    let nonce = Nonce::assume_unique_for_key([0; 12]);
    let mut state = key
        .expanded()
        .begin(nonce, Aad::empty())
        .expect("lengths that fit");
    key.expanded()
        .update(&mut state, &mut [1; 100])
        .expect("lengths that fit");
    is_wiped(state);
}
