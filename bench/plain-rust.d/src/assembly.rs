//! The assembly of `dist/`, by the declarations of `bindings/rust`. No other module has `unsafe` code.
//!
//! # Safety
//!
//! In each call, a pointer with a length is that of a slice, arrays and keys are passed by reference, and what the call writes is
//! borrowed for it alone. A key is one that the library initialized.

use crate::{Side, TAG_LEN};

#[allow(dead_code)] // not each call is made here
#[path = "../../../bindings/rust/src/ffi.rs"]
mod ffi;

pub struct Assembly;

const NO_AAD: &[u8] = &[];

/// A key that is wiped when it is dropped, as the Rust's is.
pub struct Xaes(ffi::Xaes);

impl Drop for Xaes {
    fn drop(&mut self) {
        // SAFETY: as said at the top.
        unsafe { ffi::xaes_wipe(&mut self.0) };
    }
}

/// A header protection key. The library has no expanded one for ChaCha20.
pub enum HeaderKey {
    Aes(ffi::QuicHeaderKey),
    ChaCha20([u8; 32]),
}

impl Side for Assembly {
    type Key = ffi::Key;
    type Xaes = Xaes;
    type HeaderKey = HeaderKey;

    fn expand(key: &mut ffi::Key, bytes: &[u8]) {
        // SAFETY: as said at the top.
        let is_made = unsafe { ffi::key_init(key, bytes.as_ptr(), bytes.len()) };
        assert!(is_made);
    }

    fn zeros() -> ffi::Key {
        ffi::Key { words: [0; 399] }
    }

    fn seal(key: &ffi::Key, nonce: [u8; 12], buffer: &mut [u8]) -> [u8; TAG_LEN] {
        let mut tag = [0; TAG_LEN];
        let (at, len) = (buffer.as_mut_ptr(), buffer.len());
        // SAFETY: as said at the top.
        let is_sealed =
            unsafe { ffi::key_seal(key, &nonce, NO_AAD.as_ptr(), 0, at, len, &mut tag) };
        assert!(is_sealed);
        tag
    }

    fn open(key: &ffi::Key, nonce: [u8; 12], tag: [u8; TAG_LEN], buffer: &mut [u8]) -> bool {
        let (at, len) = (buffer.as_mut_ptr(), buffer.len());
        // SAFETY: as said at the top.
        unsafe { ffi::key_open_separate_tag(key, &nonce, NO_AAD.as_ptr(), 0, at, len, 0, &tag) }
    }

    fn xaes(bytes: &[u8; 32]) -> Xaes {
        let mut key = Xaes(ffi::Xaes { words: [0; 33] });
        // SAFETY: as said at the top.
        unsafe { ffi::xaes_init(&mut key.0, bytes) };
        key
    }

    fn seal_by_xaes(key: &Xaes, nonce: [u8; 24], buffer: &mut [u8]) -> [u8; TAG_LEN] {
        let mut tag = [0; TAG_LEN];
        let (at, len) = (buffer.as_mut_ptr(), buffer.len());
        // SAFETY: as said at the top.
        let is_sealed =
            unsafe { ffi::xaes_seal(&key.0, &nonce, NO_AAD.as_ptr(), 0, at, len, &mut tag) };
        assert!(is_sealed);
        tag
    }

    fn header_key(bytes: &[u8], is_chacha20: bool) -> HeaderKey {
        if is_chacha20 {
            return HeaderKey::ChaCha20(bytes.try_into().expect("32 bytes"));
        }
        let mut key = ffi::QuicHeaderKey { words: [0; 31] };
        // SAFETY: as said at the top.
        let is_made = unsafe { ffi::quic_header_key_init(&mut key, bytes.as_ptr(), bytes.len()) };
        assert!(is_made);
        HeaderKey::Aes(key)
    }

    fn mask(key: &HeaderKey, sample: &[u8; 16]) -> [u8; 5] {
        let mut mask = [0; 5];
        match key {
            HeaderKey::Aes(key) => {
                // SAFETY: as said at the top.
                let is_made = unsafe { ffi::quic_header_key_mask(key, sample, &mut mask) };
                assert!(is_made);
            }
            // SAFETY: as said at the top.
            HeaderKey::ChaCha20(bytes) => unsafe { ffi::mask_chacha20(bytes, sample, &mut mask) },
        }
        mask
    }
}
