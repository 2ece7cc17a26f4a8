//! The assembly: safe calls of libdeerlapse, by the declarations of `bindings/rust`. No other module has `unsafe` code.
//!
//! # Safety
//!
//! In each call, a pointer with a length is that of a slice, arrays and keys are passed by reference, and what the call writes is
//! borrowed for it alone. A key, a sealer, an opener or a message in pieces is one that the library initialized.

use crate::cipher::{Cipher, Given, TAG_LEN};

#[allow(dead_code)] // not each call is made here
#[path = "../../../../bindings/rust/src/ffi.rs"]
mod ffi;

/// `deerlapse_key`.
pub struct Key(ffi::Key);

/// `deerlapse_xaes`.
pub struct Xaes(ffi::Xaes);

/// `deerlapse_message`.
pub struct Message(ffi::Message);

/// `deerlapse_sealer`.
pub struct Sealer(ffi::Sealer);

/// `deerlapse_opener`.
pub struct Opener(ffi::Opener);

/// `deerlapse_quic_key`.
pub struct QuicKey(ffi::QuicKey);

/// The calls of `deerlapse_key` and of `deerlapse_xaes` whose names differ in one word.
macro_rules! cipher {
    ($key:ident, $len:literal: $seal:ident $append:ident $open:ident $separate:ident $open_to:ident) => {
        impl Cipher<$len> for $key {
            fn seal(&self, given: Given<$len>, in_out: &mut [u8]) -> Option<[u8; TAG_LEN]> {
                let Given { nonce, aad } = given;
                let mut tag = [0; TAG_LEN];
                let (at, len) = (in_out.as_mut_ptr(), in_out.len());
                // SAFETY: as said at the top.
                unsafe { ffi::$seal(&self.0, &nonce, aad.as_ptr(), aad.len(), at, len, &mut tag) }
                    .then_some(tag)
            }

            fn seal_append_tag(&self, given: Given<$len>, message: &[u8]) -> Option<Vec<u8>> {
                let Given { nonce, aad } = given;
                let mut out = vec![0; message.len() + TAG_LEN];
                let (from, len) = (message.as_ptr(), message.len());
                let (to, room) = (out.as_mut_ptr(), out.len());
                // SAFETY: as said at the top.
                unsafe {
                    ffi::$append(
                        &self.0,
                        &nonce,
                        aad.as_ptr(),
                        aad.len(),
                        from,
                        len,
                        to,
                        room,
                    )
                }
                .then_some(out)
            }

            fn open(&self, given: Given<$len>, in_out: &mut [u8], start: usize) -> Option<usize> {
                let Given { nonce, aad } = given;
                let mut count = 0;
                let (at, len) = (in_out.as_mut_ptr(), in_out.len());
                // SAFETY: as said at the top.
                unsafe {
                    ffi::$open(
                        &self.0,
                        &nonce,
                        aad.as_ptr(),
                        aad.len(),
                        at,
                        len,
                        start,
                        &mut count,
                    )
                }
                .then_some(count)
            }

            fn open_separate_tag(
                &self,
                given: Given<$len>,
                tag: [u8; TAG_LEN],
                in_out: &mut [u8],
                start: usize,
            ) -> Option<usize> {
                let Given { nonce, aad } = given;
                let (at, len) = (in_out.as_mut_ptr(), in_out.len());
                // SAFETY: as said at the top.
                unsafe {
                    ffi::$separate(
                        &self.0,
                        &nonce,
                        aad.as_ptr(),
                        aad.len(),
                        at,
                        len,
                        start,
                        &tag,
                    )
                }
                .then(|| len - start)
            }

            fn open_to(
                &self,
                given: Given<$len>,
                tag: [u8; TAG_LEN],
                ciphertext: &[u8],
                out: &mut [u8],
            ) -> Option<usize> {
                let Given { nonce, aad } = given;
                let (from, len) = (ciphertext.as_ptr(), ciphertext.len());
                let (to, room) = (out.as_mut_ptr(), out.len());
                // SAFETY: as said at the top.
                unsafe {
                    ffi::$open_to(
                        &self.0,
                        &nonce,
                        aad.as_ptr(),
                        aad.len(),
                        from,
                        len,
                        to,
                        room,
                        &tag,
                    )
                }
                .then_some(len)
            }
        }
    };
}

cipher!(Key, 12: key_seal key_seal_append_tag_sized key_open key_open_separate_tag key_open_to_sized);
cipher!(Xaes, 24: xaes_seal xaes_seal_append_tag_sized xaes_open xaes_open_separate_tag xaes_open_to_sized);

impl Key {
    pub fn new(bytes: &[u8]) -> Option<Self> {
        let mut key = ffi::Key { words: [0; 399] };
        // SAFETY: as said at the top.
        unsafe { ffi::key_init(&mut key, bytes.as_ptr(), bytes.len()) }.then_some(Key(key))
    }

    pub fn begin(&self, given: Given<12>) -> Option<Message> {
        let Given { nonce, aad } = given;
        let mut message = ffi::Message { words: [0; 22] };
        // SAFETY: as said at the top.
        unsafe { ffi::key_begin(&self.0, &nonce, aad.as_ptr(), aad.len(), &mut message) }
            .then_some(Message(message))
    }

    pub fn update(&self, message: &mut Message, in_out: &mut [u8]) -> Option<()> {
        let (at, len) = (in_out.as_mut_ptr(), in_out.len());
        // SAFETY: as said at the top.
        unsafe { ffi::key_update(&self.0, &mut message.0, at, len) }.then_some(())
    }

    pub fn finish(&self, mut message: Message) -> Option<[u8; TAG_LEN]> {
        let mut tag = [0; TAG_LEN];
        // SAFETY: as said at the top.
        unsafe { ffi::key_finish(&self.0, &mut message.0, &mut tag) }.then_some(tag)
    }
}

impl Xaes {
    pub fn new(bytes: &[u8; 32]) -> Self {
        let mut key = ffi::Xaes { words: [0; 33] };
        // SAFETY: as said at the top.
        unsafe { ffi::xaes_init(&mut key, bytes) };
        Xaes(key)
    }
}

impl Sealer {
    pub fn new(key: &[u8], iv: [u8; 12], first: u64, limit: u64) -> Option<Self> {
        let mut sealer = ffi::Sealer { words: [0; 430] };
        // SAFETY: as said at the top.
        unsafe { ffi::sealer_init(&mut sealer, key.as_ptr(), key.len(), &iv, first, limit) }
            .then_some(Sealer(sealer))
    }

    pub fn seal(&mut self, aad: &[u8], in_out: &mut [u8]) -> Option<[u8; TAG_LEN]> {
        let mut tag = [0; TAG_LEN];
        let (at, len) = (in_out.as_mut_ptr(), in_out.len());
        // SAFETY: as said at the top.
        unsafe { ffi::sealer_seal(&mut self.0, aad.as_ptr(), aad.len(), at, len, &mut tag) }
            .then_some(tag)
    }
}

impl Opener {
    pub fn new(key: &[u8], iv: [u8; 12], first: u64, limit: u64) -> Option<Self> {
        let mut opener = ffi::Opener { words: [0; 430] };
        // SAFETY: as said at the top.
        unsafe { ffi::opener_init(&mut opener, key.as_ptr(), key.len(), &iv, first, limit) }
            .then_some(Opener(opener))
    }

    pub fn open(&mut self, aad: &[u8], in_out: &mut [u8], start: usize) -> Option<usize> {
        let mut count = 0;
        let (at, len) = (in_out.as_mut_ptr(), in_out.len());
        // SAFETY: as said at the top.
        unsafe {
            ffi::opener_open(
                &mut self.0,
                aad.as_ptr(),
                aad.len(),
                at,
                len,
                start,
                &mut count,
            )
        }
        .then_some(count)
    }
}

impl QuicKey {
    pub fn new(bytes: &[u8], iv: [u8; 12]) -> Option<Self> {
        let mut key = ffi::QuicKey { words: [0; 401] };
        // SAFETY: as said at the top.
        unsafe { ffi::quic_key_init(&mut key, bytes.as_ptr(), bytes.len(), &iv) }
            .then_some(QuicKey(key))
    }

    pub fn seal(&self, number: u64, header: &[u8], payload: &mut [u8]) -> Option<[u8; TAG_LEN]> {
        let mut tag = [0; TAG_LEN];
        let (at, len) = (payload.as_mut_ptr(), payload.len());
        // SAFETY: as said at the top.
        unsafe {
            ffi::quic_key_seal(
                &self.0,
                number,
                header.as_ptr(),
                header.len(),
                at,
                len,
                &mut tag,
            )
        }
        .then_some(tag)
    }

    pub fn open(&self, number: u64, header: &[u8], payload: &mut [u8]) -> Option<usize> {
        let mut count = 0;
        let (at, len) = (payload.as_mut_ptr(), payload.len());
        // SAFETY: as said at the top.
        unsafe {
            ffi::quic_key_open(
                &self.0,
                number,
                header.as_ptr(),
                header.len(),
                at,
                len,
                &mut count,
            )
        }
        .then_some(count)
    }
}

/// The mask of a sample by AES, under a key that is expanded once.
pub fn mask_aes(key: &[u8], sample: &[u8; 16]) -> Option<[u8; 5]> {
    let mut expanded = ffi::QuicHeaderKey { words: [0; 31] };
    let mut mask = [0; 5];
    // SAFETY: as said at the top.
    unsafe {
        ffi::quic_header_key_init(&mut expanded, key.as_ptr(), key.len())
            && ffi::quic_header_key_mask(&expanded, sample, &mut mask)
    }
    .then_some(mask)
}

/// The same mask, by one call.
pub fn mask_aes_once(key: &[u8], sample: &[u8; 16]) -> Option<[u8; 5]> {
    let mut mask = [0; 5];
    // SAFETY: as said at the top.
    unsafe { ffi::mask_aes(key.as_ptr(), key.len(), sample, &mut mask) }.then_some(mask)
}

/// The mask of a sample by ChaCha20.
pub fn mask_chacha20(key: &[u8; 32], sample: &[u8; 16]) -> [u8; 5] {
    let mut mask = [0; 5];
    // SAFETY: as said at the top.
    unsafe { ffi::mask_chacha20(key, sample, &mut mask) };
    mask
}

/// XORs with the ChaCha20 stream from block `counter` on.
pub fn chacha20(key: &[u8; 32], nonce: [u8; 12], counter: u32, in_out: &mut [u8]) -> Option<()> {
    let (at, len) = (in_out.as_mut_ptr(), in_out.len());
    // SAFETY: as said at the top.
    unsafe { ffi::chacha20(key, &nonce, counter, at, len) }.then_some(())
}
