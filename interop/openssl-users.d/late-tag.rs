//! Opens by rust-openssl's `decrypt_aead`, which sets the tag after the text: 8 MB, equal, an empty message, and forged ones
//! and one of another AAD, which are refused.

use openssl::error::ErrorStack;
use openssl::rand::rand_bytes;
use openssl::symm::{decrypt_aead, encrypt_aead, Cipher};

const AAD: &[u8] = b"header";

fn main() -> Result<(), ErrorStack> {
    for cipher in [Cipher::aes_128_gcm(), Cipher::aes_256_gcm()] {
        let (mut key, mut nonce) = (vec![0; cipher.key_len()], [0; 12]);
        rand_bytes(&mut key)?;
        rand_bytes(&mut nonce)?;
        for len in [8 << 20, 0] {
            let (mut text, mut tag) = (vec![0; len], [0; 16]);
            rand_bytes(&mut text)?;
            let sealed = encrypt_aead(cipher, &key, Some(&nonce), AAD, &text, &mut tag)?;
            let opened = |aad, tag: &[u8]| decrypt_aead(cipher, &key, Some(&nonce), aad, &sealed, tag);
            assert!(opened(AAD, &tag)? == text);
            assert!(len == 0 || opened(b"other", &tag).is_err());
            tag[0] ^= 1;
            assert!(opened(AAD, &tag).is_err());
        }
    }
    Ok(())
}
