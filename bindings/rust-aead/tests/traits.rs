//! Code that is generic over the traits of `aead`, on standard vectors.

use deerlapse_aead::aead::consts::{U12, U16, U24};
use deerlapse_aead::aead::generic_array::ArrayLength;
use deerlapse_aead::aead::{AeadInPlace, Buffer, Error, KeyInit, Nonce, Tag};
use deerlapse_aead::{Aes128Gcm, Aes256Gcm, Xaes256Gcm};

fn hex(digits: &str) -> Vec<u8> {
    (0..digits.len())
        .step_by(2)
        .map(|i| u8::from_str_radix(&digits[i..i + 2], 16).expect("two hexadecimal digits"))
        .collect()
}

/// A buffer that grows. The crate `aead` has one for `Vec`, under its feature `alloc`.
struct Growing(Vec<u8>);

impl AsRef<[u8]> for Growing {
    fn as_ref(&self) -> &[u8] {
        &self.0
    }
}

impl AsMut<[u8]> for Growing {
    fn as_mut(&mut self) -> &mut [u8] {
        &mut self.0
    }
}

impl Buffer for Growing {
    fn extend_from_slice(&mut self, other: &[u8]) -> Result<(), Error> {
        self.0.extend_from_slice(other);
        Ok(())
    }

    fn truncate(&mut self, len: usize) {
        self.0.truncate(len);
    }
}

/// Encrypts and decrypts with any cipher with these nonce and tag lengths, attached and detached.
fn run<A, N>(key: &str, nonce: &str, aad: &str, message: &str, sealed: &str) -> Result<(), Error>
where
    A: KeyInit + AeadInPlace<NonceSize = N, TagSize = U16>,
    N: ArrayLength<u8>,
{
    let cipher = A::new_from_slice(&hex(key)).expect("a key of the cipher's length");
    let (aad, message, sealed) = (hex(aad), hex(message), hex(sealed));
    let (nonce, tag) = (hex(nonce), &sealed[message.len()..]);
    let (nonce, tag) = (Nonce::<A>::from_slice(&nonce), Tag::<A>::from_slice(tag));

    let mut buffer = Growing(message.clone());
    cipher.encrypt_in_place(nonce, &aad, &mut buffer)?;
    assert_eq!(buffer.0, sealed);
    cipher.decrypt_in_place(nonce, &aad, &mut buffer)?;
    assert_eq!(buffer.0, message);

    let mut buffer = message.clone();
    assert_eq!(
        cipher.encrypt_in_place_detached(nonce, &aad, &mut buffer)?,
        *tag
    );
    assert_eq!(buffer, sealed[..message.len()]);
    let refused = cipher.decrypt_in_place_detached(nonce, b"another", &mut buffer, tag);
    assert_eq!(refused, Err(Error));
    assert_eq!(buffer, sealed[..message.len()]);
    cipher.decrypt_in_place_detached(nonce, &aad, &mut buffer, tag)?;
    assert_eq!(buffer, message);
    assert_eq!(
        cipher.decrypt_in_place(nonce, &aad, &mut Growing(vec![0; 15])),
        Err(Error)
    );
    Ok(())
}

// McGrew and Viega, "The Galois/Counter Mode of Operation (GCM)", appendix B, test cases 4 and 16.
const NONCE: &str = "cafebabefacedbaddecaf888";
const AAD: &str = "feedfacedeadbeeffeedfacedeadbeefabaddad2";
const MESSAGE: &str = "d9313225f88406e5a55909c5aff5269a86a7a9531534f7da2e4c303d8a318a72\
    1c3c0c95956809532fcf0e2449a6b525b16aedf5aa0de657ba637b39";

#[test]
fn aes_128_gcm() -> Result<(), Error> {
    let key = "feffe9928665731c6d6a8f9467308308";
    let sealed = "42831ec2217774244b7221b784d0d49ce3aa212f2c02a4e035c17e2329aca12e\
        21d514b25466931c7d8f6a5aac84aa051ba30b396a0aac973d58e0915bc94fbc3221a5db94fae95ae7121a47";
    run::<Aes128Gcm, U12>(key, NONCE, AAD, MESSAGE, sealed)
}

#[test]
fn aes_256_gcm() -> Result<(), Error> {
    let key = "feffe9928665731c6d6a8f9467308308feffe9928665731c6d6a8f9467308308";
    let sealed = "522dc1f099567d07f47f37a32a84427d643a8cdcbfe5c0c97598a2bd2555d1aa\
        8cb08e48590dbb3da7b08b1056828838c5f61e6393ba7a0abcc9f66276fc6ece0f4e1768cddf8853bb2d551b";
    run::<Aes256Gcm, U12>(key, NONCE, AAD, MESSAGE, sealed)
}

// C2SP's specification of XAES-256-GCM, section "Test Vectors".
#[test]
fn xaes_256_gcm() -> Result<(), Error> {
    let nonce = "4142434445464748494a4b4c4d4e4f505152535455565758"; // ABCDEFGHIJKLMNOPQRSTUVWX
    let message = "584145532d3235362d47434d"; // XAES-256-GCM
    let aad = "633273702e6f72672f584145532d3235362d47434d"; // c2sp.org/XAES-256-GCM
    for (key, aad, sealed) in [
        (
            "01",
            "",
            "ce546ef63c9cc60765923609b33a9a1974e96e52daf2fcf7075e2271",
        ),
        (
            "03",
            aad,
            "986ec1832593df5443a179437fd083bf3fdb41abd740a21f71eb769d",
        ),
    ] {
        run::<Xaes256Gcm, U24>(&key.repeat(32), nonce, aad, message, sealed)?;
    }
    Ok(())
}
