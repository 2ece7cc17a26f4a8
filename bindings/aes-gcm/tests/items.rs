//! Every public item, on standard vectors. RustCrypto's `aes-gcm` passes it too.

use aes_gcm::aead::consts::{U12, U16};
use aes_gcm::aead::generic_array::typenum::Unsigned;
use aes_gcm::aead::{Aead, Payload};
use aes_gcm::aes::Aes192;
use aes_gcm::{
    AeadCore, AeadInPlace, Aes128Gcm, Aes256Gcm, AesGcm, Error, Key, KeyInit, KeySizeUser, Nonce,
    Tag, TagSize, A_MAX, C_MAX, P_MAX,
};

fn hex(digits: &str) -> Vec<u8> {
    (0..digits.len())
        .step_by(2)
        .map(|i| u8::from_str_radix(&digits[i..i + 2], 16).expect("two hexadecimal digits"))
        .collect()
}

// McGrew and Viega, "The Galois/Counter Mode of Operation (GCM)", appendix B, test cases 4, 10 and 16.
const NONCE: &str = "cafebabefacedbaddecaf888";
const AAD: &str = "feedfacedeadbeeffeedfacedeadbeefabaddad2";
const MESSAGE: &str = "d9313225f88406e5a55909c5aff5269a86a7a9531534f7da2e4c303d8a318a72\
    1c3c0c95956809532fcf0e2449a6b525b16aedf5aa0de657ba637b39";

/// Seals and opens with one cipher, with the tag attached and apart.
fn run<C>(key: &str, sealed: &str) -> Result<(), Error>
where
    C: KeyInit + AeadCore<NonceSize = U12> + AeadInPlace + Aead,
{
    let (key, sealed, aad, message) = (hex(key), hex(sealed), hex(AAD), hex(MESSAGE));
    assert_eq!(<C as KeySizeUser>::KeySize::to_usize(), key.len());
    let cipher = C::new(Key::<C>::from_slice(&key));
    let bytes = hex(NONCE);
    let nonce = Nonce::<U12>::from_slice(&bytes);
    let (msg, aad) = (&*message, &*aad);
    assert_eq!(cipher.encrypt(nonce, Payload { msg, aad })?, sealed);
    assert_eq!(
        cipher.decrypt(nonce, Payload { msg: &sealed, aad })?,
        message
    );
    assert!(cipher.decrypt(nonce, &*sealed).is_err());

    let (ciphertext, tag) = sealed.split_at(message.len());
    let tag: &Tag = Tag::from_slice(tag);
    let mut buffer = message.clone();
    let made = cipher.encrypt_in_place_detached(nonce, aad, &mut buffer)?;
    assert_eq!((&*made, &*buffer), (&**tag, ciphertext));
    cipher.decrypt_in_place_detached(
        nonce,
        aad,
        &mut buffer,
        aes_gcm::aead::Tag::<C>::from_slice(tag),
    )?;
    assert_eq!(buffer, message);
    cipher.encrypt_in_place(nonce, aad, &mut buffer)?;
    assert_eq!(buffer, sealed);
    cipher.decrypt_in_place(nonce, aad, &mut buffer)?;
    assert_eq!(buffer, message);
    Ok(())
}

#[test]
fn aes_128_gcm() -> Result<(), Error> {
    let sealed = "42831ec2217774244b7221b784d0d49ce3aa212f2c02a4e035c17e2329aca12e\
        21d514b25466931c7d8f6a5aac84aa051ba30b396a0aac973d58e0915bc94fbc3221a5db94fae95ae7121a47";
    run::<Aes128Gcm>("feffe9928665731c6d6a8f9467308308", sealed)
}

/// A cipher that is RustCrypto's on both.
#[test]
fn aes_192_gcm() -> Result<(), Error> {
    let key = "feffe9928665731c6d6a8f9467308308feffe9928665731c";
    let sealed = "3980ca0b3c00e841eb06fac4872a2757859e1ceaa6efd984628593b40ca1e19c\
        7d773d00c144c525ac619d18c84a3f4718e2448b2fe324d9ccda27102519498e80f1478f37ba55bd6d27618c";
    run::<AesGcm<Aes192, U12>>(key, sealed)
}

#[test]
fn aes_256_gcm() -> Result<(), Error> {
    let key = "feffe9928665731c6d6a8f9467308308feffe9928665731c6d6a8f9467308308";
    let sealed = "522dc1f099567d07f47f37a32a84427d643a8cdcbfe5c0c97598a2bd2555d1aa\
        8cb08e48590dbb3da7b08b1056828838c5f61e6393ba7a0abcc9f66276fc6ece0f4e1768cddf8853bb2d551b";
    run::<Aes256Gcm>(key, sealed)
}

/// The length of a tag that `AesGcm` takes.
fn len_of_tag<T: TagSize>() -> usize {
    T::to_usize()
}

#[test]
fn lengths() {
    assert_eq!((len_of_tag::<U12>(), len_of_tag::<U16>()), (12, 16));
    assert_eq!((A_MAX, P_MAX, C_MAX), (1 << 36, 1 << 36, (1 << 36) + 16));
}
