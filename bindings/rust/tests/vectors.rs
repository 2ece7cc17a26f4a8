//! The functions on standard vectors, and the calls that fail. `src/levels.rs` calls those that are public at each level of
//! x86-64.

use deerlapse::{
    chacha20, hkdf_expand, hkdf_expand_label, hkdf_extract, hmac, mask_aes, mask_chacha20,
    nonce_of, quic_initial_secrets, quic_next_secret, tls_next_secret, HeaderProtectionKey,
    LessSafeKey, Nonce, Opener, QuicKey, QuicVersion, RecordKey, Sealer, SealingMessage,
    Unspecified, Xaes256Gcm, XaesNonce,
};
use std::error::Error;
use std::fmt::Debug;
use std::mem::{size_of, MaybeUninit};

/// The bytes of hexadecimal digits.
fn hex(digits: &str) -> Vec<u8> {
    assert_eq!(digits.len() % 2, 0);
    (0..digits.len())
        .step_by(2)
        .map(|i| u8::from_str_radix(&digits[i..i + 2], 16).expect("two hexadecimal digits"))
        .collect()
}

fn nonce() -> Nonce {
    Nonce::assume_unique_for_key(array(NONCE))
}

fn array<const N: usize>(digits: &str) -> [u8; N] {
    hex(digits).try_into().expect("the length of an array")
}

// McGrew and Viega, "The Galois/Counter Mode of Operation (GCM)", appendix B, test case 4.
const KEY: &str = "feffe9928665731c6d6a8f9467308308";
const NONCE: &str = "cafebabefacedbaddecaf888";
const AAD: &str = "feedfacedeadbeeffeedfacedeadbeefabaddad2";
const MESSAGE: &str = "d9313225f88406e5a55909c5aff5269a86a7a9531534f7da2e4c303d8a318a72\
    1c3c0c95956809532fcf0e2449a6b525b16aedf5aa0de657ba637b39";
const SEALED: &str = "42831ec2217774244b7221b784d0d49ce3aa212f2c02a4e035c17e2329aca12e\
    21d514b25466931c7d8f6a5aac84aa051ba30b396a0aac973d58e0915bc94fbc3221a5db94fae95ae7121a47";

#[test]
pub fn seals_and_opens() -> Result<(), Unspecified> {
    let key = LessSafeKey::new(&hex(KEY))?;
    let (aad, message, sealed) = (hex(AAD), hex(MESSAGE), hex(SEALED));
    let mut buffer = message.clone();
    key.seal_in_place_append_tag(nonce(), &aad, &mut buffer)?;
    assert_eq!(buffer, sealed);

    let mut buffer = [b"123".as_slice(), &sealed].concat();
    assert_eq!(key.open_within(nonce(), &aad, &mut buffer, 3..)?, message);
    assert_eq!(buffer[message.len()..], sealed[message.len() - 3..]);

    let (ciphertext, tag) = sealed.split_at(message.len());
    let mut buffer = [b"123".as_slice(), ciphertext].concat();
    let tag = tag.try_into().expect("a tag");
    assert_eq!(
        key.open_in_place_separate_tag(nonce(), &aad, tag, &mut buffer, 3..)?,
        message
    );
    assert_eq!(buffer[message.len()..], ciphertext[message.len() - 3..]);
    let mut buffer = ciphertext.to_vec();
    assert_eq!(
        key.open_in_place_separate_tag(nonce(), &aad, tag, &mut buffer, 0..)?,
        message
    );
    Ok(())
}

#[test]
pub fn seals_and_opens_with_the_tag_after_the_ciphertext() -> Result<(), Unspecified> {
    let key = LessSafeKey::new(&hex(KEY))?;
    let (aad, message, sealed) = (hex(AAD), hex(MESSAGE), hex(SEALED));
    let mut out = vec![7; sealed.len()];
    key.seal_append_tag_to(nonce(), &aad, &message, &mut out)?;
    assert_eq!(out, sealed);
    let mut opened = vec![7; message.len()];
    key.open_appended_tag_to(nonce(), &aad, &sealed, &mut opened)?;
    assert_eq!(opened, message);

    for len in [0, 15, message.len(), sealed.len() - 1] {
        let out = &mut out[..len];
        let was = out.to_vec();
        assert_eq!(
            key.seal_append_tag_to(nonce(), &aad, &message, out),
            Err(Unspecified)
        );
        assert_eq!(out, was);
    }
    for (in_len, out_len) in [(0, 0), (15, 0), (sealed.len(), message.len() - 1)] {
        let out = &mut opened[..out_len];
        assert_eq!(
            key.open_appended_tag_to(nonce(), &aad, &sealed[..in_len], out),
            Err(Unspecified)
        );
    }
    assert_eq!(
        key.open_appended_tag_to(nonce(), b"another", &sealed, &mut opened),
        Err(Unspecified)
    );
    assert_eq!(opened, message);
    Ok(())
}

#[test]
pub fn seals_and_opens_from_one_buffer_to_another() -> Result<(), Unspecified> {
    let key = LessSafeKey::new(&hex(KEY))?;
    let (aad, message, sealed) = (hex(AAD), hex(MESSAGE), hex(SEALED));
    let (ciphertext, tag) = sealed.split_at(message.len());
    let mut out = vec![7; message.len()];
    let made = key.seal_to(nonce(), &aad, &message, &mut out)?;
    assert_eq!((&*out, &made[..]), (ciphertext, tag));
    key.open_to(nonce(), &aad, made, ciphertext, &mut out)?;
    assert_eq!(out, message);

    let refused = key.open_to(nonce(), b"another", made, ciphertext, &mut out);
    assert_eq!(refused, Err(Unspecified));
    let shorter = &mut out[1..];
    assert_eq!(
        key.open_to(nonce(), &aad, made, ciphertext, shorter),
        Err(Unspecified)
    );
    assert_eq!(
        key.seal_to(nonce(), &aad, &message, shorter),
        Err(Unspecified)
    );
    assert_eq!(out, message);
    Ok(())
}

#[test]
pub fn seals_in_pieces() -> Result<(), Unspecified> {
    let key = LessSafeKey::new(&hex(KEY))?;
    let (aad, message, sealed) = (hex(AAD), hex(MESSAGE), hex(SEALED));
    for len in 1..=message.len() {
        let mut buffer = message.clone();
        let mut pieces = key.begin(nonce(), &aad)?;
        pieces.update(&mut [])?;
        for piece in buffer.chunks_mut(len) {
            pieces.update(piece)?;
        }
        buffer.extend(pieces.finish());
        assert_eq!(buffer, sealed);
    }
    Ok(())
}

// Test case 4 by eight threads that share a key, and by clones of it.
#[test]
pub fn threads_share_a_key() -> Result<(), Unspecified> {
    let key = LessSafeKey::new(&hex(KEY))?;
    let (aad, message, sealed) = (hex(AAD), hex(MESSAGE), hex(SEALED));
    let work = |key: &LessSafeKey| {
        for _ in 0..100 {
            let mut buffer = message.clone();
            assert_eq!(
                key.seal_in_place_append_tag(nonce(), &aad, &mut buffer),
                Ok(())
            );
            assert_eq!(buffer, sealed);
            let opened = key.open_in_place(nonce(), &aad, &mut buffer);
            assert_eq!(opened.as_deref(), Ok(&*message));
        }
    };
    std::thread::scope(|scope| {
        for _ in 0..8 {
            scope.spawn(|| work(&key));
            scope.spawn(|| work(&key.clone()));
        }
    });
    Ok(())
}

#[test]
pub fn a_refusal_leaves_the_buffer() -> Result<(), Unspecified> {
    let key = LessSafeKey::new(&hex(KEY))?;
    let sealed = hex(SEALED);
    for start in [1, sealed.len(), sealed.len() + 1, usize::MAX] {
        let mut buffer = sealed.clone();
        let opened = key.open_within(nonce(), &hex(AAD), &mut buffer, start..);
        assert_eq!(opened, Err(Unspecified));
        let opened = key.open_in_place_separate_tag(nonce(), b"", [0; 16], &mut buffer, start..);
        assert_eq!(opened, Err(Unspecified));
        assert_eq!(buffer, sealed);
    }
    assert_eq!(key.open_in_place(nonce(), b"", &mut []), Err(Unspecified));
    for len in [0, 15, 17, 24, 31, 33] {
        assert_eq!(LessSafeKey::new(&vec![0; len]).err(), Some(Unspecified));
        assert_eq!(mask_aes(&vec![0; len], &[0; 16]), Err(Unspecified));
        assert!(HeaderProtectionKey::new(&vec![0; len]).is_err());
        assert!(Nonce::try_assume_unique_for_key(&vec![0; len]).is_err());
        assert_eq!(
            Sealer::new(&vec![0; len], &[0; 12], 0..1).err(),
            Some(Unspecified)
        );
        assert_eq!(
            Opener::new(&vec![0; len], &[0; 12], 0..1).err(),
            Some(Unspecified)
        );
    }
    assert_eq!(
        chacha20(&[0; 32], &[0; 12], u32::MAX, &mut [0; 65]),
        Err(Unspecified)
    );
    Ok(())
}

/// A vector of XAES-256-GCM: the byte that the key repeats, the AAD, and the ciphertext and tag.
struct XaesVector {
    key: u8,
    aad: &'static [u8],
    sealed: &'static str,
}

// C2SP's specification of XAES-256-GCM, section "Test Vectors".
const XAES_NONCE: [u8; 24] = *b"ABCDEFGHIJKLMNOPQRSTUVWX";
const XAES_MESSAGE: &[u8] = b"XAES-256-GCM";
const XAES_VECTORS: [XaesVector; 2] = [
    XaesVector {
        key: 1,
        aad: b"",
        sealed: "ce546ef63c9cc60765923609b33a9a1974e96e52daf2fcf7075e2271",
    },
    XaesVector {
        key: 3,
        aad: b"c2sp.org/XAES-256-GCM",
        sealed: "986ec1832593df5443a179437fd083bf3fdb41abd740a21f71eb769d",
    },
];

fn xaes_nonce() -> XaesNonce {
    XaesNonce::assume_unique_for_key(XAES_NONCE)
}

#[test]
pub fn seals_and_opens_under_nonces_of_24_bytes() -> Result<(), Unspecified> {
    for vector in XAES_VECTORS {
        let key = Xaes256Gcm::new(&[vector.key; 32]);
        let (aad, message, sealed) = (vector.aad, XAES_MESSAGE, hex(vector.sealed));
        let mut buffer = message.to_vec();
        key.seal_in_place_append_tag(xaes_nonce(), aad, &mut buffer)?;
        assert_eq!(buffer, sealed);
        assert_eq!(key.open_in_place(xaes_nonce(), aad, &mut buffer)?, message);

        let mut buffer = [b"123".as_slice(), &sealed].concat();
        let opened = key.open_within(xaes_nonce(), aad, &mut buffer, 3..)?;
        assert_eq!(opened, message);
        assert_eq!(buffer[message.len()..], sealed[message.len() - 3..]);

        let (ciphertext, tag) = sealed.split_at(message.len());
        let tag = tag.try_into().expect("a tag");
        let mut buffer = [b"123".as_slice(), ciphertext].concat();
        let opened = key.open_in_place_separate_tag(xaes_nonce(), aad, tag, &mut buffer, 3..)?;
        assert_eq!(opened, message);
        assert_eq!(buffer[message.len()..], ciphertext[message.len() - 3..]);

        let mut out = vec![7; message.len()];
        assert_eq!(key.seal_to(xaes_nonce(), aad, message, &mut out)?, tag);
        assert_eq!(out, ciphertext);
        key.open_to(xaes_nonce(), aad, tag, ciphertext, &mut out)?;
        assert_eq!(out, message);

        let mut out = vec![7; sealed.len()];
        key.seal_append_tag_to(xaes_nonce(), aad, message, &mut out)?;
        assert_eq!(out, sealed);
        let mut out = vec![7; message.len()];
        key.open_appended_tag_to(xaes_nonce(), aad, &sealed, &mut out)?;
        assert_eq!(out, message);
    }
    Ok(())
}

// Messages of each length around those of blocks, and of a packet, by the key and by a clone.
#[test]
pub fn opens_what_it_sealed_under_a_nonce_of_24_bytes() -> Result<(), Unspecified> {
    let key = Xaes256Gcm::new(&[7; 32]);
    let bytes: Vec<u8> = (0..1350).map(|i| (i * i / 7) as u8).collect();
    for len in (0..=300).chain([1350]) {
        let (message, aad) = (&bytes[..len], &bytes[..len % 40]);
        let nonce = || {
            let bytes: Vec<u8> = (0..24).map(|i| (i * 7 + len) as u8).collect();
            XaesNonce::try_assume_unique_for_key(&bytes).expect("24 bytes")
        };
        let mut buffer = message.to_vec();
        key.seal_in_place_append_tag(nonce(), aad, &mut buffer)?;
        assert_eq!(buffer.len(), len + 16);
        let mut again = buffer.clone();
        let opened = key.clone().open_in_place(nonce(), aad, &mut again)?;
        assert_eq!(opened, message);
        assert_eq!(key.open_in_place(nonce(), aad, &mut buffer)?, message);
    }
    Ok(())
}

#[test]
pub fn a_changed_byte_in_each_half_of_the_nonce_is_refused() -> Result<(), Unspecified> {
    let vector = &XAES_VECTORS[1];
    let key = Xaes256Gcm::new(&[vector.key; 32]);
    let sealed = hex(vector.sealed);
    let mut buffer = sealed.clone();
    for changed in 0..24 {
        for bit in 0..8 {
            let mut nonce = XAES_NONCE;
            nonce[changed] ^= 1 << bit;
            let nonce = XaesNonce::assume_unique_for_key(nonce);
            let opened = key.open_in_place(nonce, vector.aad, &mut buffer);
            assert_eq!(opened, Err(Unspecified));
            assert_eq!(buffer, sealed);
        }
    }
    let opened = key.open_in_place(xaes_nonce(), vector.aad, &mut buffer)?;
    assert_eq!(opened, XAES_MESSAGE);
    Ok(())
}

#[test]
pub fn a_refusal_of_a_nonce_of_24_bytes_leaves_the_buffer() -> Result<(), Unspecified> {
    let vector = &XAES_VECTORS[1];
    let key = Xaes256Gcm::new(&[vector.key; 32]);
    let (aad, sealed) = (vector.aad, hex(vector.sealed));
    let (ciphertext, tag) = sealed.split_at(XAES_MESSAGE.len());
    let tag: [u8; 16] = tag.try_into().expect("a tag");
    for start in [1, sealed.len(), sealed.len() + 1, usize::MAX] {
        let mut buffer = sealed.clone();
        let opened = key.open_within(xaes_nonce(), aad, &mut buffer, start..);
        assert_eq!(opened, Err(Unspecified));
        let opened = key.open_in_place_separate_tag(xaes_nonce(), aad, tag, &mut buffer, start..);
        assert_eq!(opened, Err(Unspecified));
        assert_eq!(buffer, sealed);
    }
    for changed in 0..sealed.len() {
        let mut buffer = sealed.clone();
        buffer[changed] ^= 1;
        let was = buffer.clone();
        let opened = key.open_in_place(xaes_nonce(), aad, &mut buffer);
        assert_eq!(opened, Err(Unspecified));
        assert_eq!(buffer, was);
    }
    for len in 0..16 {
        let mut buffer = sealed[..len].to_vec();
        let opened = key.open_in_place(xaes_nonce(), aad, &mut buffer);
        assert_eq!(opened, Err(Unspecified));
    }

    let mut out = [7; 40];
    for len in [0, 11, 13, 40] {
        let out = &mut out[..len];
        let sealing = key.seal_to(xaes_nonce(), aad, XAES_MESSAGE, out);
        assert_eq!(sealing, Err(Unspecified));
        let opened = key.open_to(xaes_nonce(), aad, tag, ciphertext, out);
        assert_eq!(opened, Err(Unspecified));
        let opened = key.open_appended_tag_to(xaes_nonce(), aad, &sealed, out);
        assert_eq!(opened, Err(Unspecified));
    }
    for len in [0, 12, 27, 29] {
        let sealing = key.seal_append_tag_to(xaes_nonce(), aad, XAES_MESSAGE, &mut out[..len]);
        assert_eq!(sealing, Err(Unspecified));
    }
    let out_of_12 = &mut out[..12];
    let opened = key.open_to(xaes_nonce(), b"another", tag, ciphertext, out_of_12);
    assert_eq!(opened, Err(Unspecified));
    let opened = key.open_appended_tag_to(xaes_nonce(), b"another", &sealed, out_of_12);
    assert_eq!(opened, Err(Unspecified));
    assert_eq!(out, [7; 40]);

    for len in [0, 12, 23, 25] {
        assert!(XaesNonce::try_assume_unique_for_key(&vec![0; len]).is_err());
    }
    Ok(())
}

// RFC 9001 appendix A.3: the server's packet, whose number is 1.
const IV: &str = "0ac1493ca1905853b0bba03e";
const PACKET_KEY: &str = "cf3a5331653c364c88f0f379b6067e37";
const HEADER: &str = "c1000000010008f067a5502a4262b50040750001";
const PAYLOAD: &str =
    "02000000000600405a020000560303eefce7f7b37ba1d1632e96677825ddf73988cfc79825df566dc5430b9a045a1200\
    130100002e00330024001d00209d3c940d89690b84d08a60993c144eca684d1081287c834d5311bcf32bb9da1a002b00\
    020304";

#[test]
pub fn a_sealer_counts() -> Result<(), Unspecified> {
    let (header, payload, iv) = (hex(HEADER), hex(PAYLOAD), array(IV));
    let mut sealer = Sealer::new(&hex(PACKET_KEY), &iv, 1..2)?;
    let mut buffer = payload.clone();
    sealer.seal_in_place_append_tag(&header, &mut buffer)?;
    assert_eq!(buffer[..14], hex("5a482cd0991cd25b0aac406a5816"));
    assert_eq!(
        buffer[buffer.len() - 16..],
        hex("3d20398c276456cbc42158407dd074ee")
    );
    assert_eq!(sealer.numbers_left(), 2..2);
    assert_eq!(
        sealer.seal_in_place_separate_tag(&header, &mut []),
        Err(Unspecified)
    );

    let opened = LessSafeKey::new(&hex(PACKET_KEY))?
        .open_in_place(nonce_of(&iv, 1), &header, &mut buffer)?
        .to_vec();
    assert_eq!(opened, payload);
    Ok(())
}

#[test]
pub fn an_opener_counts_what_it_opens() -> Result<(), Unspecified> {
    let (header, payload, key, iv) = (hex(HEADER), hex(PAYLOAD), hex(PACKET_KEY), array(IV));
    let mut sealed = payload.clone();
    Sealer::new(&key, &iv, 1..2)?.seal_in_place_append_tag(&header, &mut sealed)?;

    let mut opener = Opener::new(&key, &iv, 0..2)?;
    let mut buffer = sealed.clone();
    assert_eq!(
        opener.open_in_place(&header, &mut buffer),
        Err(Unspecified),
        "message 1 isn't message 0"
    );
    assert_eq!(opener.numbers_left(), 0..2);
    for _ in 0..2 {
        let mut packet = [b"123".as_slice(), &sealed].concat();
        let opened = opener.open_number_within(1, &header, &mut packet, 3..)?;
        assert_eq!(opened, payload);
    }
    assert_eq!(
        opener.open_number_in_place(0, &header, &mut buffer),
        Err(Unspecified)
    );
    assert_eq!(buffer, sealed);

    let mut opener = Opener::new(&key, &iv, 1..2)?;
    assert_eq!(
        opener.open_within(&header, &mut buffer, 1..),
        Err(Unspecified)
    );
    assert_eq!(opener.open_in_place(&header, &mut buffer)?, payload);
    assert_eq!(opener.numbers_left(), 2..2);
    let mut buffer = sealed.clone();
    assert_eq!(
        opener.open_in_place(&header, &mut buffer),
        Err(Unspecified),
        "no number is left"
    );
    assert_eq!(buffer, sealed);
    Ok(())
}

/// What a call writes to `N` bytes.
fn written<const N: usize>(
    write: impl FnOnce(&mut [u8]) -> Result<(), Unspecified>,
) -> Result<[u8; N], Unspecified> {
    let mut out = [0; N];
    write(&mut out)?;
    Ok(out)
}

/// The output of a label without a context.
fn labeled<const N: usize>(secret: &[u8], label: &str) -> Result<[u8; N], Unspecified> {
    written(|out| hkdf_expand_label(secret, label.as_bytes(), b"", out))
}

#[test]
pub fn derives() -> Result<(), Unspecified> {
    // RFC 4231 section 4.3
    let message = b"what do ya want for nothing?";
    assert_eq!(
        written(|code| hmac(b"Jefe", message, code))?,
        array::<32>("5bdcc146bf60754e6a042426089575c75a003f089d2739839dec58b964ec3843")
    );
    assert_eq!(
        written(|code| hmac(b"Jefe", message, code))?,
        array::<48>(
            "af45d2e376484031617f78d2b58a6b1b9c7ef464f5a01b47e42ec3736322445e\
             8e2240ca5e69e2c78b3239ecfab21649"
        )
    );

    // RFC 5869 appendix A.1
    let salt = hex("000102030405060708090a0b0c");
    let prk: [u8; 32] = written(|prk| hkdf_extract(&salt, &[0x0b; 22], prk))?;
    assert_eq!(
        prk,
        array("077709362c2e32df0ddc3f0dc47bba6390b6c73bb50f9c3122ec844ad7c2b3e5")
    );
    assert_eq!(
        written(|out| hkdf_expand(&prk, &hex("f0f1f2f3f4f5f6f7f8f9"), out))?,
        array::<42>(
            "3cb25f25faacd57a90434f64d0362f2a2d2d0a90cf1a5a4c5db02d56ecc4c5bf\
             34007208d5b887185865"
        )
    );
    Ok(())
}

// RFC 8448 section 3: from no secret to the client's secret of the handshake.
#[test]
pub fn derives_the_secrets_of_tls() -> Result<(), Unspecified> {
    let shared = hex("8bd4054fb55b9d63fdfbacf9f04b9f0d35e6d63f537563efd46272900f89492d");
    let no_messages = hex("e3b0c44298fc1c149afbf4c8996fb92427ae41e4649b934ca495991b7852b855");
    let hellos = hex("860c06edc07858ee8e78f0e7428c58edd6b43f2ca3e6e95f02ed063cf0e1cad8");
    let early: [u8; 32] = written(|prk| hkdf_extract(&[0; 32], &[0; 32], prk))?;
    assert_eq!(
        early,
        array("33ad0a1c607ec03b09e6cd9893680ce210adf300aa1f2660e1b22e10f170f92a")
    );
    let salt: [u8; 32] = written(|out| hkdf_expand_label(&early, b"derived", &no_messages, out))?;
    let handshake: [u8; 32] = written(|prk| hkdf_extract(&salt, &shared, prk))?;
    assert_eq!(
        written(|out| hkdf_expand_label(&handshake, b"c hs traffic", &hellos, out))?,
        array::<32>("b3eddb126e067f35a780b3abf45e2d8f3b1a950738f52e9600746a0e27a55a21")
    );
    Ok(())
}

#[test]
pub fn refuses_to_derive() {
    let mut out = [7; 48 * 255 + 1];
    for len in [0, 16, 31, 33, 47, 49, 64] {
        let out = &mut out[..len];
        let secret = &vec![7; len];
        assert_eq!(hmac(b"", b"", out), Err(Unspecified));
        assert_eq!(hkdf_extract(b"", b"", out), Err(Unspecified));
        assert_eq!(hkdf_expand(secret, b"", out), Err(Unspecified));
        assert_eq!(
            hkdf_expand_label(secret, b"key", b"", out),
            Err(Unspecified)
        );
        assert_eq!(tls_next_secret(out), Err(Unspecified));
        assert!(RecordKey::from_secret(secret).is_err());
        for version in [QuicVersion::V1, QuicVersion::V2] {
            assert_eq!(quic_next_secret(version, out), Err(Unspecified));
            assert!(QuicKey::from_secret(version, secret).is_err());
            assert!(HeaderProtectionKey::from_secret(version, secret).is_err());
        }
    }
    for len in [32, 48] {
        let secret = &vec![7; len];
        let longest = &mut out[..len * 255 + 1];
        assert_eq!(hkdf_expand(secret, b"", longest), Err(Unspecified));
        for (label, context) in [(0, 0), (250, 0), (1, 256)] {
            let (label, context) = (&vec![1; label], &vec![2; context]);
            let derived = hkdf_expand_label(secret, label, context, &mut out[..16]);
            assert_eq!(derived, Err(Unspecified));
        }
    }
    assert_eq!(
        quic_initial_secrets(QuicVersion::V1, &[0; 21]),
        Err(Unspecified)
    );
    assert!(out.iter().all(|&byte| byte == 7));
}

/// A secret of QUIC, and the keys and the IV that come from it.
struct QuicSecret {
    secret: &'static str,
    key: &'static str,
    iv: &'static str,
    header_key: &'static str,
}

// RFC 9001 appendix A.1 and RFC 9369 appendix A.1: the client's and the server's.
const INITIAL_SECRETS: [(QuicVersion, &str, [QuicSecret; 2]); 2] = [
    (
        QuicVersion::V1,
        "quic",
        [
            QuicSecret {
                secret: "c00cf151ca5be075ed0ebfb5c80323c42d6b7db67881289af4008f1f6c357aea",
                key: "1f369613dd76d5467730efcbe3b1a22d",
                iv: "fa044b2f42a3fd3b46fb255c",
                header_key: "9f50449e04a0e810283a1e9933adedd2",
            },
            QuicSecret {
                secret: "3c199828fd139efd216c155ad844cc81fb82fa8d7446fa7d78be803acdda951b",
                key: "cf3a5331653c364c88f0f379b6067e37",
                iv: "0ac1493ca1905853b0bba03e",
                header_key: "c206b8d9b9f0f37644430b490eeaa314",
            },
        ],
    ),
    (
        QuicVersion::V2,
        "quicv2",
        [
            QuicSecret {
                secret: "14ec9d6eb9fd7af83bf5a668bc17a7e283766aade7ecd0891f70f9ff7f4bf47b",
                key: "8b1a0bc121284290a29e0971b5cd045d",
                iv: "91f73e2351d8fa91660e909f",
                header_key: "45b95e15235d6f45a6b19cbcb0294ba9",
            },
            QuicSecret {
                secret: "0263db1782731bf4588e7e4d93b7463907cb8cd8200b5da55a8bd488eafc37c1",
                key: "82db637861d55e1d011f19ea71d5d2a7",
                iv: "dd13c276499c0249d3310652",
                header_key: "edf6d05c83121201b436e16877593c3a",
            },
        ],
    ),
];

#[test]
pub fn derives_the_keys_of_quic() -> Result<(), Unspecified> {
    for (version, prefix, of_both) in &INITIAL_SECRETS {
        let (client, server) = quic_initial_secrets(*version, &hex("8394c8f03e515708"))?;
        for (secret, wanted) in [client, server].iter().zip(of_both) {
            assert_eq!(*secret, array(wanted.secret));
            let key: [u8; 16] = labeled(secret, &format!("{prefix} key"))?;
            let iv = labeled(secret, &format!("{prefix} iv"))?;
            let header_key: [u8; 16] = labeled(secret, &format!("{prefix} hp"))?;
            assert_eq!((key, iv), (array(wanted.key), array(wanted.iv)));
            assert_eq!(header_key, array(wanted.header_key));
            let keys = [
                QuicKey::new(&key, &iv)?,
                QuicKey::from_secret(*version, secret)?,
            ];
            let [one, other] = keys.map(|key| key.seal_in_place_separate_tag(9, b"", &mut []));
            assert_eq!(one?, other?);
            let derived = HeaderProtectionKey::from_secret(*version, secret)?;
            let wanted = HeaderProtectionKey::new(&header_key)?;
            assert_eq!(derived.new_mask(&[3; 16]), wanted.new_mask(&[3; 16]));
        }
    }
    Ok(())
}

#[test]
pub fn derives_the_next_secrets() -> Result<(), Unspecified> {
    // RFC 9001 appendix A.5 and RFC 9369 appendix A.5
    let secret = hex("9ac312a7f877468ebe69422748ad00a15443f18203a07d6060f688f30f21632b");
    for (version, wanted) in [
        (
            QuicVersion::V1,
            "1223504755036d556342ee9361d253421a826c9ecdf3c7148684b36b714881f9",
        ),
        (
            QuicVersion::V2,
            "c69374c49e3d2a9466fa689e49d476db5d0dfbc87d32ceeaa6343fd0ae4c7d88",
        ),
    ] {
        let mut next = secret.clone();
        quic_next_secret(version, &mut next)?;
        assert_eq!(next, hex(wanted));
    }

    // RFC 8446 section 7.2, by `openssl kdf`
    let mut secret: [u8; 48] = array(
        "96c79661f36a8a25c75c8cfe81a72ca9275b99e4ac4572abe8c70485ed9cc7bb\
         1ff8741a377c3e90ad0e065751201c94",
    );
    tls_next_secret(&mut secret)?;
    let wanted = array(
        "6aa2fdcaaae846a7e69780c69950ee743afd5c37be7d44aa63eb0c930d824182\
         02ef77c1db2274de43fcebdb74df0fef",
    );
    assert_eq!(secret, wanted);
    Ok(())
}

/// A packet of QUIC, whose payload ends in zeros up to a length, its masked header and its tag.
struct Packet {
    version: QuicVersion,
    secret: &'static str,
    number: u64,
    header: &'static str,
    payload: &'static str,
    payload_len: usize,
    masked: &'static str,
    tag: &'static str,
}

// RFC 9001 appendix A.2: the client's first payload, without the zeros.
const CLIENT_HELLO: &str =
    "060040f1010000ed0303ebf8fa56f12939b9584a3896472ec40bb863cfd3e86804fe3a47f06a2b69484c000004130113\
    02010000c000000010000e00000b6578616d706c652e636f6dff01000100000a00080006001d00170018001000070005\
    04616c706e000500050100000000003300260024001d00209370b2c9caa47fbabaf4559fedba753de171fa71f50f1ce1\
    5d43e994ec74d748002b0003020304000d0010000e0403050306030203080408050806002d00020101001c0002400100\
    3900320408ffffffffffffffff05048000ffff07048000ffff0801100104800075300901100f088394c8f03e51570806\
    048000ffff";

// RFC 9001 and RFC 9369, appendices A.2 and A.3.
const PACKETS: [Packet; 4] = [
    Packet {
        version: QuicVersion::V1,
        secret: INITIAL_SECRETS[0].2[0].secret,
        number: 2,
        header: "c300000001088394c8f03e5157080000449e00000002",
        payload: CLIENT_HELLO,
        payload_len: 1162,
        masked: "c000000001088394c8f03e5157080000449e7b9aec34",
        tag: "e221af44860018ab0856972e194cd934",
    },
    Packet {
        version: QuicVersion::V1,
        secret: INITIAL_SECRETS[0].2[1].secret,
        number: 1,
        header: HEADER,
        payload: PAYLOAD,
        payload_len: 99,
        masked: "cf000000010008f067a5502a4262b5004075c0d9",
        tag: "3d20398c276456cbc42158407dd074ee",
    },
    Packet {
        version: QuicVersion::V2,
        secret: INITIAL_SECRETS[1].2[0].secret,
        number: 2,
        header: "d36b3343cf088394c8f03e5157080000449e00000002",
        payload: CLIENT_HELLO,
        payload_len: 1162,
        masked: "d76b3343cf088394c8f03e5157080000449ea0c95e82",
        tag: "a18b2faa745b6fe189cf772a9f84cbfc",
    },
    Packet {
        version: QuicVersion::V2,
        secret: INITIAL_SECRETS[1].2[1].secret,
        number: 1,
        header: "d16b3343cf0008f067a5502a4262b50040750001",
        payload: PAYLOAD,
        payload_len: 99,
        masked: "dc6b3343cf0008f067a5502a4262b5004075d92f",
        tag: "1a3e2c43edd9ce7ca84bed8521e2e140",
    },
];

/// A long header with its mask, which hides four bits of the first byte, and the number at the end. The sample begins four
/// bytes after the start of the number (RFC 9001 sections 5.4.1 and 5.4.2).
fn masked(key: &HeaderProtectionKey, header: &[u8], payload: &[u8]) -> Vec<u8> {
    let number_len = usize::from(header[0] & 3) + 1;
    let sample = &payload[4 - number_len..][..16];
    let mask = key.new_mask(sample.try_into().expect("16 bytes"));
    let mut header = header.to_vec();
    header[0] ^= mask[0] & 0x0f;
    for (byte, mask) in header
        .iter_mut()
        .rev()
        .take(number_len)
        .zip(mask[1..=number_len].iter().rev())
    {
        *byte ^= mask;
    }
    header
}

#[test]
pub fn protects_packets() -> Result<(), Unspecified> {
    for packet in PACKETS {
        let (secret, header, number) = (hex(packet.secret), hex(packet.header), packet.number);
        let mut plaintext = hex(packet.payload);
        plaintext.resize(packet.payload_len, 0);
        let key = QuicKey::from_secret(packet.version, &secret)?;
        let mut payload = plaintext.clone();
        let tag = key.seal_in_place_separate_tag(number, &header, &mut payload)?;
        assert_eq!(tag, array(packet.tag));
        payload.extend(tag);
        let header_key = HeaderProtectionKey::from_secret(packet.version, &secret)?;
        assert_eq!(masked(&header_key, &header, &payload), hex(packet.masked));

        let sealed = payload.clone();
        for (number, header, len) in [
            (number + 1, &*header, payload.len()),
            (1 << 62, &header, payload.len()),
            (number, b"another", payload.len()),
            (number, &header, 15),
        ] {
            let opened = key.open_in_place(number, header, &mut payload[..len]);
            assert_eq!(opened, Err(Unspecified));
        }
        assert_eq!(payload, sealed);
        assert_eq!(key.open_in_place(number, &header, &mut payload)?, plaintext);
        let sealed = key.seal_in_place_separate_tag(1 << 62, &header, &mut payload);
        assert_eq!(sealed, Err(Unspecified));
    }
    Ok(())
}

/// A record of TLS 1.3: its secret, number, type and content, and its bytes after the header.
struct Record {
    secret: &'static str,
    number: u64,
    content_type: u8,
    content: &'static str,
    payload: &'static str,
}

const CLIENT: &str = "9e40646ce79a7f9dc05af8889bce6552875afa0b06df0087f792ebb7c17504a5";
const SERVER: &str = "a11af9f05531f856ad47116b45a950328204b4f44bfb6b3a4b4f1f3fcb631643";
const DATA: &str = "000102030405060708090a0b0c0d0e0f101112131415161718191a1b1c1d1e1f\
    202122232425262728292a2b2c2d2e2f3031";

// RFC 8448 section 3: the client's Finished, the application data of both ends, and their alerts.
const RECORDS: [Record; 5] = [
    Record {
        secret: "b3eddb126e067f35a780b3abf45e2d8f3b1a950738f52e9600746a0e27a55a21",
        number: 0,
        content_type: 22,
        content: "14000020a8ec436d677634ae525ac1fcebe11a039ec17694fac6e98527b642f2edd5ce61",
        payload: "75ec4dc238cce60b298044a71e219c56cc77b0517fe9b93c7a4bfc44d87f38f8\
            0338ac98fc46deb384bd1caeacab6867d726c40546",
    },
    Record {
        secret: CLIENT,
        number: 0,
        content_type: 23,
        content: DATA,
        payload: "a23f7054b62c94d0affafe8228ba55cbefacea42f914aa66bcab3f2b9819a8a5\
            b46b395bd54a9a20441e2b62974e1f5a6292a2977014bd1e3deae63aeebb21694915e4",
    },
    Record {
        secret: SERVER,
        number: 1,
        content_type: 23,
        content: DATA,
        payload: "2e937e11ef4ac740e538ad36005fc4a46932fc3225d05f82aa1b36e30efaf97d\
            90e6dffc602dcb501a59a8fcc49c4bf2e5f0a21c0047c2abf332540dd032e167c2955d",
    },
    Record {
        secret: CLIENT,
        number: 1,
        content_type: 21,
        content: "0100",
        payload: "c9872760655666b74d7ff1153efd6db6d0b0e3",
    },
    Record {
        secret: SERVER,
        number: 2,
        content_type: 21,
        content: "0100",
        payload: "b58fd67166ebf599d24720cfbe7efa7a8864a9",
    },
];

#[test]
pub fn protects_records() -> Result<(), Unspecified> {
    for record in RECORDS {
        let secret = hex(record.secret);
        let (content, sealed) = (hex(record.content), hex(record.payload));
        let keys = [
            RecordKey::from_secret(&secret)?,
            RecordKey::new(
                &labeled::<16>(&secret, "key")?,
                &labeled::<12>(&secret, "iv")?,
            )?,
        ];
        for key in keys {
            let mut payload = content.clone();
            payload.resize(content.len() + 17, 0xff);
            key.seal_in_place(
                record.number,
                record.content_type,
                &mut payload,
                content.len(),
            )?;
            assert_eq!(payload, sealed);
            let another = key.open_in_place(record.number + 1, &mut payload);
            assert_eq!(another, Err(Unspecified));
            assert_eq!(payload, sealed);
            let opened = key.open_in_place(record.number, &mut payload)?;
            assert_eq!(opened, (record.content_type, content.clone().as_mut()));
        }
    }
    Ok(())
}

#[test]
pub fn a_record_has_padding_and_limits() -> Result<(), Unspecified> {
    let (bytes, iv) = ([7; 32], [9; 12]);
    let key = RecordKey::new(&bytes, &iv)?;
    let mut payload = [7; (1 << 14) + 18];
    for (content_type, len, content_len) in [(0, 22, 5), (23, 22, 6), (23, 16, 0), (23, 16402, 5)] {
        let sealed = key.seal_in_place(3, content_type, &mut payload[..len], content_len);
        assert_eq!(sealed, Err(Unspecified));
    }
    assert!(payload.iter().all(|&byte| byte == 7));
    for len in [22, 23, 100, 16401] {
        let payload = &mut payload[..len];
        payload[..5].copy_from_slice(b"hello");
        key.seal_in_place(3, 23, payload, 5)?;
        assert_eq!(
            key.open_in_place(3, payload)?,
            (23, b"hello".to_vec().as_mut())
        );
        assert!(payload[6..len - 16].iter().all(|&byte| byte == 0));
    }

    // Authentic records without a type. The last two have lengths that TLS doesn't have.
    for len in [17, 100, (1 << 14) + 256, 16, (1 << 14) + 257] {
        let mut payload = vec![0; len - 16];
        let header = [23, 3, 3, (len >> 8) as u8, len as u8];
        let key_of_all = LessSafeKey::new(&bytes)?;
        key_of_all.seal_in_place_append_tag(nonce_of(&iv, 3), &header, &mut payload)?;
        let wanted: Result<(u8, &mut [u8]), _> = match len {
            17..=16640 => Ok((0, &mut [])),
            _ => Err(Unspecified),
        };
        assert_eq!(key.open_in_place(3, &mut payload), wanted);
    }
    Ok(())
}

/// The bytes of a value after it is dropped in place.
fn dropped<T>(value: T) -> Vec<u8> {
    let mut place = MaybeUninit::new(value);
    // SAFETY: the value is there, and nobody uses it again. Its bytes stay, and it has no padding.
    unsafe {
        place.assume_init_drop();
        std::slice::from_raw_parts(place.as_ptr().cast::<u8>(), size_of::<T>()).to_vec()
    }
}

#[test]
pub fn a_dropped_key_is_wiped() -> Result<(), Unspecified> {
    let key = LessSafeKey::new(&[7; 32])?;
    assert!(dropped(key.clone()).iter().all(|&byte| byte == 0));
    let mut buffer = *b"hello";
    assert!(key
        .seal_in_place_separate_tag(nonce(), b"", &mut buffer)
        .is_ok());
    // The numbers end at 0, so the limit is zeros too.
    let sealer = Sealer::new(&[7; 32], &[7; 12], 0..0)?;
    assert!(dropped(sealer).iter().all(|&byte| byte == 0));
    let opener = Opener::new(&[7; 32], &[7; 12], 0..0)?;
    assert!(dropped(opener).iter().all(|&byte| byte == 0));
    let key = LessSafeKey::new(&[7; 32])?;
    let mut message = key.begin(nonce(), b"aad")?;
    message.update(&mut [7; 100])?;
    let left = dropped(message).iter().filter(|&&byte| byte != 0).count();
    assert!(
        left <= size_of::<usize>(),
        "more than the address of the key"
    );
    let key = HeaderProtectionKey::new(&[7; 32])?;
    assert!(dropped(key).iter().all(|&byte| byte == 0));
    let key = QuicKey::new(&[7; 32], &[7; 12])?;
    assert!(dropped(key).iter().all(|&byte| byte == 0));
    let key = RecordKey::new(&[7; 32], &[7; 12])?;
    assert!(dropped(key).iter().all(|&byte| byte == 0));
    let key = Xaes256Gcm::new(&[7; 32]);
    assert!(dropped(key.clone()).iter().all(|&byte| byte == 0));
    assert!(key
        .seal_in_place_separate_tag(xaes_nonce(), b"", &mut buffer)
        .is_ok());
    Ok(())
}

#[test]
fn threads_may_have_each_type() {
    fn may<T: Send + Sync>() {}
    may::<LessSafeKey>();
    may::<SealingMessage<'_>>();
    may::<Sealer>();
    may::<Opener>();
    may::<HeaderProtectionKey>();
    may::<QuicKey>();
    may::<RecordKey>();
    may::<Xaes256Gcm>();
}

#[test]
pub fn masks_and_streams() -> Result<(), Unspecified> {
    // RFC 9001 appendices A.2 and A.5, FIPS 197 appendix C.3
    let key = hex("9f50449e04a0e810283a1e9933adedd2");
    let sample = array("d1b1c98dd7689fb8ec11d242b123dc9b");
    assert_eq!(mask_aes(&key, &sample)?, array("437b9aec36"));
    let expanded = HeaderProtectionKey::new(&key)?;
    assert_eq!(expanded.new_mask(&sample), array("437b9aec36"));
    let key = hex("000102030405060708090a0b0c0d0e0f101112131415161718191a1b1c1d1e1f");
    let sample = array("00112233445566778899aabbccddeeff");
    assert_eq!(mask_aes(&key, &sample)?, array("8ea2b7ca51"));
    let expanded = HeaderProtectionKey::new(&key)?;
    assert_eq!(expanded.new_mask(&sample), array("8ea2b7ca51"));
    let key = array("25a282b9e82f06f21f488917a4fc8f1b73573685608597d0efcb076b0ab7a7a4");
    assert_eq!(
        mask_chacha20(&key, &array("5e5cd55c41f69080575d7999c25a5bfb")),
        array("aefefe7d03")
    );

    // RFC 8439 section 2.4.2, its first bytes
    let key = array("000102030405060708090a0b0c0d0e0f101112131415161718191a1b1c1d1e1f");
    let mut bytes = *b"Ladies and Gentl";
    chacha20(&key, &array("000000000000004a00000000"), 1, &mut bytes)?;
    assert_eq!(bytes, array("6e2e359a2568f98041ba0728dd0d6981"));
    Ok(())
}

/// Asserts that a value is printed as this text for debugging, also in the alternate form.
fn assert_prints(value: &impl Debug, text: &str) {
    assert_eq!(format!("{value:?}"), text);
    assert_eq!(format!("{value:#?}"), text);
}

#[test]
fn prints_no_secret() -> Result<(), Box<dyn Error>> {
    let key = LessSafeKey::new(&[7; 16])?;
    assert_prints(&key, "LessSafeKey { .. }");
    let message = key.begin(nonce(), b"")?;
    assert_prints(&message, "SealingMessage { .. }");
    let key = HeaderProtectionKey::new(&[7; 16])?;
    assert_prints(&key, "HeaderProtectionKey { .. }");
    let key = QuicKey::new(&[7; 16], &[7; 12])?;
    assert_prints(&key, "QuicKey { .. }");
    let key = RecordKey::new(&[7; 16], &[7; 12])?;
    assert_prints(&key, "RecordKey { .. }");
    let key = Xaes256Gcm::new(&[7; 32]);
    assert_prints(&key, "Xaes256Gcm { .. }");
    let sealer = Sealer::new(&[7; 32], &[7; 12], 3..9)?;
    assert_eq!(format!("{sealer:?}"), "Sealer { numbers_left: 3..9, .. }");
    assert_eq!(
        format!("{sealer:#?}"),
        "Sealer {\n    numbers_left: 3..9,\n    ..\n}"
    );
    let opener = Opener::new(&[7; 32], &[7; 12], 3..9)?;
    assert_eq!(format!("{opener:?}"), "Opener { numbers_left: 3..9, .. }");
    assert_eq!(
        format!("{opener:#?}"),
        "Opener {\n    numbers_left: 3..9,\n    ..\n}"
    );
    assert_eq!(Unspecified.to_string(), "unspecified");
    Ok(())
}
