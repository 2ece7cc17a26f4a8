//! Every public item, on standard vectors. `interop/rust-users` of the repository also compiles this file against ring, with
//! one word of it changed: the name of the package in the next line.

use deerlapse_ring as the_package;

use std::error::Error;
use the_package::aead::quic::{self, HeaderProtectionKey, Sample};
use the_package::aead::{
    Aad, Algorithm, BoundKey, LessSafeKey, Nonce, NonceSequence, OpeningKey, SealingKey, Tag,
    UnboundKey, AES_128_GCM, AES_256_GCM, MAX_TAG_LEN, NONCE_LEN,
};
use the_package::error::Unspecified;

fn hex(digits: &str) -> Vec<u8> {
    assert_eq!(digits.len() % 2, 0);
    (0..digits.len())
        .step_by(2)
        .map(|i| u8::from_str_radix(&digits[i..i + 2], 16).expect("two hexadecimal digits"))
        .collect()
}

fn array<const N: usize>(digits: &str) -> [u8; N] {
    hex(digits).try_into().expect("the length of an array")
}

/// A message, and what it is sealed to.
struct Case {
    algorithm: &'static Algorithm,
    key: &'static str,
    sealed: &'static str,
}

// McGrew and Viega, "The Galois/Counter Mode of Operation (GCM)", appendix B, test cases 4 and 16.
const NONCE: &str = "cafebabefacedbaddecaf888";
const AAD: &str = "feedfacedeadbeeffeedfacedeadbeefabaddad2";
const MESSAGE: &str = "d9313225f88406e5a55909c5aff5269a86a7a9531534f7da2e4c303d8a318a72\
    1c3c0c95956809532fcf0e2449a6b525b16aedf5aa0de657ba637b39";
static CASES: [Case; 2] = [
    Case {
        algorithm: &AES_128_GCM,
        key: "feffe9928665731c6d6a8f9467308308",
        sealed: "42831ec2217774244b7221b784d0d49ce3aa212f2c02a4e035c17e2329aca12e\
            21d514b25466931c7d8f6a5aac84aa051ba30b396a0aac973d58e0915bc94fbc3221a5db94fae95ae7121a47",
    },
    Case {
        algorithm: &AES_256_GCM,
        key: "feffe9928665731c6d6a8f9467308308feffe9928665731c6d6a8f9467308308",
        sealed: "522dc1f099567d07f47f37a32a84427d643a8cdcbfe5c0c97598a2bd2555d1aa\
            8cb08e48590dbb3da7b08b1056828838c5f61e6393ba7a0abcc9f66276fc6ece0f4e1768cddf8853bb2d551b",
    },
];

impl Case {
    fn unbound(&self) -> Result<UnboundKey, Unspecified> {
        UnboundKey::new(self.algorithm, &hex(self.key))
    }

    fn ciphertext_and_tag(&self) -> (Vec<u8>, Tag) {
        let mut ciphertext = hex(self.sealed);
        let tag = ciphertext.split_off(ciphertext.len() - MAX_TAG_LEN);
        let tag = Tag::try_from(tag.as_slice()).expect("16 bytes");
        (ciphertext, tag)
    }
}

fn nonce() -> Nonce {
    Nonce::assume_unique_for_key(array(NONCE))
}

fn aad() -> Aad<Vec<u8>> {
    Aad::from(hex(AAD))
}

/// The nonce of the cases, once.
struct Once(bool);

impl NonceSequence for Once {
    fn advance(&mut self) -> Result<Nonce, Unspecified> {
        if std::mem::replace(&mut self.0, true) {
            return Err(Unspecified);
        }
        Nonce::try_assume_unique_for_key(&hex(NONCE))
    }
}

#[test]
fn algorithms() {
    assert_eq!((AES_128_GCM.key_len(), AES_256_GCM.key_len()), (16, 32));
    for algorithm in [&AES_128_GCM, &AES_256_GCM] {
        assert_eq!(algorithm.nonce_len(), NONCE_LEN);
        assert_eq!(algorithm.tag_len(), MAX_TAG_LEN);
    }
    assert!(AES_128_GCM == AES_128_GCM && AES_128_GCM != AES_256_GCM);
    assert_eq!(
        format!("{AES_128_GCM:?} {AES_256_GCM:?}"),
        "AES_128_GCM AES_256_GCM"
    );
}

#[test]
fn values() {
    assert_eq!(nonce().as_ref(), &array::<12>(NONCE));
    for len in [0, 8, 11, 13, 16] {
        assert!(Nonce::try_assume_unique_for_key(&vec![0; len]).is_err());
    }
    assert_eq!(Tag::from([7; 16]).as_ref(), [7; 16]);
    let copied: Tag = Tag::from([7; 16]);
    assert_eq!((copied, copied).1.as_ref(), [7; 16]);
    for len in [0, 12, 15, 17] {
        assert!(Tag::try_from(vec![0; len].as_slice()).is_err());
    }
    assert_eq!(Aad::empty().as_ref(), []);
    assert_eq!(Aad::from([1, 2]), Aad::from([1, 2]).clone());
    assert_ne!(Aad::from("a"), Aad::from("b"));
    assert_eq!(format!("{:?}", Aad::from([1, 2])), "Aad([1, 2])");
}

#[test]
fn errors() -> Result<(), Box<dyn Error>> {
    let too_short = <[u8; 16]>::try_from([0; 8].as_slice());
    let error: Unspecified = too_short.expect_err("8 bytes").into();
    assert_eq!((error, error).1, Unspecified);
    assert_eq!(format!("{error:?}"), "Unspecified");
    assert!(error.to_string().ends_with("::error::Unspecified"));
    UnboundKey::new(&AES_128_GCM, &[0; 16])?; // it is a `std::error::Error`
    Ok(())
}

#[test]
fn keys_have_the_length_of_their_algorithm() {
    for algorithm in [&AES_128_GCM, &AES_256_GCM] {
        for len in 0..=64 {
            let made = UnboundKey::new(algorithm, &vec![0; len]);
            assert_eq!(made.is_ok(), len == algorithm.key_len());
        }
    }
}

#[test]
fn less_safe_keys_seal() -> Result<(), Unspecified> {
    for case in &CASES {
        let key = LessSafeKey::new(case.unbound()?).clone();
        assert_eq!(key.algorithm(), case.algorithm);
        let mut buffer = hex(MESSAGE);
        key.seal_in_place_append_tag(nonce(), aad(), &mut buffer)?;
        assert_eq!(buffer, hex(case.sealed));

        let (ciphertext, tag) = case.ciphertext_and_tag();
        let mut buffer = hex(MESSAGE);
        let made = key.seal_in_place_separate_tag(nonce(), aad(), &mut buffer)?;
        assert_eq!(made.as_ref(), tag.as_ref());
        assert_eq!(buffer, ciphertext);
    }
    Ok(())
}

#[test]
fn less_safe_keys_open() -> Result<(), Unspecified> {
    for case in &CASES {
        let key = LessSafeKey::new(case.unbound()?);
        let mut buffer = hex(case.sealed);
        assert_eq!(
            key.open_in_place(nonce(), aad(), &mut buffer)?,
            hex(MESSAGE)
        );
        let (ciphertext, tag) = case.ciphertext_and_tag();
        for start in [0, 1, 5, 13, 16, 100] {
            let header = vec![7; start];
            let mut packet = [header.clone(), hex(case.sealed)].concat();
            let opened = key.open_within(nonce(), aad(), &mut packet, start..)?;
            assert_eq!(opened, hex(MESSAGE));
            assert_eq!(packet[..ciphertext.len()], hex(MESSAGE));

            let mut packet = [header, ciphertext.clone()].concat();
            let opened =
                key.open_in_place_separate_tag(nonce(), aad(), tag, &mut packet, start..)?;
            assert_eq!(opened, hex(MESSAGE));
            assert_eq!(packet[..ciphertext.len()], hex(MESSAGE));
        }
    }
    Ok(())
}

#[test]
fn bound_keys_seal_and_open() -> Result<(), Unspecified> {
    for case in &CASES {
        let mut key = SealingKey::new(case.unbound()?, Once(false));
        assert_eq!(key.algorithm(), case.algorithm);
        let mut buffer = hex(MESSAGE);
        key.seal_in_place_append_tag(aad(), &mut buffer)?;
        assert_eq!(buffer, hex(case.sealed));
        assert!(key.seal_in_place_append_tag(aad(), &mut buffer).is_err());

        let mut key = OpeningKey::new(case.unbound()?, Once(false));
        assert_eq!(key.algorithm(), case.algorithm);
        assert_eq!(key.open_in_place(aad(), &mut buffer)?, hex(MESSAGE));
        assert!(key.open_in_place(aad(), &mut hex(case.sealed)).is_err());

        let mut key = SealingKey::new(case.unbound()?, Once(false));
        let mut buffer = hex(MESSAGE);
        let tag = key.seal_in_place_separate_tag(aad(), &mut buffer)?;
        assert_eq!([&buffer, tag.as_ref()].concat(), hex(case.sealed));
        assert!(key.seal_in_place_separate_tag(aad(), &mut buffer).is_err());

        let mut key = OpeningKey::new(case.unbound()?, Once(false));
        let mut packet = [vec![7; 5], hex(case.sealed)].concat();
        assert_eq!(key.open_within(aad(), &mut packet, 5..)?, hex(MESSAGE));
        assert!(key.open_within(aad(), &mut packet, 5..).is_err());
    }
    Ok(())
}

#[test]
fn another_message_is_refused() -> Result<(), Unspecified> {
    for case in &CASES {
        let key = LessSafeKey::new(case.unbound()?);
        let sealed = hex(case.sealed);
        for at in 0..sealed.len() {
            let mut buffer = sealed.clone();
            buffer[at] ^= 0x80;
            assert!(key.open_in_place(nonce(), aad(), &mut buffer).is_err());
        }
        let other = || Nonce::assume_unique_for_key([0; 12]);
        assert!(key
            .open_in_place(other(), aad(), &mut sealed.clone())
            .is_err());
        assert!(key
            .open_in_place(nonce(), Aad::empty(), &mut sealed.clone())
            .is_err());
        for len in 0..sealed.len() {
            let mut cut = sealed[..len].to_vec();
            assert!(key.open_in_place(nonce(), aad(), &mut cut).is_err());
        }
        for start in [
            1,
            sealed.len() - 16,
            sealed.len(),
            sealed.len() + 1,
            usize::MAX,
        ] {
            let mut buffer = sealed.clone();
            assert!(key
                .open_within(nonce(), aad(), &mut buffer, start..)
                .is_err());
        }
        let (ciphertext, tag) = case.ciphertext_and_tag();
        for start in [1, ciphertext.len() + 1, usize::MAX] {
            let mut buffer = ciphertext.clone();
            let opened = key.open_in_place_separate_tag(nonce(), aad(), tag, &mut buffer, start..);
            assert!(opened.is_err());
        }
    }
    Ok(())
}

#[test]
fn keys_print_their_algorithm() -> Result<(), Unspecified> {
    let unbound = || UnboundKey::new(&AES_256_GCM, &[7; 32]);
    assert_eq!(unbound()?.algorithm(), &AES_256_GCM);
    let printed = [
        format!("{:?}", unbound()?),
        format!("{:?}", LessSafeKey::new(unbound()?)),
        format!("{:?}", SealingKey::new(unbound()?, Once(false))),
        format!("{:?}", OpeningKey::new(unbound()?, Once(false))),
    ];
    let names = ["UnboundKey", "LessSafeKey", "SealingKey", "OpeningKey"];
    assert_eq!(
        printed,
        names.map(|it| format!("{it} {{ algorithm: AES_256_GCM }}"))
    );
    Ok(())
}

// RFC 9001 appendices A.2 and A.5, FIPS 197 appendix C.3.
static MASKS: [(&quic::Algorithm, &str, &str, &str); 3] = [
    (
        &quic::AES_128,
        "9f50449e04a0e810283a1e9933adedd2",
        "d1b1c98dd7689fb8ec11d242b123dc9b",
        "437b9aec36",
    ),
    (
        &quic::AES_256,
        "000102030405060708090a0b0c0d0e0f101112131415161718191a1b1c1d1e1f",
        "00112233445566778899aabbccddeeff",
        "8ea2b7ca51",
    ),
    (
        &quic::CHACHA20,
        "25a282b9e82f06f21f488917a4fc8f1b73573685608597d0efcb076b0ab7a7a4",
        "5e5cd55c41f69080575d7999c25a5bfb",
        "aefefe7d03",
    ),
];

#[test]
fn masks() -> Result<(), Unspecified> {
    for (algorithm, key, sample, mask) in MASKS {
        let key = HeaderProtectionKey::new(algorithm, &hex(key))?;
        assert!(key.algorithm() == algorithm);
        let sample: Sample = array(sample);
        assert_eq!(key.new_mask(&sample)?, array(mask));
        for len in 0..=32 {
            let is_sample = len == algorithm.sample_len();
            assert_eq!(key.new_mask(&vec![0; len]).is_ok(), is_sample);
        }
        for len in 0..=64 {
            let made = HeaderProtectionKey::new(algorithm, &vec![0; len]);
            assert_eq!(made.is_ok(), len == algorithm.key_len());
        }
    }
    assert!(quic::AES_128 == quic::AES_128 && quic::AES_256 != quic::CHACHA20);
    let printed = MASKS.map(|it| format!("{:?}", it.0));
    assert_eq!(printed, ["AES_128", "AES_256", "CHACHA20"]);
    Ok(())
}

#[test]
fn threads_may_have_each_type() {
    fn may<T: Send + Sync>() {}
    may::<&Algorithm>();
    may::<UnboundKey>();
    may::<LessSafeKey>();
    may::<SealingKey<Once>>();
    may::<OpeningKey<Once>>();
    may::<Nonce>();
    may::<Tag>();
    may::<HeaderProtectionKey>();
}

// One key for eight threads, and clones of it.
#[test]
fn threads_share_a_key() -> Result<(), Unspecified> {
    for case in &CASES {
        let key = LessSafeKey::new(case.unbound()?);
        let work = |key: &LessSafeKey| {
            for _ in 0..20 {
                let mut buffer = hex(case.sealed);
                let opened = key.open_in_place(nonce(), aad(), &mut buffer);
                assert_eq!(opened.map(|it| it.to_vec()), Ok(hex(MESSAGE)));
            }
        };
        std::thread::scope(|scope| {
            for _ in 0..8 {
                scope.spawn(|| work(&key));
                scope.spawn(|| work(&key.clone()));
            }
        });
    }
    Ok(())
}
