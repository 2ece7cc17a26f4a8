//! HMAC, HKDF, PBKDF2, and the keys of TLS 1.3 and QUIC: vectors of standards, values by other implementations, refusals, and
//! what a dropped key leaves.

use std::fmt::Debug;
use std::mem::MaybeUninit;

use key_derivation::hash::Hash;
use key_derivation::hkdf::{Expander, derive_secret, expand, expand_label, extract};
use key_derivation::hmac::{HmacKey, hmac, hmac_sha_256, hmac_sha_384};
use key_derivation::pbkdf2::pbkdf2;
use key_derivation::quic::{QuicSecret, Version};
use key_derivation::{DerivationError, Secret, Suite};
use sha2::{Sha256, Sha384};
use vectors::hex;

/// Asserts that bytes are those of a word in hex.
#[track_caller]
fn same(found: impl AsRef<[u8]>, wanted: &str, name: &str) {
    assert_eq!(hex::text(found.as_ref()), wanted, "{name}");
}

/// An array whose byte `i` is `i`.
fn counted<const N: usize>() -> [u8; N] {
    std::array::from_fn(|i| i as u8)
}

/// RFC 4231 sections 4.2 to 4.8: a key, a text, and its codes by SHA-256 and SHA-384. Those of section 4.6 are cut to 16 bytes.
const RFC_4231: [(&[u8], &[u8], &str, &str); 7] = [
    (
        &[0x0b; 20],
        b"Hi There",
        "b0344c61d8db38535ca8afceaf0bf12b881dc200c9833da726e9376c2e32cff7",
        "afd03944d84895626b0825f4ab46907f15f9dadbe4101ec682aa034c7cebc59cfaea9ea9076ede7f4af152e8b2fa9cb6",
    ),
    (
        b"Jefe",
        b"what do ya want for nothing?",
        "5bdcc146bf60754e6a042426089575c75a003f089d2739839dec58b964ec3843",
        "af45d2e376484031617f78d2b58a6b1b9c7ef464f5a01b47e42ec3736322445e8e2240ca5e69e2c78b3239ecfab21649",
    ),
    (
        &[0xaa; 20],
        &[0xdd; 50],
        "773ea91e36800e46854db8ebd09181a72959098b3ef8c122d9635514ced565fe",
        "88062608d3e6ad8a0aa2ace014c8a86f0aa635d947ac9febe83ef4e55966144b2a5ab39dc13814b94e3ab6e101a34f27",
    ),
    (
        &[
            1, 2, 3, 4, 5, 6, 7, 8, 9, 10, 11, 12, 13, 14, 15, 16, 17, 18, 19, 20, 21, 22, 23, 24,
            25,
        ],
        &[0xcd; 50],
        "82558a389a443c0ea4cc819899f2083a85f0faa3e578f8077a2e3ff46729665b",
        "3e8a69b7783c25851933ab6290af6ca77a9981480850009cc5577c6e1f573b4e6801dd23c4a7d679ccf8a386c674cffb",
    ),
    (
        &[0x0c; 20],
        b"Test With Truncation",
        "a3b6167473100ee06e0c796c2955552b",
        "3abf34c3503b2a23a46efc619baef897",
    ),
    (
        &[0xaa; 131],
        b"Test Using Larger Than Block-Size Key - Hash Key First",
        "60e431591ee0b67f0d8a26aacbf5b77f8e0bc6213728c5140546040f0ee37f54",
        "4ece084485813e9088d2c63a041bc5b44f9ef1012a2b588f3cd11f05033ac4c60c2ef6ab4030fe8296248df163f44952",
    ),
    (
        &[0xaa; 131],
        b"This is a test using a larger than block-size key and a larger than block-size data. \
              The key needs to be hashed before being used by the HMAC algorithm.",
        "9b09ffa71b942fcb27635fbcd5b0e944bfdc63644f0713938a7f51535c3a35e2",
        "6617178e941f020d351e2f254e8fd32c602420feb0b8fb9adccebb82461e99c5a678cc31e799176d3860e6110c46523e",
    ),
];

#[test]
fn hmac_by_rfc_4231() {
    for (key, text, by_sha_256, by_sha_384) in RFC_4231 {
        let code = hmac::<Sha256>(key, text);
        assert_eq!(code, hmac_sha_256(key, text));
        same(&code[..by_sha_256.len() / 2], by_sha_256, "SHA-256");
        let code = hmac::<Sha384>(key, text);
        assert_eq!(code, hmac_sha_384(key, text));
        same(&code[..by_sha_384.len() / 2], by_sha_384, "SHA-384");
    }
}

/// By python's `hmac` and `hashlib`: the length of a key, and the SHA-256 of the codes of the texts of 0 to 200 bytes, one
/// after another, by SHA-256 and SHA-384. Byte i of the key is 7 i + 1, and of the texts 7 i + 2, modulo 256.
const CODES_OF_LENGTHS: [(usize, &str, &str); 7] = [
    (
        0,
        "0eda3d23902faf0abbc1fa3f3325db2fd0d4d68a065bf8bca3f1714b5192d28b",
        "cefd68b22bbccacc2568c7017e126e817f7495a363748494e0f0fb9436f2c92e",
    ),
    (
        63,
        "f8a7176b943c45ae8b4374f3f7dd02fd159059bbf71c1dd74b10614b153921b5",
        "f755c26e509c0070141965a30138a8438612fc31daa9430b108048b544c2dfc5",
    ),
    (
        64,
        "7aca51eadafbf678e8cce1160d7ee896c833fe32d04162874eca66c2659e5a78",
        "43b980ac17c6f5b8d1ac8ff45ad09422efbf6bc72b0a9e02157f5a5983d423a8",
    ),
    (
        65,
        "3942300aef13bee46852f16997ed905a8173000033fd722ac5c13ac66375efa4",
        "f1617750f18dc6d5682bf23ea49fdd80fe09c4e61f2126a19982b43d41b7af52",
    ),
    (
        127,
        "51e1668e84100fc559bed84a7ab99880923fa820a798762622ef30ef376b846b",
        "bd87346361464b898e10d67f5ed1314ea3f03983f7b537a35c1bdf06dbe301d4",
    ),
    (
        128,
        "f4a7112bc56f63f98ab717189c10867f61f689e9b9ed908caf8f9806e819909c",
        "29ae9fb1376d602f077c25c866f0aa904053272a88bc511bb1228889958b0a07",
    ),
    (
        129,
        "d829e7eec3a1dbce85b8c075b952e0cf6d11f657525d232f8e03cd824e0f646d",
        "2b31741fccdb43e35d85154434c7c46caf2542e62f93994e59fb55336b93e53b",
    ),
];

/// The SHA-256 of the codes of the texts of `CODES_OF_LENGTHS`.
fn digest_of_codes<H: Hash>(key_len: usize) -> [u8; 32] {
    let bytes = |start: u8| -> [u8; 200] {
        std::array::from_fn(|i| (i as u8).wrapping_mul(7).wrapping_add(start))
    };
    let (key, text) = (bytes(1), bytes(2));
    let mut hasher = Sha256::new();
    for len in 0..=200 {
        hasher.update(hmac::<H>(&key[..key_len], &text[..len]));
    }
    hasher.finalize()
}

#[test]
fn hmac_of_each_length() {
    for (key_len, by_sha_256, by_sha_384) in CODES_OF_LENGTHS {
        same(digest_of_codes::<Sha256>(key_len), by_sha_256, "SHA-256");
        same(digest_of_codes::<Sha384>(key_len), by_sha_384, "SHA-384");
    }
}

/// Returns whether a key takes `code` for that of a text, which it absorbs in two pieces.
fn verifies<H: Hash>(key: &HmacKey<H>, (front, rest): (&[u8], &[u8]), code: &[u8]) -> bool {
    let mut hasher = key.start();
    hasher.update(front);
    hasher.update(rest);
    key.verify(hasher, code)
}

/// Keeps one key for all texts. A code with a changed bit, or of another length, isn't right.
fn verifies_under_kept_key<H: Hash>(code: &str) {
    let key = HmacKey::<H>::new(b"Jefe");
    let text = b"what do ya want for nothing?";
    let mut code = hex::bytes(code);
    for at in 0..=text.len() {
        assert!(verifies(&key, text.split_at(at), &code));
    }
    assert!(!verifies(&key, text[1..].split_at(0), &code));
    for at in 0..code.len() {
        assert!(!verifies(&key, text.split_at(at / 2), &code[..at]));
        code[at] ^= 1;
        assert!(!verifies(&key, text.split_at(at / 2), &code));
        code[at] ^= 1;
    }
    code.push(0);
    assert!(!verifies(&key, text.split_at(0), &code));
}

#[test]
fn hmac_under_kept_keys() {
    let (_, _, by_sha_256, by_sha_384) = RFC_4231[1];
    verifies_under_kept_key::<Sha256>(by_sha_256);
    verifies_under_kept_key::<Sha384>(by_sha_384);
}

/// The number that two bytes are.
fn number(bytes: &[u8]) -> usize {
    usize::from(u16::from_be_bytes(bytes.try_into().expect("two bytes")))
}

fn expanded<H: Hash>(ikm: &[u8], salt: &[u8], info: &[u8], len: usize) -> String {
    let mut out = vec![0; len];
    let prk = extract::<H>(salt, ikm);
    match expand::<H>(prk.as_ref(), info, &mut out) {
        Ok(()) => hex::text(&out),
        Err(_) => "refused".into(),
    }
}

/// The answer to a line whose call is one of HMAC or HKDF, by the hash function.
fn answer<H: Hash>(call: &str, words: &[Vec<u8>]) -> Option<String> {
    match (call, words) {
        ("hmac", [key, text, len]) => {
            let code = hmac::<H>(key, text);
            Some(hex::text(&code.as_ref()[..number(len)]))
        }
        ("verify", [key, text, code]) => {
            let key = HmacKey::<H>::new(key);
            Some(verifies(&key, (text, b""), code).to_string())
        }
        ("hkdf", [ikm, salt, info, len]) => Some(expanded::<H>(ikm, salt, info, number(len))),
        _ => None,
    }
}

/// Vectors of Project Wycheproof. `crates/test_vectors` has the lines and what must be answered, and its README the sources.
#[test]
fn wycheproof() {
    let lines = include_str!("../../../../crates/test_vectors/stdin").lines();
    let answers = include_str!("../../../../crates/test_vectors/stdout").lines();
    let mut count = 0;
    for (line, wanted) in lines.zip(answers) {
        let (name, words) = line.split_once(' ').expect("a call and its words");
        let words: Vec<_> = words.split(' ').map(hex::bytes).collect();
        let answer = match name.split_once('_') {
            Some((call, "sha_256")) => answer::<Sha256>(call, &words),
            Some((call, "sha_384")) => answer::<Sha384>(call, &words),
            _ => continue,
        };
        assert_eq!(answer.as_deref(), Some(wanted), "{line}");
        count += 1;
    }
    assert_eq!(count, 86 + 83 + 2 * (66 + 174));
}

/// RFC 5869 sections A.1 to A.3: input keying material, salt, info, pseudorandom key and output keying material.
const RFC_5869: [[&str; 5]; 3] = [
    [
        "0b0b0b0b0b0b0b0b0b0b0b0b0b0b0b0b0b0b0b0b0b0b",
        "000102030405060708090a0b0c",
        "f0f1f2f3f4f5f6f7f8f9",
        "077709362c2e32df0ddc3f0dc47bba6390b6c73bb50f9c3122ec844ad7c2b3e5",
        "3cb25f25faacd57a90434f64d0362f2a2d2d0a90cf1a5a4c5db02d56ecc4c5bf34007208d5b887185865",
    ],
    [
        "000102030405060708090a0b0c0d0e0f101112131415161718191a1b1c1d1e1f202122232425262728292a2b2c2d2e2f303132333435363738393a3b3c3d3e3f404142434445464748494a4b4c4d4e4f",
        "606162636465666768696a6b6c6d6e6f707172737475767778797a7b7c7d7e7f808182838485868788898a8b8c8d8e8f909192939495969798999a9b9c9d9e9fa0a1a2a3a4a5a6a7a8a9aaabacadaeaf",
        "b0b1b2b3b4b5b6b7b8b9babbbcbdbebfc0c1c2c3c4c5c6c7c8c9cacbcccdcecfd0d1d2d3d4d5d6d7d8d9dadbdcdddedfe0e1e2e3e4e5e6e7e8e9eaebecedeeeff0f1f2f3f4f5f6f7f8f9fafbfcfdfeff",
        "06a6b88c5853361a06104c9ceb35b45cef760014904671014a193f40c15fc244",
        "b11e398dc80327a1c8e7f78c596a49344f012eda2d4efad8a050cc4c19afa97c59045a99cac7827271cb41c65e590e09da3275600c2f09b8367793a9aca3db71cc30c58179ec3e87c14c01d5c1f3434f1d87",
    ],
    [
        "0b0b0b0b0b0b0b0b0b0b0b0b0b0b0b0b0b0b0b0b0b0b",
        "-",
        "-",
        "19ef24a32c717b167f33a91d6f648bdf96596776afdb6377ac434c1c293ccb04",
        "8da4e775a563c18f715f802a063c5a31b8a11f5c5ee1879ec3454e5f3c738d2d9d201395faa4b61a96c8",
    ],
];

#[test]
fn hkdf_by_rfc_5869() {
    for [ikm, salt, info, prk, okm] in RFC_5869 {
        let (ikm, salt, info) = (hex::bytes(ikm), hex::bytes(salt), hex::bytes(info));
        same(extract::<Sha256>(&salt, &ikm), prk, "the pseudorandom key");
        assert_eq!(expanded::<Sha256>(&ikm, &salt, &info, okm.len() / 2), okm);

        let kept = Expander::<Sha256>::new(&hex::bytes(prk));
        for at in 0..=info.len() {
            let (front, rest) = info.split_at(at);
            let mut out = vec![0; okm.len() / 2];
            assert_eq!(kept.expand(&[front, rest], &mut out), Ok(()));
            same(&out, okm, "an info in two pieces");
        }
        same(kept.expand_block(&[&info]), &okm[..64], "a block");
    }
}

/// By python's `hmac`: the SHA-256 of outputs of each length up to 100 bytes, one after another.
#[test]
fn hkdf_of_each_length() {
    let mut hasher = Sha256::new();
    for len in 0..=100 {
        let mut out = vec![0; len];
        assert_eq!(expand::<Sha384>(b"prk", b"info", &mut out), Ok(()));
        hasher.update(&out);
    }
    let wanted = "32e69dd249b1158ddd8cb190654812f21b0660ada0b95c907c19071de502c040";
    same(hasher.finalize(), wanted, "0 to 100 bytes");
}

/// By python's `hmac`: the SHA-256 of the longest output. One that is a byte longer is refused, and nothing is written.
#[track_caller]
fn longest_output<H: Hash>(wanted: &str) {
    let mut out = vec![7; 255 * H::OUTPUT_LEN + 1];
    assert_eq!(
        expand::<H>(b"prk", b"info", &mut out),
        Err(DerivationError::TooLong)
    );
    assert!(out.iter().all(|byte| *byte == 7));
    out.pop();
    assert_eq!(expand::<H>(b"prk", b"info", &mut out), Ok(()));
    same(<Sha256 as Hash>::digest(&out), wanted, "the longest output");
}

#[test]
fn longest_outputs() {
    longest_output::<Sha256>("cdbd0062e571637170aa4931c64fbe7f22f262c6ec21d36f42a9175ad1797681");
    longest_output::<Sha384>("ef4e9110aa9e2766dfb9a7b7326076c4c0c747a4635ce3b0daf8f89e448cf50c");
}

/// RFC 8448 section 3: the secrets of the key schedule, each from the one before it.
#[test]
fn key_schedule_by_rfc_8448() {
    let derived = |secret: [u8; 32]| {
        derive_secret::<Sha256>(&secret, b"derived", &<Sha256 as Hash>::digest(b""))
            .expect("a label and a digest")
    };
    let early = extract::<Sha256>(&[0; 32], &[0; 32]);
    let wanted = "33ad0a1c607ec03b09e6cd9893680ce210adf300aa1f2660e1b22e10f170f92a";
    same(early, wanted, "the early secret");
    let shared = hex::bytes("8bd4054fb55b9d63fdfbacf9f04b9f0d35e6d63f537563efd46272900f89492d");
    let handshake = extract::<Sha256>(&derived(early), &shared);
    same(handshake, HANDSHAKE, "the handshake secret");
    let master = extract::<Sha256>(&derived(handshake), &[0; 32]);
    same(master, MASTER, "the master secret");
}

const HANDSHAKE: &str = "1dc826e93606aa6fdc0aadc12f741b01046aa6b99f691ed221a9f0ca043fbeac";
const MASTER: &str = "18df06843d13a08bf2a449844c5f8a478001bc4d4c627984d5a41da8d0402919";
const CLIENT_HANDSHAKE: &str = "b3eddb126e067f35a780b3abf45e2d8f3b1a950738f52e9600746a0e27a55a21";
const SERVER_HANDSHAKE: &str = "b67b7d690cc16c4e75e54213cb2d37b4e9c912bcded9105d42befd59d391ad38";
const RESUMPTION: &str = "7df235f2031d2a051287d02b0241b0bfdaf86cc856231f2d5aba46c434ec196c";
/// The hash of the messages up to ServerHello.
const TO_HELLO: &str = "860c06edc07858ee8e78f0e7428c58edd6b43f2ca3e6e95f02ed063cf0e1cad8";
/// The hash of the messages up to the server's Finished.
const TO_FINISHED: &str = "9608102a0f1ccc6db6250b7b7e417b1a000eaada3daae4777a7686c9ff83df13";

/// RFC 8448 section 3: a secret, a label, a context, and what HKDF-Expand-Label gives. If the context is a hash of messages, so
/// does Derive-Secret.
const LABELED: [[&str; 4]; 8] = [
    [HANDSHAKE, "c hs traffic", TO_HELLO, CLIENT_HANDSHAKE],
    [HANDSHAKE, "s hs traffic", TO_HELLO, SERVER_HANDSHAKE],
    [
        MASTER,
        "c ap traffic",
        TO_FINISHED,
        "9e40646ce79a7f9dc05af8889bce6552875afa0b06df0087f792ebb7c17504a5",
    ],
    [
        MASTER,
        "s ap traffic",
        TO_FINISHED,
        "a11af9f05531f856ad47116b45a950328204b4f44bfb6b3a4b4f1f3fcb631643",
    ],
    [
        MASTER,
        "exp master",
        TO_FINISHED,
        "fe22f881176eda18eb8f44529e6792c50c9a3f89452f68d8ae311b4309d3cf50",
    ],
    [
        CLIENT_HANDSHAKE,
        "finished",
        "-",
        "b80ad01015fb2f0bd65ff7d4da5d6bf83f84821d1f87fdc7d3c75b5a7b42d9c4",
    ],
    [
        SERVER_HANDSHAKE,
        "finished",
        "-",
        "008d3b66f816ea559f96b537e885c31fc068bf492c652f01f288a1d8cdc19fc8",
    ],
    [
        RESUMPTION,
        "resumption",
        "0000",
        "4ecd0eb6ec3b4d87f5d6028f922ca4c5851a277fd41311c9e62d2c9492e1c4f3",
    ],
];

#[test]
fn labels_by_rfc_8448() {
    for [secret, label, context, wanted] in LABELED {
        let (secret, context) = (hex::bytes(secret), hex::bytes(context));
        let mut out = [0; 32];
        let made = expand_label::<Sha256>(&secret, label.as_bytes(), &context, &mut out);
        assert_eq!(made, Ok(()));
        same(out, wanted, label);

        let mut out = [0; 32];
        let secret = Secret::new(Suite::Aes128Gcm, &secret).expect("32 bytes");
        let made = secret.expand_label(label.as_bytes(), &context, &mut out);
        assert_eq!(made, Ok(()));
        same(out, wanted, label);

        if context.len() == 32 {
            let derived = derive_secret::<Sha256>(secret.as_slice(), label.as_bytes(), &context);
            same(derived.expect("a digest"), wanted, label);
        }
    }
}

/// By python's `hmac`: Derive-Secret by SHA-384, and the longest label with the longest context.
#[test]
fn labels_by_sha_384() {
    let secret = counted::<48>();
    let derived = derive_secret::<Sha384>(&secret, b"derived", &<Sha384 as Hash>::digest(b""));
    same(
        derived.expect("a label and a digest"),
        "85672c80162b3076b4a14618cbbf66e53d55d61cdb683aba9f7c48d5b65a6a3b1c9d6c2638eed961d9f80878eca9fb56",
        "derived",
    );
    let mut out = [0; 20];
    let made = expand_label::<Sha384>(b"secret", &[1; 249], &[2; 255], &mut out);
    assert_eq!(made, Ok(()));
    same(
        out,
        "f8f9c2b03db94d073165f6f0d5d0d6a2fe8b4c7a",
        "the longest label",
    );
}

/// A traffic secret of TLS 1.3, its key and IV for records, and the secret after a KeyUpdate.
type Traffic = (
    Suite,
    &'static str,
    &'static str,
    &'static str,
    Option<&'static str>,
);

/// RFC 8448 section 3, which has no KeyUpdate: the secrets of the client and of the server, for the handshake and for
/// application data.
const TRAFFIC_OF_RFC_8448: [Traffic; 4] = [
    (
        Suite::Aes128Gcm,
        CLIENT_HANDSHAKE,
        "dbfaa693d1762c5b666af5d950258d01",
        "5bd3c71b836e0b76bb73265f",
        None,
    ),
    (
        Suite::Aes128Gcm,
        SERVER_HANDSHAKE,
        "3fce516009c21727d0f2e4e86ee403bc",
        "5d313eb2671276ee13000b30",
        None,
    ),
    (
        Suite::Aes128Gcm,
        "9e40646ce79a7f9dc05af8889bce6552875afa0b06df0087f792ebb7c17504a5",
        "17422dda596ed5d9acd890e3c63f5051",
        "5b78923dee08579033e523d9",
        None,
    ),
    (
        Suite::Aes128Gcm,
        "a11af9f05531f856ad47116b45a950328204b4f44bfb6b3a4b4f1f3fcb631643",
        "9f02283b6c9c07efc26bb9f2ac92e356",
        "cf782b88dd83549aadf1e984",
        None,
    ),
];

/// A connection of OpenSSL 3.0.19 by TLS_AES_256_GCM_SHA384, from its keylog file. The keys are by `openssl kdf`, and open the
/// connection's records in python's `cryptography`.
const TRAFFIC_OF_OPENSSL: [Traffic; 4] = [
    (
        Suite::Aes256Gcm,
        "cd6ead29316a8491e074a6d5d86e53b847a2a85cd060d4812b8d90cf1f9ad39f6efe1f217876e5a0eef2eef639f7967f",
        "6443c908cfb1a7e86e280d149c11d5d5bd6b4a14f07f356ad1787b5593fbe4b0",
        "9624447cf308bf699752638e",
        None,
    ),
    (
        Suite::Aes256Gcm,
        "96c79661f36a8a25c75c8cfe81a72ca9275b99e4ac4572abe8c70485ed9cc7bb1ff8741a377c3e90ad0e065751201c94",
        "9706aae9e421bcdd4b2b85ee5f35736b2f1a1493c68bafbcf185408a65a1af49",
        "3ba8627e2c9169908c6be0fd",
        Some(
            "6aa2fdcaaae846a7e69780c69950ee743afd5c37be7d44aa63eb0c930d82418202ef77c1db2274de43fcebdb74df0fef",
        ),
    ),
    (
        Suite::Aes256Gcm,
        "6aa2fdcaaae846a7e69780c69950ee743afd5c37be7d44aa63eb0c930d82418202ef77c1db2274de43fcebdb74df0fef",
        "6fce02c414ad1cbf1c8324a13b2358dd592028543dfd5717922636295c0ae448",
        "5046d704971d29a631ed2e3a",
        Some(
            "5d8a83a8fe93e27d203abe28d79ec77411f862f8106de0026295af323b2daa5cc6d7b7ad4d49a217308fe3e449426890",
        ),
    ),
    (
        Suite::Aes256Gcm,
        "00eabd504442dbf20e62a7e3c046be2ad74593d8735dae7183b06834aaafcb39bc2531d5b95939eb98fd3bb2a0b1ca97",
        "fb4649dd5a1ad4052a4db7cabecd0082728767ae7218a636260baab038fb7a2f",
        "05f8813ff9a25254b1c989bb",
        Some(
            "e5c261327eb972ce00863fd5f11c69260ffc510822457445d3c1984472e86979f58927b67f3742a59e3f565844376e7c",
        ),
    ),
];

#[test]
fn record_keys() {
    for (suite, bytes, key, iv, next) in TRAFFIC_OF_RFC_8448.into_iter().chain(TRAFFIC_OF_OPENSSL) {
        let secret = Secret::new(suite, &hex::bytes(bytes)).expect("a digest's length");
        assert_eq!(secret.suite(), suite);
        same(secret.as_slice(), bytes, "the secret");
        let keys = secret.record_keys();
        same(keys.key.as_slice(), key, bytes);
        same(keys.iv, iv, bytes);
        if let Some(next) = next {
            same(secret.next_traffic().as_slice(), next, bytes);
        }
    }
}

/// The version of a secret of QUIC, the secret, its key, IV and header key, and the secret after a key update.
type Quic = (
    Version,
    &'static str,
    [&'static str; 3],
    Option<&'static str>,
);

#[track_caller]
fn is_quic_secret(secret: &QuicSecret, (version, bytes, [key, iv, header_key], next): Quic) {
    assert_eq!(secret.version(), version);
    same(secret.as_slice(), bytes, "the secret");
    let keys = secret.keys();
    same(keys.key.as_slice(), key, bytes);
    same(keys.iv, iv, bytes);
    same(keys.header_key.as_slice(), header_key, bytes);
    let packet_keys = secret.packet_keys();
    same(packet_keys.key.as_slice(), key, bytes);
    same(packet_keys.iv, iv, bytes);
    same(secret.header_key().as_slice(), header_key, bytes);
    if let Some(wanted) = next {
        let next = secret.next();
        assert_eq!((next.version(), next.suite()), (version, secret.suite()));
        same(next.as_slice(), wanted, bytes);
    }
}

/// RFC 9001 section A.1 and RFC 9369 section A.1: the Initial secrets of the client and of the server.
const INITIAL: [[Quic; 2]; 2] = [
    [
        (
            Version::One,
            "c00cf151ca5be075ed0ebfb5c80323c42d6b7db67881289af4008f1f6c357aea",
            [
                "1f369613dd76d5467730efcbe3b1a22d",
                "fa044b2f42a3fd3b46fb255c",
                "9f50449e04a0e810283a1e9933adedd2",
            ],
            None,
        ),
        (
            Version::One,
            "3c199828fd139efd216c155ad844cc81fb82fa8d7446fa7d78be803acdda951b",
            [
                "cf3a5331653c364c88f0f379b6067e37",
                "0ac1493ca1905853b0bba03e",
                "c206b8d9b9f0f37644430b490eeaa314",
            ],
            None,
        ),
    ],
    [
        (
            Version::Two,
            "14ec9d6eb9fd7af83bf5a668bc17a7e283766aade7ecd0891f70f9ff7f4bf47b",
            [
                "8b1a0bc121284290a29e0971b5cd045d",
                "91f73e2351d8fa91660e909f",
                "45b95e15235d6f45a6b19cbcb0294ba9",
            ],
            None,
        ),
        (
            Version::Two,
            "0263db1782731bf4588e7e4d93b7463907cb8cd8200b5da55a8bd488eafc37c1",
            [
                "82db637861d55e1d011f19ea71d5d2a7",
                "dd13c276499c0249d3310652",
                "edf6d05c83121201b436e16877593c3a",
            ],
            None,
        ),
    ],
];

#[test]
fn initial_secrets_by_rfc_9001_and_9369() {
    let id = hex::bytes("8394c8f03e515708");
    for [client, server] in INITIAL {
        let version = client.0;
        let secret = QuicSecret::client_initial(version, &id).expect("8 bytes");
        is_quic_secret(&secret, client);
        let secret = QuicSecret::server_initial(version, &id).expect("8 bytes");
        is_quic_secret(&secret, server);
    }
}

/// By python's `hmac`: the Initial secrets of the shortest and of the longest connection ID.
#[test]
fn initial_secrets_of_each_end_of_the_lengths() {
    let secret = QuicSecret::client_initial(Version::One, b"").expect("no bytes");
    let wanted = "594cb3b06a53f6d6e1c3af415ec6b91a5b97c13c4f38d3008cd4c50c224a8288";
    same(secret.as_slice(), wanted, "of no bytes");
    let secret = QuicSecret::server_initial(Version::One, &counted::<20>()).expect("20 bytes");
    let wanted = "a53a124c1b622b0fa517738d49dc215caf01fd3c5731202b39116346a97c37cb";
    same(secret.as_slice(), wanted, "of 20 bytes");
}

/// RFC 9001 section A.5 and RFC 9369 section A.5, of one secret: its IV, and the secret after a key update. Their suite has
/// ChaCha20, whose IV and secrets are made as those of AES-128-GCM.
const UPDATED: [(Version, &str, &str); 2] = [
    (
        Version::One,
        "e0459b3474bdd0e44a41c144",
        "1223504755036d556342ee9361d253421a826c9ecdf3c7148684b36b714881f9",
    ),
    (
        Version::Two,
        "a6b5bc6ab7dafce30ffff5dd",
        "c69374c49e3d2a9466fa689e49d476db5d0dfbc87d32ceeaa6343fd0ae4c7d88",
    ),
];

#[test]
fn key_updates_by_rfc_9001_and_9369() {
    let bytes = hex::bytes("9ac312a7f877468ebe69422748ad00a15443f18203a07d6060f688f30f21632b");
    for (version, iv, next) in UPDATED {
        let secret = Secret::new(Suite::Aes128Gcm, &bytes).expect("32 bytes");
        let secret = QuicSecret::new(version, secret);
        same(secret.keys().iv, iv, "the IV");
        same(secret.next().as_slice(), next, "the next secret");
    }
}

/// By python's `hmac`: a secret of 48 bytes in each version.
const BY_SHA_384: [Quic; 2] = [
    (
        Version::One,
        "000102030405060708090a0b0c0d0e0f101112131415161718191a1b1c1d1e1f202122232425262728292a2b2c2d2e2f",
        [
            "95c517eea81b6469ff8f27a065fd04c1a27b3023591b93e273a9df5f921d1f68",
            "a8d8316bf5bb0bbfa74cbf17",
            "307135de335efef95873468a03d3dfa1e38050df7cc6ab7f22fd7aced73b66e5",
        ],
        Some(
            "d21f524277390ba96b86484d9c687f850f1e4d1f997033bba06051129179a762a94067d065f3f715e83d65a7bf8c79b9",
        ),
    ),
    (
        Version::Two,
        "000102030405060708090a0b0c0d0e0f101112131415161718191a1b1c1d1e1f202122232425262728292a2b2c2d2e2f",
        [
            "14e4a47ecdc8b1251dc9b79bc1a7e2d1ca02ed74bb2681f2ed84b86917dfa814",
            "ae59bef75ac7aeb9ab58ef0f",
            "d2b9adbe4cceb2b521e5f06c660c6619a99b5fad02c1e5af86b56e8e0190ec91",
        ],
        Some(
            "5d745f2979be4db8e0cee23c76e261c7dd642f4181be807cef5b222c3d249eea8aef3941a4bb072775e4cf0bf1eae44c",
        ),
    ),
];

#[test]
fn quic_keys_by_sha_384() {
    for row in BY_SHA_384 {
        let secret = QuicSecret::new(row.0, Secret::aes_256_gcm(counted()));
        assert_eq!(secret.suite(), Suite::Aes256Gcm);
        is_quic_secret(&secret, row);
    }
}

/// RFC 9000 section 15 and RFC 9369 section 3.1.
#[test]
fn numbers_of_versions() {
    for (number, version) in [(1, Version::One), (0x6b3343cf, Version::Two)] {
        assert_eq!(version.number(), number);
        assert_eq!(Version::from_number(number), Some(version));
    }
    for number in [0, 2, 0x6b3343ce, 0xff00001d, u32::MAX] {
        assert_eq!(Version::from_number(number), None);
    }
}

/// RFC 7914 section 11: a password, a salt, a count of iterations, and 64 bytes of the key.
const RFC_7914: [(&str, &str, u32, &str); 2] = [
    (
        "passwd",
        "salt",
        1,
        "55ac046e56e3089fec1691c22544b605f94185216dde0465e68b9d57c20dacbc49ca9cccf179b645991664b39d77ef317c71b845b1e30bd509112041d3a19783",
    ),
    (
        "Password",
        "NaCl",
        80000,
        "4ddcd8f60b98be21830cee5ef22701f9641a4418d04c0414aeff08876b34ab56a1d425a1225833549adb841b51c9b3176a272bdebba1d078478f62b397f33c8d",
    ),
];

/// By python's `hashlib.pbkdf2_hmac`: the count of iterations, and 100 bytes of the key of `password` and `salt` by SHA-256.
const BY_HASHLIB: [(u32, &str); 3] = [
    (
        1,
        "120fb6cffcf8b32c43e7225256c4f837a86548c92ccc35480805987cb70be17b4dbf3a2f3dad3377264bb7b8e8330d4efc7451418617dabef683735361cdc18c22cd7fe60fa40e91c65849e1f60c0d8b62a7b2dbd0d3dfd75fb8498a5c2131ab02b66de5",
    ),
    (
        2,
        "ae4d0c95af6b46d32d0adff928f06dd02a303f8ef3c251dfd6e2d85a95474c43830651afcb5c862f0b249bd031f7a67520d136470f5ec271ece91c07773253d93e676b079cae1219a000f8b4b1a0a3ba5ea65902f57c39e37264af9e6ce4a282b44cd732",
    ),
    (
        1000,
        "632c2812e46d4604102ba7618e9d6d7d2f8128f6266b4a03264d2a0460b7dcb388b3b1131f741bcbeb02541c8c2e97bd8bed62ab6425542e45512b7312f440ebc6e21f4356a5edf32cf0394e0d5be940e0e930cfe21e38a3ff94e28d26c23fac7701ac92",
    ),
];

/// The same by SHA-384, after 2 iterations.
const BY_HASHLIB_SHA_384: &str = "54f775c6d790f21930459162fc535dbf04a939185127016a04176a0730c6f1f4fb48832ad1261baadd2cedd50814b1c806ad1bbf43ebdc9d047904bf7ceafe1ebeeba01a91d12a600a7606046edeaaae8d02e87146e3fc7f2fda3596dbbe6112ad599912";

/// Asserts the key of a password in each length up to that of `wanted`.
#[track_caller]
fn is_derived<H: Hash>(password: &str, salt: &str, count: u32, wanted: &str) {
    let lens = if count > 10 {
        vec![wanted.len() / 2]
    } else {
        (0..=wanted.len() / 2).collect()
    };
    for len in lens {
        let mut out = vec![7; len];
        let made = pbkdf2::<H>(password.as_bytes(), salt.as_bytes(), count, &mut out);
        assert_eq!(made, Ok(()));
        assert_eq!(out, hex::bytes(&wanted[..2 * len]), "{count} iterations");
    }
}

#[test]
fn pbkdf2_by_rfc_7914() {
    for (password, salt, count, wanted) in RFC_7914 {
        is_derived::<Sha256>(password, salt, count, wanted);
    }
}

#[test]
fn pbkdf2_by_hashlib() {
    for (count, wanted) in BY_HASHLIB {
        is_derived::<Sha256>("password", "salt", count, wanted);
    }
    is_derived::<Sha384>("password", "salt", 2, BY_HASHLIB_SHA_384);
}

/// A secret, a label, a context and a length, and the error by which HKDF-Expand-Label refuses them. The label is checked
/// first, and then the context.
const REFUSED_LABELS: [(usize, usize, usize, DerivationError); 6] = [
    (0, 256, 8161, DerivationError::LabelLength),
    (250, 256, 8161, DerivationError::LabelLength),
    (250, 0, 0, DerivationError::LabelLength),
    (249, 256, 8161, DerivationError::ContextLength),
    (1, 256, 0, DerivationError::ContextLength),
    (249, 255, 8161, DerivationError::TooLong),
];

#[test]
fn refused_labels_write_nothing() {
    let secret = Secret::aes_128_gcm([9; 32]);
    for (label, context, len, error) in REFUSED_LABELS {
        let (label, context) = (vec![1; label], vec![2; context]);
        let mut out = vec![7; len];
        let made = expand_label::<Sha256>(secret.as_slice(), &label, &context, &mut out);
        assert_eq!(made, Err(error));
        assert_eq!(secret.expand_label(&label, &context, &mut out), Err(error));
        assert!(out.iter().all(|byte| *byte == 7));
    }
}

#[test]
fn refused_outputs_write_nothing() {
    let mut out = vec![7; 255 * 32 + 1];
    let secret = Secret::aes_128_gcm([9; 32]);
    let kept = Expander::<Sha256>::new(b"prk");
    assert_eq!(secret.expand(b"", &mut out), Err(DerivationError::TooLong));
    assert_eq!(kept.expand(&[], &mut out), Err(DerivationError::TooLong));
    let made = pbkdf2::<Sha256>(b"password", b"salt", 0, &mut out);
    assert_eq!(made, Err(DerivationError::NoIterations));
    assert!(out.iter().all(|byte| *byte == 7));

    let mut by_secret = [0; 40];
    let mut by_function = [0; 40];
    assert_eq!(secret.expand(b"info", &mut by_secret), Ok(()));
    assert_eq!(
        expand::<Sha256>(&[9; 32], b"info", &mut by_function),
        Ok(())
    );
    assert_eq!(by_secret, by_function);
}

#[test]
fn refused_lengths_of_secrets_and_ids() {
    for (suite, right) in [(Suite::Aes128Gcm, 32), (Suite::Aes256Gcm, 48)] {
        for len in 0..=64 {
            let error = (len != right).then_some(DerivationError::SecretLength);
            assert_eq!(Secret::new(suite, &vec![0; len]).err(), error);
        }
    }
    for version in [Version::One, Version::Two] {
        for len in 0..=30 {
            let error = (len > 20).then_some(DerivationError::ConnectionIdLength);
            assert_eq!(
                QuicSecret::client_initial(version, &vec![0; len]).err(),
                error
            );
            assert_eq!(
                QuicSecret::server_initial(version, &vec![0; len]).err(),
                error
            );
        }
    }
    for (label, hash, error) in [
        (0, 31, DerivationError::LabelLength),
        (250, 32, DerivationError::LabelLength),
        (249, 31, DerivationError::TranscriptHashLength),
        (1, 48, DerivationError::TranscriptHashLength),
    ] {
        let derived = derive_secret::<Sha256>(b"secret", &vec![1; label], &vec![2; hash]);
        assert_eq!(derived, Err(error));
    }
}

#[test]
fn errors_say_what_is_wrong() {
    let texts = [
        (
            DerivationError::SecretLength,
            "the secret does not have the length of the suite's digests",
        ),
        (
            DerivationError::ConnectionIdLength,
            "the connection ID has more than 20 bytes",
        ),
        (
            DerivationError::LabelLength,
            "the label is empty or has more than 249 bytes",
        ),
        (
            DerivationError::ContextLength,
            "the context has more than 255 bytes",
        ),
        (
            DerivationError::TranscriptHashLength,
            "the hash of the messages does not have the length of a digest",
        ),
        (
            DerivationError::TooLong,
            "more bytes are asked for than the function gives",
        ),
        (
            DerivationError::NoIterations,
            "the count of iterations is 0",
        ),
    ];
    for (error, text) in texts {
        let error: &dyn std::error::Error = &error;
        assert_eq!(error.to_string(), text);
    }
}

#[test]
fn no_byte_is_printed() {
    let prints = |value: &dyn Debug, wanted: &str| {
        assert_eq!(
            format!("{value:?} {value:#?}"),
            format!("{wanted} {wanted}")
        );
    };
    let secret = Secret::aes_128_gcm([7; 32]);
    prints(&secret, "Secret { .. }");
    let keys = secret.record_keys();
    prints(&keys, "RecordKeys { .. }");
    prints(&keys.key, "AeadKeyBytes { .. }");
    let secret = QuicSecret::new(Version::One, secret);
    prints(&secret, "QuicSecret { .. }");
    prints(&secret.packet_keys(), "PacketKeys { .. }");
    let keys = secret.keys();
    prints(&keys, "QuicKeys { .. }");
    prints(&keys.header_key, "HeaderKeyBytes { .. }");
}

/// Returns the bytes that a value leaves in its memory when it is dropped.
fn left<T>(value: T) -> Vec<u8> {
    let mut place = MaybeUninit::new(value);
    // SAFETY: the place holds a value, which is dropped once. The volatile reads stay within the place. They may read padding,
    // of which the test only asks what the memory holds.
    unsafe {
        place.as_mut_ptr().drop_in_place();
        (0..size_of::<T>())
            .map(|at| place.as_ptr().cast::<u8>().add(at).read_volatile())
            .collect()
    }
}

/// Asserts that a dropped value leaves no two neighbors of its bytes.
#[track_caller]
fn is_wiped<T>(value: T, bytes: impl Fn(&T) -> &[u8]) {
    let pairs: Vec<_> = bytes(&value).windows(2).map(<[u8]>::to_vec).collect();
    assert!(pairs.len() >= 15);
    let left = left(value);
    let kept = left
        .windows(2)
        .filter(|pair| pairs.iter().any(|it| it == pair));
    assert_eq!(kept.count(), 0, "{left:02x?}");
}

#[test]
fn secrets_and_keys_are_wiped() {
    let short = || Secret::aes_128_gcm(counted().map(|byte| 0xa0 + byte));
    let long = || Secret::aes_256_gcm(counted().map(|byte| 0xa0 + byte));
    for secret in [short, long as fn() -> Secret] {
        is_wiped(secret(), Secret::as_slice);
        let secret_of_quic = QuicSecret::new(Version::One, secret());
        is_wiped(secret().record_keys().key, |key| key.as_slice());
        is_wiped(secret_of_quic.header_key(), |key| key.as_slice());
        is_wiped(secret_of_quic.packet_keys().key, |key| key.as_slice());
        is_wiped(secret_of_quic, QuicSecret::as_slice);
    }
}
