//! HKDF and HMAC of the AES-GCM suites of TLS 1.3: the key schedule of RFC 8448, and ring's provider beside it.

use deerlapse_rustls::with_deerlapse;
use rustls::crypto::ring::default_provider;
use rustls::crypto::tls13::{Hkdf, HkdfExpander, OkmBlock};
use rustls::crypto::CryptoProvider;
use rustls::CipherSuite;

const SUITES: [CipherSuite; 2] = [
    CipherSuite::TLS13_AES_128_GCM_SHA256,
    CipherSuite::TLS13_AES_256_GCM_SHA384,
];

fn hkdf(provider: &CryptoProvider, wanted: CipherSuite) -> &'static dyn Hkdf {
    let mut suites = provider.cipher_suites.iter();
    let suite = suites.find(|it| it.suite() == wanted);
    let suite = suite.and_then(|it| it.tls13()).expect("a suite of TLS 1.3");
    suite.hkdf_provider
}

fn hex(digits: &str) -> Vec<u8> {
    (0..digits.len())
        .step_by(2)
        .map(|i| u8::from_str_radix(&digits[i..i + 2], 16).expect("two hexadecimal digits"))
        .collect()
}

/// HKDF-Expand-Label with SHA-256, and an output of 32 bytes (RFC 8446 section 7.1).
fn derived(from: &dyn HkdfExpander, label: &str, hash: &str) -> OkmBlock {
    let label = format!("tls13 {label}");
    let hash = hex(hash);
    from.expand_block(&[
        &[0, 32, label.len() as u8],
        label.as_bytes(),
        &[hash.len() as u8],
        &hash,
    ])
}

// RFC 8448 section 3: each secret is derived from the one before it.
#[test]
fn derives_the_secrets_of_the_standard() {
    const OF_NOTHING: &str = "e3b0c44298fc1c149afbf4c8996fb92427ae41e4649b934ca495991b7852b855";
    const OF_HELLOS: &str = "860c06edc07858ee8e78f0e7428c58edd6b43f2ca3e6e95f02ed063cf0e1cad8";
    let hkdf = hkdf(&with_deerlapse(default_provider()), SUITES[0]);
    let early = hkdf.extract_from_zero_ikm(None);
    let salt = derived(&*early, "derived", OF_NOTHING);
    let shared = hex("8bd4054fb55b9d63fdfbacf9f04b9f0d35e6d63f537563efd46272900f89492d");
    let handshake = hkdf.extract_from_secret(Some(salt.as_ref()), &shared);
    let client = derived(&*handshake, "c hs traffic", OF_HELLOS);
    assert_eq!(
        client.as_ref(),
        hex("b3eddb126e067f35a780b3abf45e2d8f3b1a950738f52e9600746a0e27a55a21")
    );
    let server = derived(&*handshake, "s hs traffic", OF_HELLOS);
    assert_eq!(
        server.as_ref(),
        hex("b67b7d690cc16c4e75e54213cb2d37b4e9c912bcded9105d42befd59d391ad38")
    );
    let mut key = [0; 16];
    hkdf.expander_for_okm(&client)
        .expand_slice(&[b"\x00\x10\x09", b"tls13 ", b"key", b"\x00"], &mut key)
        .expect("a short output");
    assert_eq!(key.to_vec(), hex("dbfaa693d1762c5b666af5d950258d01"));
}

/// Asserts that two pseudorandom keys are the same, by what they expand to from an info in pieces.
fn expand_the_same(ours: &dyn HkdfExpander, theirs: &dyn HkdfExpander, info: &[&[u8]]) {
    let hash_len = theirs.hash_len();
    assert_eq!(ours.hash_len(), hash_len);
    let blocks = [ours, theirs].map(|it| it.expand_block(info));
    assert_eq!(blocks[0].as_ref(), blocks[1].as_ref());
    let longest = 255 * hash_len;
    for len in [0, 1, 12, hash_len, hash_len + 1, 100, longest] {
        let mut outputs = [vec![0; len], vec![0; len]];
        for (expander, output) in [ours, theirs].iter().zip(&mut outputs) {
            expander.expand_slice(info, output).expect("not too long");
        }
        assert_eq!(outputs[0], outputs[1]);
    }
    for expander in [ours, theirs] {
        let too_long = &mut vec![0; longest + 1];
        assert!(expander.expand_slice(info, too_long).is_err());
    }
}

#[test]
fn ring_derives_the_same() {
    let ring = default_provider();
    for suite in SUITES {
        let (ours, theirs) = (
            hkdf(&with_deerlapse(ring.clone()), suite),
            hkdf(&ring, suite),
        );
        for len in (0..70).chain([127, 128, 129, 300]) {
            let mut bytes = vec![0; 3 * len];
            ring.secure_random.fill(&mut bytes).expect("random bytes");
            let (salt, rest) = bytes.split_at(len);
            let (secret, info) = rest.split_at(len);
            let info = &[&info[..len / 3], &[], &info[len / 3..]];
            for salt in [None, Some(salt)] {
                let keys = [ours, theirs].map(|it| it.extract_from_secret(salt, secret));
                expand_the_same(&*keys[0], &*keys[1], info);
                let keys = [ours, theirs].map(|it| it.extract_from_zero_ikm(salt));
                expand_the_same(&*keys[0], &*keys[1], info);
                let okm = keys[1].expand_block(info);
                let keys = [ours, theirs].map(|it| it.expander_for_okm(&okm));
                expand_the_same(&*keys[0], &*keys[1], info);
            }
            let key = OkmBlock::new(&salt[..len.min(OkmBlock::MAX_LEN)]);
            let codes = [ours, theirs].map(|it| it.hmac_sign(&key, secret));
            assert_eq!(codes[0].as_ref(), codes[1].as_ref());
        }
    }
}

#[test]
#[should_panic(expected = "a block of another hash function")]
fn a_block_has_the_length_of_the_hash() {
    let provider = with_deerlapse(default_provider());
    hkdf(&provider, SUITES[0]).expander_for_okm(&OkmBlock::new(&[7; 48]));
}
