//! Records by AES-256-GCM, beside those of rustls' provider over ring: each seals what the other opens, and both refuse the same.
//!
//! rustls makes keys of 16 bytes only in a handshake, so AES-128-GCM is tried by whole connections: `connections.rs`, and the
//! example `tls`.

use deerlapse::{nonce_of, LessSafeKey, Unspecified};
use rustls::crypto::cipher::{
    AeadKey, InboundOpaqueMessage, MessageDecrypter, MessageEncrypter, OutboundChunks,
    OutboundPlainMessage,
};
use rustls::crypto::ring::default_provider;
use rustls::crypto::CryptoProvider;
use rustls::{
    CipherSuite, ConnectionTrafficSecrets, ContentType, Error, PeerMisbehaved, ProtocolVersion,
    SupportedCipherSuite,
};

/// Both directions of a suite, under given keys.
struct Records {
    encrypter: Box<dyn MessageEncrypter>,
    decrypter: Box<dyn MessageDecrypter>,
    version: ProtocolVersion,
}

fn key() -> AeadKey {
    AeadKey::from([7; 32])
}

fn records(provider: CryptoProvider, wanted: CipherSuite) -> Records {
    let mut suites = provider.cipher_suites.into_iter();
    let suite = suites.find(|it| it.suite() == wanted);
    match suite.expect("the provider has the suite") {
        SupportedCipherSuite::Tls13(suite) => Records {
            encrypter: suite.aead_alg.encrypter(key(), [9; 12].into()),
            decrypter: suite.aead_alg.decrypter(key(), [9; 12].into()),
            version: ProtocolVersion::TLSv1_3,
        },
        SupportedCipherSuite::Tls12(suite) => Records {
            encrypter: suite.aead_alg.encrypter(key(), &[1; 4], &[2; 8]),
            decrypter: suite.aead_alg.decrypter(key(), &[1; 4]),
            version: ProtocolVersion::TLSv1_2,
        },
    }
}

impl Records {
    /// A whole record with a content, which comes in two pieces.
    fn seal(&mut self, number: u64, content: &[u8]) -> Result<Vec<u8>, Error> {
        let (first, second) = content.split_at(content.len() / 3);
        let pieces = [first, second];
        let message = OutboundPlainMessage {
            typ: ContentType::ApplicationData,
            version: self.version,
            payload: OutboundChunks::new(&pieces),
        };
        let len = self.encrypter.encrypted_payload_len(content.len());
        let record = self.encrypter.encrypt(message, number)?.encode();
        assert_eq!(record.len(), 5 + len);
        Ok(record)
    }

    /// The content of a record.
    fn open(&mut self, number: u64, record: &mut [u8]) -> Result<Vec<u8>, Error> {
        let record = InboundOpaqueMessage::new(
            ContentType::ApplicationData,
            ProtocolVersion::TLSv1_2,
            &mut record[5..],
        );
        let message = self.decrypter.decrypt(record, number)?;
        assert_eq!(message.typ, ContentType::ApplicationData);
        Ok(message.payload.to_vec())
    }
}

const SUITES: [CipherSuite; 3] = [
    CipherSuite::TLS13_AES_256_GCM_SHA384,
    CipherSuite::TLS_ECDHE_ECDSA_WITH_AES_256_GCM_SHA384,
    CipherSuite::TLS_ECDHE_RSA_WITH_AES_256_GCM_SHA384,
];

#[test]
fn each_opens_what_the_other_seals() -> Result<(), Error> {
    for suite in SUITES {
        let mut theirs = records(default_provider(), suite);
        let mut ours = records(deerlapse_rustls::with_deerlapse(default_provider()), suite);
        for (number, len) in (0..70).chain([1350, 1 << 14]).enumerate() {
            let number = number as u64 * 0x0123_4567_89ab;
            let content: Vec<u8> = (0..=u8::MAX).cycle().take(len).collect();
            let mut by_ours = ours.seal(number, &content)?;
            assert_eq!(by_ours, theirs.seal(number, &content)?);
            assert_eq!(theirs.open(number, &mut by_ours.clone())?, content);
            assert_eq!(ours.open(number, &mut by_ours)?, content);
        }
    }
    Ok(())
}

#[test]
fn other_records_are_refused() -> Result<(), Error> {
    for suite in SUITES {
        let mut ours = records(deerlapse_rustls::with_deerlapse(default_provider()), suite);
        let record = ours.seal(3, b"a content")?;
        assert_eq!(ours.open(4, &mut record.clone()), Err(Error::DecryptError));
        for at in 5..record.len() {
            let mut changed = record.clone();
            changed[at] ^= 0x40;
            assert_eq!(ours.open(3, &mut changed), Err(Error::DecryptError));
        }
        for len in 5..record.len() {
            let cut = &mut record[..len].to_vec();
            assert_eq!(ours.open(3, cut), Err(Error::DecryptError));
        }
    }
    Ok(())
}

// RFC 8446 section 5.2 and RFC 5246 section 6.2.3: record_overflow.
#[test]
fn a_content_above_the_limit_is_refused() -> Result<(), Error> {
    for suite in SUITES {
        let mut theirs = records(default_provider(), suite);
        let mut ours = records(deerlapse_rustls::with_deerlapse(default_provider()), suite);
        let mut record = theirs.seal(0, &[0; (1 << 14) + 1])?;
        assert_eq!(
            ours.open(0, &mut record),
            Err(Error::PeerSentOversizedRecord)
        );
    }
    Ok(())
}

/// A record of TLS 1.3 with a plaintext, which no provider would seal: a content, its type and zeros.
fn record_of(number: u64, plaintext: &[u8]) -> Result<Vec<u8>, Unspecified> {
    let [high, low] = (plaintext.len() as u16 + 16).to_be_bytes();
    let (header, mut payload) = ([23, 3, 3, high, low], plaintext.to_vec());
    let nonce = nonce_of(&[9; 12], number);
    let tag =
        LessSafeKey::new(&[7; 32])?.seal_in_place_separate_tag(nonce, &header, &mut payload)?;
    Ok([header.as_slice(), &payload, &tag].concat())
}

/// A content, its type, and zeros up to a length.
fn padded(content_len: usize, len: usize) -> Vec<u8> {
    let mut plaintext = vec![0; len];
    plaintext[..content_len].fill(1);
    plaintext[content_len] = ContentType::ApplicationData.into();
    plaintext
}

// RFC 8446 sections 5.2 and 5.4. A payload has 16 bytes more than its plaintext, and at most 2^14 + 256.
#[test]
fn faults_are_those_of_rings_provider() -> Result<(), Unspecified> {
    const MAX: usize = 1 << 14;
    let misbehaves = || Err(PeerMisbehaved::IllegalTlsInnerPlaintext.into());
    let mut cases = vec![
        (vec![0; MAX + 2], Err(Error::PeerSentOversizedRecord)),
        (padded(MAX, MAX + 1), Ok(vec![1; MAX])),
        (padded(9, MAX + 1), Ok(vec![1; 9])),
        (padded(0, 1), Ok(vec![])),
    ];
    cases.extend([0, 1, 2, 100, MAX, MAX + 1].map(|len| (vec![0; len], misbehaves())));
    for len in [MAX + 2, MAX + 240, MAX + 241, MAX + 2000] {
        for content_len in [0, 9, len - 1] {
            let plaintext = padded(content_len, len);
            cases.push((plaintext, Err(Error::PeerSentOversizedRecord)));
        }
    }

    let mut theirs = records(default_provider(), SUITES[0]);
    let mut ours = records(
        deerlapse_rustls::with_deerlapse(default_provider()),
        SUITES[0],
    );
    for (number, (plaintext, wanted)) in (0..).zip(cases) {
        let record = record_of(number, &plaintext)?;
        assert_eq!(theirs.open(number, &mut record.clone()), wanted);
        assert_eq!(ours.open(number, &mut record.clone()), wanted);
        for at in [5, record.len() - 1] {
            let mut changed = record.clone();
            changed[at] ^= 1;
            let opened = ours.open(number, &mut changed);
            assert_eq!(opened, Err(Error::DecryptError), "{} bytes", record.len());
        }
    }
    Ok(())
}

#[test]
fn a_caller_may_take_the_keys() {
    let suites = deerlapse_rustls::with_deerlapse(default_provider()).cipher_suites;
    for suite in suites.iter().filter(|it| SUITES.contains(&it.suite())) {
        let (secrets, nonce) = match suite {
            SupportedCipherSuite::Tls13(it) => {
                (it.aead_alg.extract_keys(key(), [9; 12].into()), [9; 12])
            }
            SupportedCipherSuite::Tls12(it) => (
                it.aead_alg.extract_keys(key(), &[1; 4], &[2; 8]),
                [1, 1, 1, 1, 2, 2, 2, 2, 2, 2, 2, 2],
            ),
        };
        let Ok(ConnectionTrafficSecrets::Aes256Gcm { key, iv }) = secrets else {
            panic!("not the keys of AES-256-GCM");
        };
        assert_eq!((key.as_ref(), iv.as_ref()), (&[7; 32][..], &nonce[..]));
    }
}

/// Where the parts of a suite are: those that an AES-GCM suite has of `deerlapse`, and what else it has.
fn parts(suite: &SupportedCipherSuite) -> (Vec<*const ()>, Vec<*const ()>) {
    match suite {
        SupportedCipherSuite::Tls13(it) => (
            vec![
                ptr(it.aead_alg),
                ptr(it.quic.expect("for QUIC too")),
                ptr(it.hkdf_provider),
            ],
            vec![ptr(it.common.hash_provider)],
        ),
        SupportedCipherSuite::Tls12(it) => (
            vec![ptr(it.aead_alg)],
            vec![ptr(it.common.hash_provider), ptr(it.prf_provider)],
        ),
    }
}

fn ptr<T: ?Sized>(part: &T) -> *const () {
    std::ptr::from_ref(part).cast()
}

#[test]
fn the_rest_is_the_providers() {
    let (theirs, ours) = (
        default_provider(),
        deerlapse_rustls::with_deerlapse(default_provider()),
    );
    assert_eq!(ours.cipher_suites, theirs.cipher_suites);
    for (ours, theirs) in ours.cipher_suites.iter().zip(&theirs.cipher_suites) {
        let limit = |suite: &SupportedCipherSuite| match suite {
            SupportedCipherSuite::Tls13(it) => it.common.confidentiality_limit,
            SupportedCipherSuite::Tls12(it) => it.common.confidentiality_limit,
        };
        assert_eq!(limit(ours), limit(theirs));
        let is_gcm = format!("{:?}", ours.suite()).contains("_GCM_");
        let ((replaced, rest), (their_replaced, their_rest)) = (parts(ours), parts(theirs));
        assert_eq!(rest, their_rest);
        for (part, theirs) in replaced.iter().zip(&their_replaced) {
            assert_eq!(part != theirs, is_gcm, "{:?}", ours.suite());
        }
    }
}
