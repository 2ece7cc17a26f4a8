//! The calls of the packages: opening packets, reading records, deriving keys, and opening files.

use crate::marks::{assert_are_those, secret, secrets, told};
use deerlapse::aead::quic::{AES_128, AES_256, CHACHA20};
use deerlapse::aead::{AES_128_GCM, AES_256_GCM, Algorithm, quic};
use key_derivation::hash::{Sha256, Sha384};
use key_derivation::quic::{QuicSecret, Version};
use key_derivation::{Secret, Suite, hkdf, hmac, pbkdf2};
use quic_packets::{HeaderKey, PacketKey, numbers};
use records::{ContentType, Reader, RecordError, Writer};
use sealed_file::{FileError, FileKey, FileRandom, open_bytes, seal_bytes};
use std::fmt::Display;

const LENGTHS: [usize; 10] = [4, 15, 16, 17, 64, 65, 255, 256, 300, 1200];

/// How many openings compared a tag, how many records were authentic, and how many commitments of files were compared.
#[derive(Default)]
pub struct Counts {
    openings: usize,
    records: usize,
    commitments: usize,
}

impl Display for Counts {
    fn fmt(&self, f: &mut std::fmt::Formatter<'_>) -> std::fmt::Result {
        write!(f, "{} {} {}", self.openings, self.records, self.commitments)
    }
}

/// Returns a number that is no secret any more.
fn told_number(number: usize) -> usize {
    let bytes = told(&number.to_ne_bytes());
    usize::from_ne_bytes(bytes.try_into().expect("as many bytes"))
}

/// Makes all calls.
pub fn make() -> Counts {
    let mut counts = Counts::default();
    for (at, len) in LENGTHS.into_iter().enumerate() {
        for number_len in 1..=4 {
            let place = 1 + 8 * (at % 4);
            packet(&AES_128_GCM, &AES_128, place, number_len, len, &mut counts);
            packet(&AES_256_GCM, &AES_256, place, number_len, len, &mut counts);
            packet(&AES_256_GCM, &CHACHA20, place, number_len, len, &mut counts);
        }
        record(&AES_128_GCM, len, at, &mut counts);
        record(&AES_256_GCM, at % 2, len, &mut counts);
        keys(len);
        codes(len);
        file(len, &mut counts);
    }
    counts
}

fn packet_key(algorithm: &'static Algorithm) -> PacketKey {
    let key = secrets(algorithm.key_len());
    PacketKey::new(algorithm, &key, secret()).expect("a key of this length")
}

/// Seals packet 7, masks and unmasks its header, and opens it, with a false tag first.
fn packet(
    algorithm: &'static Algorithm,
    masks: &'static quic::Algorithm,
    number_at: usize,
    number_len: usize,
    len: usize,
    counts: &mut Counts,
) {
    let key = packet_key(algorithm);
    let header_key =
        HeaderKey::new(masks, &secrets(masks.key_len())).expect("a key of this length");
    let header_len = number_at + number_len;
    let mut packet = vec![0; header_len];
    packet[0] = 0x40 | (number_len as u8 - 1);
    packet[header_len - 1] = 7;
    packet.extend(secrets(len));
    packet.extend([0; 16]);
    key.seal(7, &mut packet, header_len).expect("a packet");
    header_key
        .protect(&mut packet, number_at)
        .expect("a sample");
    packet[0] = 0x40 | (packet[0] & 0x1f);
    let found = told_number(
        header_key
            .unprotect(&mut packet, number_at)
            .expect("a sample"),
    );
    let truncated = numbers::truncated(&packet, number_at, found);
    let number = told_number(numbers::decode(None, truncated, found) as usize) as u64;
    assert_eq!((found, number), (number_len, 7));
    for is_right in [false, true] {
        let mut bytes = packet.clone();
        let last = bytes.len() - 1;
        bytes[last] ^= u8::from(!is_right);
        let opened = key.open(number, &mut bytes, header_len);
        assert_eq!(opened.is_ok(), is_right);
        if is_right {
            assert_are_those(&bytes[header_len..][..len]);
        }
        counts.openings += 1;
    }
}

/// Writes a record and reads it, with a false tag first.
#[inline(never)]
fn record(algorithm: &'static Algorithm, len: usize, padding: usize, counts: &mut Counts) {
    let key = secrets(algorithm.key_len());
    let iv = secret();
    let mut writer = Writer::new(algorithm, &key, iv).expect("a key of this length");
    let mut record = Vec::new();
    let written = writer.write(
        ContentType::ApplicationData,
        &secrets(len),
        padding,
        &mut record,
    );
    written.expect("a record");
    for is_right in [false, true] {
        let mut reader = Reader::new(algorithm, &key, iv).expect("a key of this length");
        let mut bytes = record.clone();
        let last = bytes.len() - 1;
        bytes[last] ^= u8::from(!is_right);
        let is_authentic = match reader.read(&mut bytes) {
            Ok((content_type, content)) => {
                let wanted = ContentType::ApplicationData.code();
                assert_eq!(told(&[content_type.code()]), [wanted]);
                assert_eq!(told_number(content.len()), len);
                true
            }
            Err(error) => {
                assert_eq!(error, RecordError::Refused);
                false
            }
        };
        assert_eq!(is_authentic, is_right);
        if is_right {
            assert_are_those(&bytes[..len]);
            counts.records += 1;
        }
        counts.openings += 1;
    }
}

/// Derives keys of secrets and of passwords.
fn keys(len: usize) {
    let tls = Secret::new(Suite::Aes256Gcm, &secrets(48)).expect("48 bytes");
    tls.next_traffic().record_keys();
    let quic = QuicSecret::new(Version::One, Secret::aes_128_gcm(secret()));
    quic.next().keys();
    let prk = hkdf::extract::<Sha256>(&secrets(len), &secrets(len));
    let mut out = vec![0; len];
    hkdf::expand::<Sha256>(&prk, &secrets(len), &mut out).expect("a short output");
    hkdf::expand_label::<Sha384>(&secrets(48), b"label", &secrets(48), &mut out).expect("a label");
    hkdf::derive_secret::<Sha256>(&secrets(32), b"label", &secrets(32)).expect("a label");
    pbkdf2::pbkdf2::<Sha256>(&secrets(len), &secrets(16), 3, &mut out).expect("a short output");
}

/// Verifies authentication codes, which takes no branch.
fn codes(len: usize) {
    let key = hmac::HmacKey::<Sha384>::new(&secrets(len));
    let message = || {
        let mut hasher = key.start();
        key_derivation::hash::Hash::update(&mut hasher, secrets(len));
        hasher
    };
    let code = key.finish(message());
    for is_right in [false, true] {
        let mut code = code;
        code[47] ^= u8::from(!is_right);
        let verified = key.verify(message(), &code);
        assert_eq!(told(&[u8::from(verified)]), [u8::from(is_right)]);
    }
}

/// Seals a file and opens it, with a false tag and under another key too.
fn file(len: usize, counts: &mut Counts) {
    let bytes: [u8; 32] = secret();
    let key = FileKey::new(&bytes).expect("32 bytes");
    let random = FileRandom::from_bytes_for_tests([3; 19]);
    let mut sealed = Vec::new();
    seal_bytes(&key, random, &secrets(len), &mut sealed).expect("a sealed file");
    let mut out = Vec::new();
    open_bytes(&key, &sealed, &mut out).expect("the file");
    assert_are_those(&out);
    let last = sealed.len() - 1;
    sealed[last] ^= 1;
    let error = open_bytes(&key, &sealed, &mut out).unwrap_err();
    assert!(matches!(error, FileError::Refused(0)));
    // A false tag is compared once more, as that of a chunk that isn't the last.
    counts.openings += 3;
    let other = FileKey::new(&bytes.map(|byte| !byte)).expect("32 bytes");
    let error = open_bytes(&other, &sealed, &mut out).unwrap_err();
    assert!(matches!(error, FileError::WrongKey));
    counts.commitments += 3;
}
