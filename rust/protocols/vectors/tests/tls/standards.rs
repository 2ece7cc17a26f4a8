//! The records of RFC 8448 section 3.

use std::error::Error;

use deerlapse::aead::AES_128_GCM;
use key_derivation::Secret;
use records::{ContentType, HEADER_LEN, Reader, RecordKey, Writer, header_of};
use vectors::hex;

/// A record of RFC 8448: its secret, key, IV and number, and what it carries, without padding.
struct Vector {
    secret: [u8; 32],
    key: Vec<u8>,
    iv: [u8; 12],
    number: u64,
    content_type: ContentType,
    content: Vec<u8>,
    record: Vec<u8>,
}

impl Vector {
    fn secret(&self) -> Secret {
        Secret::aes_128_gcm(self.secret)
    }
}

fn content_type(code: &str) -> ContentType {
    [
        ContentType::Alert,
        ContentType::Handshake,
        ContentType::ApplicationData,
    ]
    .into_iter()
    .find(|it| it.code().to_string() == code)
    .expect("the type of a protected record")
}

fn array<const N: usize>(word: &str) -> [u8; N] {
    hex::bytes(word).try_into().expect("as many bytes")
}

/// Returns the records of the lines `record SECRET KEY IV NUMBER TYPE CONTENT PAYLOAD`.
fn rfc_8448_3() -> Vec<Vector> {
    include_str!("../../../../../dist/vectors/protocols.txt")
        .lines()
        .filter_map(|line| line.strip_prefix("record "))
        .map(|line| {
            let words: Vec<_> = line.split(' ').collect();
            let payload = hex::bytes(words[6]);
            Vector {
                secret: array(words[0]),
                key: hex::bytes(words[1]),
                iv: array(words[2]),
                number: words[3].parse().expect("a number"),
                content_type: content_type(words[4]),
                content: hex::bytes(words[5]),
                record: [&header_of(payload.len())[..], &payload].concat(),
            }
        })
        .collect()
}

/// Seals and opens a record in a buffer with so many bytes after it.
fn in_place(key: &RecordKey, it: &Vector, spare: usize) {
    let (len, record_len) = (it.content.len(), it.record.len());
    let mut bytes = vec![9; record_len + spare];
    bytes[HEADER_LEN..HEADER_LEN + len].copy_from_slice(&it.content);
    let sealed = key.seal_at(it.number, it.content_type, &mut bytes, len, 0);
    assert_eq!(sealed, Ok(record_len));
    assert_eq!(bytes, [&it.record[..], &vec![9; spare]].concat());
    let opened = key.open_at(it.number, &mut bytes[..record_len]);
    assert_eq!(opened, Ok((it.content_type, len)));
    assert_eq!(bytes[HEADER_LEN..HEADER_LEN + len], it.content);
}

/// The same without a header.
fn as_payload(key: &RecordKey, it: &Vector, spare: usize) {
    let (len, payload_len) = (it.content.len(), it.record.len() - HEADER_LEN);
    let mut payload = [&it.content[..], &vec![9; 17 + spare]].concat();
    let sealed = key.seal_payload(it.number, it.content_type, &mut payload, len, 0);
    assert_eq!(sealed, Ok(payload_len));
    let wanted = [&it.record[HEADER_LEN..], &vec![9; spare]].concat();
    assert_eq!(payload, wanted);
    let opened = key.open_payload(it.number, &mut payload[..payload_len]);
    assert_eq!(opened, Ok((it.content_type, len)));
    assert_eq!(payload[..len], it.content);
}

/// The same from one buffer to another.
fn to_another(key: &RecordKey, it: &Vector, spare: usize) {
    let (len, record_len) = (it.content.len(), it.record.len());
    let mut record = vec![9; record_len + spare];
    let sealed = key.seal_to(it.number, it.content_type, &it.content, 0, &mut record);
    assert_eq!(sealed, Ok(record_len));
    assert_eq!(record, [&it.record[..], &vec![9; spare]].concat());
    let mut content = vec![9; len + 1 + spare];
    let opened = key.open_to(it.number, &it.record, &mut content);
    assert_eq!(opened, Ok((it.content_type, len)));
    let inner = [&it.content[..], &[it.content_type.code()]].concat();
    assert_eq!(content, [&inner[..], &vec![9; spare]].concat());
}

#[test]
fn rfc_8448_3_by_number() -> Result<(), Box<dyn Error>> {
    let vectors = rfc_8448_3();
    assert_eq!(vectors.len(), 6);
    for it in vectors {
        let key = RecordKey::new(&AES_128_GCM, &it.key, it.iv)?;
        for spare in [0, 3] {
            in_place(&key, &it, spare);
            as_payload(&key, &it, spare);
            to_another(&key, &it, spare);
        }
    }
    Ok(())
}

/// A secret gives the key and the IV of its record (RFC 8446 section 7.3), under which a writer reaches the number.
#[test]
fn rfc_8448_3_by_secret() -> Result<(), Box<dyn Error>> {
    for it in rfc_8448_3() {
        let keys = it.secret().record_keys();
        assert_eq!(keys.key.as_slice(), it.key);
        assert_eq!(keys.iv, it.iv);

        let mut writer = Writer::from_secret(it.secret());
        let mut earlier = Vec::new();
        for _ in 0..it.number {
            writer.write(ContentType::ApplicationData, b"", 0, &mut earlier)?;
        }
        let mut record = Vec::new();
        writer.write(it.content_type, &it.content, 0, &mut record)?;
        assert_eq!(record, it.record);

        let mut reader = Reader::from_secret(it.secret()).starting_at(it.number);
        let read = reader.read(&mut record)?;
        assert_eq!(read, (it.content_type, &it.content[..]));
        assert_eq!(reader.number(), it.number + 1);
    }
    Ok(())
}
