//! Records of drawn contents beside a plain model of RFC 8446 sections 5.2 to 5.4.

use std::error::Error;

use deerlapse::aead::{AES_128_GCM, AES_256_GCM, Algorithm};
use records::ContentType::{ApplicationData, Handshake};
use records::{Begins, ContentType, Reader, RecordKind, Writer, classify};
use vectors::drawn::Drawn;
use vectors::model::{Aes, gcm_crypted, gcm_tag};

/// A key and an IV, as a plain model has them.
struct Model {
    aes: Aes,
    iv: [u8; 12],
}

impl Model {
    /// Returns the record of a content under this number.
    fn record(&self, number: u64, content_type: u8, content: &[u8], padding: usize) -> Vec<u8> {
        let mut nonce = self.iv;
        for (byte, of_number) in nonce[4..].iter_mut().zip(number.to_be_bytes()) {
            *byte ^= of_number;
        }
        let inner = [content, &[content_type], &vec![0; padding]].concat();
        let [.., high, low] = (inner.len() + 16).to_be_bytes();
        let header = [23, 3, 3, high, low];
        let ciphertext = gcm_crypted(&self.aes, nonce, &inner);
        let tag = gcm_tag(&self.aes, nonce, &header, &ciphertext);
        [&header[..], &ciphertext, &tag].concat()
    }

    /// Returns the records of a content, each with at most this many bytes of it.
    fn records(&self, content_type: u8, content: &[u8], padding: usize, room: usize) -> Vec<u8> {
        if content.is_empty() {
            return self.record(0, content_type, content, padding);
        }
        content
            .chunks(room)
            .zip(0..)
            .flat_map(|(piece, number)| self.record(number, content_type, piece, padding))
            .collect()
    }
}

/// A drawn content: the key that seals it, its size limit, and how it is padded.
struct Case {
    algorithm: &'static Algorithm,
    key: Vec<u8>,
    iv: [u8; 12],
    size_limit: usize,
    content_type: ContentType,
    content: Vec<u8>,
    padding: usize,
}

impl Case {
    fn drawn(drawn: &mut Drawn) -> Self {
        let (algorithm, key_len) = [(&AES_128_GCM, 16), (&AES_256_GCM, 32)][drawn.below(2)];
        let size_limit = 64 + drawn.below(200);
        let is_data = drawn.below(2) == 0;
        let shortest = if is_data { 0 } else { 1 };
        let content_len = shortest + drawn.below(600);
        Case {
            algorithm,
            key: drawn.bytes(key_len),
            iv: drawn.array(),
            size_limit,
            content_type: if is_data { ApplicationData } else { Handshake },
            content: drawn.bytes(content_len),
            padding: drawn.below(size_limit - 1),
        }
    }

    fn writer(&self) -> Result<Writer, Box<dyn Error>> {
        let mut writer = Writer::new(self.algorithm, &self.key, self.iv)?;
        writer.set_size_limit(self.size_limit)?;
        Ok(writer)
    }

    fn records(&self) -> Vec<u8> {
        let model = Model {
            aes: Aes::new(&self.key),
            iv: self.iv,
        };
        let room = self.size_limit - 1 - self.padding;
        model.records(self.content_type.code(), &self.content, self.padding, room)
    }
}

/// Reads records, and returns what they carry.
fn contents(reader: &mut Reader, bytes: &mut [u8]) -> Result<Vec<u8>, Box<dyn Error>> {
    let (mut filled, mut at) = (0, 0);
    while let Begins::Record(RecordKind::Protected, len) = classify(&bytes[at..])? {
        filled += reader.gather(bytes, filled, at, at + len)?.1;
        at += len;
    }
    assert_eq!(at, bytes.len());
    Ok(bytes[..filled].to_vec())
}

/// Seals the content of a case in a slice with so many bytes after the records, and returns these and the next number.
fn sealed(case: &Case, wanted: &[u8], spare: usize) -> Result<(Vec<u8>, u64), Box<dyn Error>> {
    let mut writer = case.writer()?;
    let mut out = vec![9; wanted.len() + spare];
    let len = writer.seal_content(case.content_type, &case.content, case.padding, &mut out)?;
    assert_eq!(len, wanted.len());
    assert_eq!(out.split_off(len), vec![9; spare]);
    Ok((out, writer.number()))
}

#[test]
fn records_are_those_of_the_model() -> Result<(), Box<dyn Error>> {
    let drawn = &mut Drawn::new(7);
    for _ in 0..300 {
        let case = Case::drawn(drawn);
        let wanted = case.records();
        let mut writer = case.writer()?;
        let mut appended = vec![5; drawn.below(3)];
        let before = appended.clone();
        writer.write_content(
            case.content_type,
            &case.content,
            case.padding,
            &mut appended,
        )?;
        assert_eq!(appended, [&before[..], &wanted].concat());

        for spare in [0, 2] {
            let (mut records, number) = sealed(&case, &wanted, spare)?;
            assert_eq!((&records, number), (&wanted, writer.number()));
            let mut reader = Reader::new(case.algorithm, &case.key, case.iv)?;
            reader.set_size_limit(case.size_limit)?;
            assert_eq!(contents(&mut reader, &mut records)?, case.content);
            assert_eq!(reader.number(), number);
        }
    }
    Ok(())
}

/// Each bit of a record is under its tag or in its header.
#[test]
fn every_flipped_bit_is_refused() -> Result<(), Box<dyn Error>> {
    let case = Case::drawn(&mut Drawn::new(3));
    let mut record = Vec::new();
    case.writer()?
        .write(case.content_type, b"hello", 3, &mut record)?;
    for bit in 0..8 * record.len() {
        let mut changed = record.clone();
        changed[bit / 8] ^= 1 << (bit % 8);
        let before = changed.clone();
        let mut reader = Reader::new(case.algorithm, &case.key, case.iv)?;
        assert!(reader.read(&mut changed).is_err(), "bit {bit}");
        assert_eq!(changed, before);
        assert_eq!(reader.number(), 0);
    }
    Ok(())
}
