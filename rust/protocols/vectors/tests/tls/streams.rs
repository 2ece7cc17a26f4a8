//! What streams begin with, and the records that are gathered from one.

use std::error::Error;

use deerlapse::aead::AES_128_GCM;
use deerlapse_protocols_vectors::tls::{IV, KEY};
use records::ContentType::ApplicationData;
use records::{Begins, Reader, RecordError, RecordKind, Writer, classify};
use vectors::hex;

const fn record(kind: RecordKind, len: usize) -> Result<Begins, RecordError> {
    Ok(Begins::Record(kind, len))
}

const fn more(len: usize) -> Result<Begins, RecordError> {
    Ok(Begins::MoreNeeded(len))
}

/// Bytes, and what they begin with (RFC 8446 sections 5, 5.1 and 5.2).
const BEGIN: [(&str, Result<Begins, RecordError>); 29] = [
    ("-", more(5)),
    ("16030100", more(5)),
    ("1603010002", more(7)),
    ("16030100020100", record(RecordKind::Handshake, 7)),
    ("1603030001ff1603", record(RecordKind::Handshake, 6)),
    ("1603034000", more(16389)),
    ("1603034001", Err(RecordError::PlaintextTooLong)),
    ("1603030000", Err(RecordError::UnexpectedRecord)),
    ("1503030002022e14", record(RecordKind::Alert, 7)),
    ("1503030003", Err(RecordError::UnexpectedRecord)),
    ("1503030000", Err(RecordError::UnexpectedRecord)),
    ("1403030001", more(6)),
    ("140303000101", record(RecordKind::ChangeCipherSpec, 6)),
    ("140303000102", Err(RecordError::UnexpectedRecord)),
    ("140301000101", record(RecordKind::ChangeCipherSpec, 6)),
    ("140304000102", Err(RecordError::UnexpectedRecord)),
    ("1403034001", Err(RecordError::PlaintextTooLong)),
    ("1503034001", Err(RecordError::PlaintextTooLong)),
    ("1803034001", Err(RecordError::PlaintextTooLong)),
    ("1803034000", Err(RecordError::UnexpectedRecord)),
    ("1403030002", Err(RecordError::UnexpectedRecord)),
    ("1703030011", more(22)),
    ("1703034011", more(16406)),
    ("1703034012", Err(RecordError::InnerPlaintextTooLong)),
    ("1703034101", Err(RecordError::EncryptedRecordTooLong)),
    ("1703030010", Err(RecordError::EncryptedRecordTooShort)),
    ("1703010011", Err(RecordError::UnexpectedRecord)),
    ("1803030003", Err(RecordError::UnexpectedRecord)),
    ("474554202f", Err(RecordError::UnexpectedRecord)),
];

#[test]
fn streams_begin_with_these() {
    for (text, wanted) in BEGIN {
        assert_eq!(classify(&hex::bytes(text)), wanted, "{text}");
    }
}

/// The contents of three records become one text, and the bytes after the records are unchanged.
#[test]
fn contents_are_gathered_in_one_buffer() -> Result<(), Box<dyn Error>> {
    let mut writer = Writer::new(&AES_128_GCM, &KEY[..16], IV)?;
    let mut bytes = Vec::new();
    for (content, padding) in [("to", 0), ("get", 5), ("her", 1)] {
        writer.write(ApplicationData, content.as_bytes(), padding, &mut bytes)?;
    }
    bytes.extend_from_slice(b"later");
    let mut reader = Reader::new(&AES_128_GCM, &KEY[..16], IV)?;
    for (filled, at, end, len) in [(0, 0, 24, 2), (2, 24, 54, 3), (5, 54, 80, 3)] {
        let read = reader.gather(&mut bytes, filled, at, end);
        assert_eq!(read, Ok((ApplicationData, len)));
    }
    assert!(bytes.starts_with(b"together") && bytes.ends_with(b"later"));
    assert_eq!(bytes.len(), 85);
    Ok(())
}
