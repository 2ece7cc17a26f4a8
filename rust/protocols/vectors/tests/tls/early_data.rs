//! Early data that a server has rejected (RFC 8446 section 4.2.10).

use std::error::Error;

use deerlapse::aead::AES_128_GCM;
use deerlapse_protocols_vectors::tls::{IV, KEY};
use records::ContentType::{ApplicationData, Handshake};
use records::{ContentType, EarlyData, Reader, RecordError, Writer};
use vectors::hex;

/// The client's first record under `KEY`, which `tools/read-records make` printed.
const FLIGHT: &str = "1703030016fb09cba2090d58e73c31563352433d33c8bfd9f986eb";

/// The lengths of contents of early data, each with one byte of padding; the bound; the server's size limit; and whether the last
/// of its records is passed over.
const SENT: [(&[usize], u32, usize, bool); 7] = [
    (&[0], 1, 16385, true),
    (&[0], 0, 16385, false),
    (&[59, 39], 100, 16385, true),
    (&[59, 39], 99, 16385, false),
    (&[199], 200, 64, true),
    (&[199], 199, 64, false),
    (&[16383, 16383], u32::MAX, 64, true),
];

/// Gathers a record past early data.
fn gather(
    reader: &mut Reader,
    early_data: &mut EarlyData,
    record: &mut [u8],
) -> Result<Option<(ContentType, usize)>, RecordError> {
    let end = record.len();
    reader.gather_past_early_data(early_data, record, 0, 0, end)
}

/// The same records are passed over with a key and, after a HelloRetryRequest, without.
#[test]
fn passed_over_up_to_the_bound() -> Result<(), Box<dyn Error>> {
    for (sent, bound, size_limit, is_passed) in SENT {
        let mut client = Writer::new(&AES_128_GCM, &[5; 16], IV)?;
        let mut reader = Reader::new(&AES_128_GCM, &KEY[..16], IV)?;
        reader.set_size_limit(size_limit)?;
        let mut early_data = EarlyData::rejected(bound);
        let mut without_key = EarlyData::rejected(bound);
        let mut record = Vec::new();
        for (at, len) in sent.iter().enumerate() {
            record.clear();
            client.write(ApplicationData, &vec![7; *len], 1, &mut record)?;
            let wanted = if is_passed || at + 1 < sent.len() {
                Ok(())
            } else {
                Err(RecordError::TooMuchEarlyData)
            };
            let before = record.clone();
            let read = gather(&mut reader, &mut early_data, &mut record);
            assert_eq!(read, wanted.map(|()| None));
            assert_eq!(without_key.skip(&record), wanted);
            assert_eq!(record, before);
            assert_eq!(early_data.remaining(), without_key.remaining());
        }
        assert_eq!((reader.number(), reader.is_closed()), (0, !is_passed));
        if is_passed {
            is_followed_by_a_flight(&mut reader, &mut early_data, &mut record);
        }
    }
    Ok(())
}

/// Asserts that the second flight is read after early data, which is then over.
fn is_followed_by_a_flight(reader: &mut Reader, early_data: &mut EarlyData, early: &mut [u8]) {
    assert!(!early_data.is_over());
    let read = gather(reader, early_data, &mut hex::bytes(FLIGHT));
    assert_eq!(read, Ok(Some((Handshake, 5))));
    assert!(early_data.is_over());
    let error = if early.len() - 21 > reader.size_limit() {
        RecordError::InnerPlaintextTooLong
    } else {
        RecordError::Refused
    };
    assert_eq!(gather(reader, early_data, early), Err(error));
    assert!(reader.is_closed());
    assert_eq!(early_data.skip(early), Err(RecordError::TooMuchEarlyData));
}

/// Bytes that are no early data, and the errors.
const OTHERS: [(&str, RecordError); 5] = [
    ("16030300020100", RecordError::UnexpectedRecord),
    (
        "1703030010fb09cba2090d58e73c31563352433d33",
        RecordError::EncryptedRecordTooShort,
    ),
    ("1703034101", RecordError::EncryptedRecordTooLong),
    (
        "1703030016fb09cba2090d58e73c31563352433d33c8bfd9f986",
        RecordError::WrongLength,
    ),
    ("17030300", RecordError::WrongLength),
];

#[test]
fn nothing_else_is_passed_over() -> Result<(), Box<dyn Error>> {
    for (text, error) in OTHERS {
        let mut bytes = hex::bytes(text);
        let mut early_data = EarlyData::rejected(1000);
        assert_eq!(early_data.skip(&bytes), Err(error));
        let mut reader = Reader::new(&AES_128_GCM, &KEY[..16], IV)?;
        assert_eq!(gather(&mut reader, &mut early_data, &mut bytes), Err(error));
        assert_eq!(hex::text(&bytes), text);
        assert_eq!(reader.is_closed(), error.alert().is_some());
        assert_eq!(early_data.remaining(), 1000);
        assert!(!early_data.is_over());
    }
    Ok(())
}
