//! Calls that are refused and change nothing, records that are rejected, and the text and the alert of each error.

use std::error::Error;

use deerlapse::aead::{AES_128_GCM, AES_256_GCM};
use deerlapse_protocols_vectors::tls::{IV, KEY, client_secret};
use records::ContentType::{Alert, ApplicationData, Handshake};
use records::connection::ReceiveError;
use records::{
    AlertDescription, CLOSE_NOTIFY, ContentType, MAX_CONTENT_LEN, Reader, RecordError, RecordKey,
    Side, Writer, fatal_alert, last_nonzero, plaintext_alert, write_type_and_padding,
};
use tls_messages::MessageError;
use vectors::hex;

fn reader() -> Reader {
    Reader::new(&AES_128_GCM, &KEY[..16], IV).expect("a key of its length")
}

/// Returns a writer with a size limit of 64 bytes that has written one record of so many.
fn writer(limit: u64) -> Writer {
    let mut writer = Writer::new(&AES_128_GCM, &KEY[..16], IV)
        .expect("a key of its length")
        .with_limit(limit);
    let written = writer
        .set_size_limit(64)
        .and_then(|()| writer.write(ApplicationData, b"first", 0, &mut Vec::new()));
    written.expect("a first record");
    writer
}

/// A call of a writer, with a `Vec` of 16 bytes.
type Call = fn(&mut Writer, &mut Vec<u8>) -> Result<(), RecordError>;

/// How many records the writer may write, and a call that it refuses.
const REFUSED_CALLS: [(u64, Call, RecordError); 25] = [
    (2, |it, _| it.set_size_limit(63), RecordError::SizeLimit),
    (2, |it, _| it.set_size_limit(16386), RecordError::SizeLimit),
    (2, |it, _| it.update(), RecordError::NoSecret),
    (
        2,
        |it, _| it.update_with(&KEY[..16], IV),
        RecordError::SameKey,
    ),
    (2, |it, _| it.update_with(&KEY, IV), RecordError::KeyLength),
    (
        2,
        |it, _| it.update_with(&[], [7; 12]),
        RecordError::KeyLength,
    ),
    (
        2,
        |it, out| it.write(ApplicationData, &[7; 64], 0, out),
        RecordError::ContentTooLong,
    ),
    (
        2,
        |it, out| it.write(ApplicationData, &[7; 3], 61, out),
        RecordError::ContentTooLong,
    ),
    (
        2,
        |it, out| it.write(ApplicationData, &[], usize::MAX, out),
        RecordError::ContentTooLong,
    ),
    (
        2,
        |it, out| it.write(Alert, &[], 0, out),
        RecordError::EmptyContent,
    ),
    (
        2,
        |it, out| it.write(Handshake, &[], 3, out),
        RecordError::EmptyContent,
    ),
    (
        2,
        |it, out| it.write(Alert, &[1], 0, out),
        RecordError::AlertLength,
    ),
    (
        2,
        |it, out| it.write(Alert, &[1, 2, 3], usize::MAX, out),
        RecordError::AlertLength,
    ),
    (
        1,
        |it, out| it.write(ApplicationData, &[], 0, out),
        RecordError::KeyUsedUp,
    ),
    (1, |it, out| it.close_notify(out), RecordError::KeyUsedUp),
    (
        2,
        |it, out| it.write_content(ApplicationData, &[7; 64], 0, out),
        RecordError::KeyUsedUp,
    ),
    (
        1,
        |it, out| it.write_content(ApplicationData, &[], 0, out),
        RecordError::KeyUsedUp,
    ),
    (
        2,
        |it, out| it.write_content(ApplicationData, &[7], 63, out),
        RecordError::ContentTooLong,
    ),
    (
        2,
        |it, out| it.write_content(Alert, &[1, 0], 62, out),
        RecordError::ContentTooLong,
    ),
    (
        2,
        |it, out| it.write_content(Alert, &[1; 4], 0, out),
        RecordError::AlertLength,
    ),
    (
        2,
        |it, out| it.write_content(Handshake, &[], 0, out),
        RecordError::EmptyContent,
    ),
    (
        2,
        |it, out| it.seal(ApplicationData, out, 3, 0).map(drop),
        RecordError::NoRoom,
    ),
    (
        1,
        |it, out| it.seal(ApplicationData, out, 3, 0).map(drop),
        RecordError::KeyUsedUp,
    ),
    (
        2,
        |it, out| it.seal_content(Alert, &[1, 0], 0, out).map(drop),
        RecordError::NoRoom,
    ),
    (
        2,
        |it, out| it.seal_content(Handshake, &[7; 64], 0, out).map(drop),
        RecordError::KeyUsedUp,
    ),
];

/// Returns the record that a writer writes next, or why it writes none.
fn next_record(writer: &mut Writer) -> Result<Vec<u8>, RecordError> {
    let mut out = Vec::new();
    writer.write(Handshake, b"next", 0, &mut out)?;
    Ok(out)
}

#[test]
fn a_refused_call_of_a_writer_changes_nothing() {
    for (at, (limit, call, error)) in REFUSED_CALLS.into_iter().enumerate() {
        let mut writer = writer(limit);
        let mut out = vec![9; 16];
        assert_eq!(call(&mut writer, &mut out), Err(error), "call {at}");
        assert_eq!(out, [9; 16], "call {at}");
        assert_eq!(
            (writer.number(), writer.limit(), writer.size_limit()),
            (1, limit, 64)
        );
        let wanted = next_record(&mut self::writer(limit));
        assert_eq!(next_record(&mut writer), wanted, "call {at}");
    }
}

/// A writer takes its key under another IV, from number 0 on.
#[test]
fn a_writer_refuses_its_own_key_and_iv() -> Result<(), RecordError> {
    for (algorithm, key) in [(&AES_128_GCM, &KEY[..16]), (&AES_256_GCM, &KEY)] {
        let mut writer = Writer::new(algorithm, key, IV)?;
        let first = next_record(&mut writer)?;
        assert_eq!(writer.update_with(key, IV), Err(RecordError::SameKey));
        assert_eq!(writer.number(), 1);
        writer.update_with(key, [7; 12])?;
        assert_eq!(writer.number(), 0);
        assert_ne!(next_record(&mut writer)?, first);
        writer.update_with(key, IV)?;
        assert_eq!(next_record(&mut writer)?, first);
    }
    Ok(())
}

/// A writer and a reader of a secret take no key.
#[test]
fn a_secret_gives_the_keys() -> Result<(), RecordError> {
    let (mut writer, mut reader) = (
        Writer::from_secret(client_secret()),
        Reader::from_secret(client_secret()),
    );
    for key in [&KEY[..16], &KEY, &[]] {
        assert_eq!(
            writer.update_with(key, [1; 12]),
            Err(RecordError::HasSecret)
        );
        assert_eq!(
            reader.update_with(key, [1; 12]),
            Err(RecordError::HasSecret)
        );
    }
    let read = reader.read(&mut next_record(&mut writer)?)?.0;
    assert_eq!(read, Handshake);
    Ok(())
}

/// A call of a reader.
type ReaderCall = fn(&mut Reader) -> Result<(), RecordError>;

const REFUSED_BY_A_READER: [(ReaderCall, RecordError); 5] = [
    (|it| it.set_size_limit(63), RecordError::SizeLimit),
    (|it| it.set_size_limit(16386), RecordError::SizeLimit),
    (|it| it.update(), RecordError::NoSecret),
    (|it| it.update_with(&KEY, IV), RecordError::KeyLength),
    (
        |it| it.read(&mut [23, 3, 3, 0]).map(drop),
        RecordError::WrongLength,
    ),
];

#[test]
fn a_refused_call_of_a_reader_changes_nothing() -> Result<(), RecordError> {
    for (at, (call, error)) in REFUSED_BY_A_READER.into_iter().enumerate() {
        let mut reader = reader();
        assert_eq!(call(&mut reader), Err(error), "call {at}");
        assert_eq!((reader.number(), reader.size_limit()), (0, 16385));
        assert!(!reader.is_closed());
        let record = &mut hex::bytes("1703030016fb09cba2090d58e73c31563352433d33c8bfd9f986eb");
        assert_eq!(reader.read(record)?, (Handshake, &b"hello"[..]));
    }
    Ok(())
}

/// Bytes that are no record under `KEY` of number 0, and the errors.
const REJECTED: [(&str, RecordError); 11] = [
    ("17030300", RecordError::WrongLength),
    (
        "1603030016fb09cba2090d58e73c31563352433d33c8bfd9f986eb",
        RecordError::UnexpectedRecord,
    ),
    (
        "1703010016fb09cba2090d58e73c31563352433d33c8bfd9f986eb",
        RecordError::UnexpectedRecord,
    ),
    (
        "1703030016fb09cba2090d58e73c31563352433d33c8bfd9f986",
        RecordError::WrongLength,
    ),
    (
        "1703030016fb09cba2090d58e73c31563352433d33c8bfd9f986eb00",
        RecordError::WrongLength,
    ),
    (
        "1703030010fb09cba2090d58e73c31563352433d33",
        RecordError::EncryptedRecordTooShort,
    ),
    ("1703034012", RecordError::InnerPlaintextTooLong),
    ("1703034100", RecordError::InnerPlaintextTooLong),
    ("1703034101", RecordError::EncryptedRecordTooLong),
    (
        "1703030011d67694b177740aedfba37ae58563153ae0",
        RecordError::Refused,
    ),
    (
        "1703030016fa09cba2090d58e73c31563352433d33c8bfd9f986eb",
        RecordError::Refused,
    ),
];

/// Authentic records under `KEY` of number 0, which `tools/read-records make` printed, their inner plaintexts, and the errors.
const AUTHENTIC: [(&str, &[u8], RecordError); 9] = [
    (
        "1703030014936ca7ce192ea8e21527108e19c356659790e9ef",
        &[0; 4],
        RecordError::NoContentType,
    ),
    (
        "1703030012927855ce3e6fca0400ecab73879ada8bf18d",
        &[1, 20],
        RecordError::UnexpectedType,
    ),
    (
        "17030300149493a7ce406f9de28c94b3020b3588fb6b1befeb",
        &[7, 255, 0, 0],
        RecordError::UnexpectedType,
    ),
    (
        "17030300129274eda2910aa7d6043aef978dc9e26bbe0b",
        &[1, 24],
        RecordError::UnexpectedType,
    ),
    (
        "17030300118b75f04452a3e4bce16217c28a63365a24",
        &[24],
        RecordError::UnexpectedType,
    ),
    (
        "170303001186304669f65d9f79d56ee3e208948883b4",
        &[21],
        RecordError::EmptyContent,
    ),
    (
        "1703030013856ca797d99d54caac2c7ae05a4f47ccf7dce0",
        &[22, 0, 0],
        RecordError::EmptyContent,
    ),
    (
        "17030300129179f7ecfe7c77a94a6ee299ed27588fe16c",
        &[2, 21],
        RecordError::AlertLength,
    ),
    (
        "1703030015915ea7db66700ca14be09c26340c114dd82afd3ef6",
        &[2, 50, 0, 21, 0],
        RecordError::AlertLength,
    ),
];

/// Returns the records that are rejected, each with what its buffer then begins with in place of its first bytes.
fn rejected() -> impl Iterator<Item = (Vec<u8>, &'static [u8], RecordError)> {
    REJECTED
        .into_iter()
        .map(|(record, error)| (record, &[][..], error))
        .chain(AUTHENTIC)
        .map(|(record, inner, error)| (hex::bytes(record), inner, error))
}

/// Returns bytes that are the old ones but for these at `at`.
fn with(bytes: &[u8], at: usize, new: &[u8]) -> Vec<u8> {
    let mut bytes = bytes.to_vec();
    bytes[at..at + new.len()].copy_from_slice(new);
    bytes
}

/// An error that has an alert closes the reader, after which each call fails.
#[test]
fn a_rejected_record_closes_the_reader() {
    for (record, inner, error) in rejected() {
        let mut reader = reader();
        let mut bytes = record.clone();
        assert_eq!(reader.read(&mut bytes), Err(error));
        assert_eq!(bytes, with(&record, 0, inner), "{error}");
        assert_eq!((reader.number(), reader.size_limit()), (0, 16385));
        assert_eq!(reader.is_closed(), error.alert().is_some(), "{error}");
        if !reader.is_closed() {
            continue;
        }
        let closed = Err(RecordError::Closed);
        assert_eq!(reader.read(&mut bytes).map(drop), closed);
        assert_eq!(reader.update(), closed);
        assert_eq!(reader.update_with(&KEY[..16], IV), closed);
        assert_eq!(reader.set_size_limit(64), closed);
        assert_eq!(bytes, with(&record, 0, inner), "{error}");
    }
}

#[test]
fn a_key_rejects_a_record_in_place_and_to_another_buffer() -> Result<(), RecordError> {
    let key = RecordKey::new(&AES_128_GCM, &KEY[..16], IV)?;
    for (record, inner, error) in rejected() {
        let mut bytes = record.clone();
        assert_eq!(key.open_at(0, &mut bytes), Err(error));
        assert_eq!(bytes, with(&record, 5.min(record.len()), inner), "{error}");
        let mut out = [9; 32];
        assert_eq!(key.open_to(0, &record, &mut out), Err(error));
        assert_eq!(out[..], with(&[9; 32], 0, inner), "{error}");
    }
    for (record, inner, error) in AUTHENTIC {
        let mut payload = hex::bytes(record).split_off(5);
        let before = payload.clone();
        assert_eq!(key.open_payload(0, &mut payload), Err(error));
        assert_eq!(payload, with(&before, 0, inner), "{error}");
    }
    Ok(())
}

/// The lengths of payloads, and why each is rejected.
const PAYLOAD_LENGTHS: [(usize, RecordError); 5] = [
    (0, RecordError::EncryptedRecordTooShort),
    (16, RecordError::EncryptedRecordTooShort),
    (17, RecordError::Refused),
    (16402, RecordError::InnerPlaintextTooLong),
    (16641, RecordError::EncryptedRecordTooLong),
];

#[test]
fn a_key_rejects_payloads_of_other_lengths() -> Result<(), RecordError> {
    let key = RecordKey::new(&AES_128_GCM, &KEY[..16], IV)?;
    for (len, error) in PAYLOAD_LENGTHS {
        let mut payload = vec![7; len];
        assert_eq!(key.open_payload(0, &mut payload), Err(error));
        assert_eq!(payload, vec![7; len]);
    }
    Ok(())
}

/// A buffer that is one byte too short for a record of `last`, or for its inner plaintext, is unchanged.
#[test]
fn a_key_writes_nothing_where_there_is_no_room() -> Result<(), RecordError> {
    let key = RecordKey::new(&AES_128_GCM, &KEY[..16], IV)?;
    let no_room = Err(RecordError::NoRoom);
    let mut bytes = [9; 25];
    assert_eq!(key.seal_at(0, ApplicationData, &mut bytes, 4, 0), no_room);
    assert_eq!(
        key.seal_to(0, ApplicationData, b"last", 0, &mut bytes),
        no_room
    );
    assert_eq!(
        key.seal_payload(0, ApplicationData, &mut bytes[..20], 4, 0),
        no_room
    );
    let mut record = [0; 26];
    key.seal_to(0, ApplicationData, b"last", 0, &mut record)?;
    let opened = key.open_to(0, &record, &mut bytes[..4]).map(|read| read.1);
    assert_eq!(opened, no_room);
    assert_eq!(bytes, [9; 25]);
    Ok(())
}

#[test]
fn a_key_has_the_length_of_its_algorithm() {
    let refused = Some(RecordError::KeyLength);
    assert_eq!(Writer::new(&AES_256_GCM, &KEY[..16], IV).err(), refused);
    assert_eq!(Reader::new(&AES_128_GCM, &KEY, IV).err(), refused);
    assert_eq!(RecordKey::new(&AES_128_GCM, &[], IV).err(), refused);
}

/// The size limit of both ends, the length and the padding of a content, and why it isn't written.
const LONGEST: [(usize, usize, usize, Option<RecordError>); 8] = [
    (16385, MAX_CONTENT_LEN, 0, None),
    (16385, 0, MAX_CONTENT_LEN, None),
    (
        16385,
        MAX_CONTENT_LEN + 1,
        0,
        Some(RecordError::ContentTooLong),
    ),
    (16385, MAX_CONTENT_LEN, 1, Some(RecordError::ContentTooLong)),
    (64, 63, 0, None),
    (64, 3, 60, None),
    (64, 64, 0, Some(RecordError::ContentTooLong)),
    (64, 3, 61, Some(RecordError::ContentTooLong)),
];

/// The size limits stay over a key update.
#[test]
fn records_have_at_most_their_size_limit() -> Result<(), Box<dyn Error>> {
    for (size_limit, len, padding, refused) in LONGEST {
        let (mut writer, mut reader) = (
            Writer::from_secret(client_secret()),
            Reader::from_secret(client_secret()),
        );
        writer.set_size_limit(size_limit)?;
        reader.set_size_limit(size_limit)?;
        writer.update()?;
        reader.update()?;
        let content = vec![7; len];
        let mut record = Vec::new();
        let written = writer.write(ApplicationData, &content, padding, &mut record);
        assert_eq!(written.err(), refused);
        if refused.is_none() {
            assert_eq!(reader.read(&mut record)?, (ApplicationData, &content[..]));
        }
    }
    Ok(())
}

/// A record of one byte more than the reader's size limit, which the writer doesn't keep to.
#[test]
fn a_reader_keeps_to_its_size_limit() -> Result<(), RecordError> {
    let mut reader = reader();
    reader.set_size_limit(64)?;
    let mut record = Vec::new();
    Writer::new(&AES_128_GCM, &KEY[..16], IV)?.write(ApplicationData, &[7; 64], 0, &mut record)?;
    let before = record.clone();
    assert_eq!(
        reader.read(&mut record),
        Err(RecordError::InnerPlaintextTooLong)
    );
    assert_eq!(record, before);
    Ok(())
}

/// The default limits, and lower ones. A higher limit has no effect.
#[test]
fn a_key_is_used_up_at_its_limit() -> Result<(), RecordError> {
    let mut writer = Writer::from_secret(client_secret());
    assert_eq!(
        (writer.remaining(), reader().remaining()),
        (1 << 24, u64::MAX)
    );
    writer = writer.with_limit(2).with_limit(3);
    let mut reader = Reader::from_secret(client_secret())
        .with_limit(2)
        .with_limit(3);
    for _ in 0..2 {
        for left in [2, 1] {
            assert_eq!((writer.remaining(), reader.remaining()), (left, left));
            reader.read(&mut next_record(&mut writer)?)?;
        }
        assert_eq!(next_record(&mut writer), Err(RecordError::KeyUsedUp));
        assert_eq!(reader.read(&mut [0; 27]), Err(RecordError::KeyUsedUp));
        assert!(!reader.is_closed());
        writer.update()?;
        reader.update()?;
    }
    Ok(())
}

/// What a peer sends as its RecordSizeLimit, and the size limit of a client and of a server (RFC 8449 section 4).
const PEERS: [(u16, Option<usize>, Option<usize>); 5] = [
    (63, None, None),
    (64, Some(64), Some(64)),
    (16385, Some(16385), Some(16385)),
    (16386, None, Some(16385)),
    (65535, None, Some(16385)),
];

#[test]
fn peers_send_their_size_limits() {
    for (sent, client, server) in PEERS {
        let wanted = |limit: Option<usize>| limit.ok_or(RecordError::PeerSizeLimit);
        assert_eq!(Side::Client.size_limit_of(sent), wanted(client));
        assert_eq!(Side::Server.size_limit_of(sent), wanted(server));
    }
}

#[test]
fn alerts_without_keys() {
    let fatal = fatal_alert(AlertDescription::IllegalParameter);
    assert_eq!(plaintext_alert(fatal), *b"\x15\x03\x03\x00\x02\x02\x2f");
    assert_eq!(
        plaintext_alert(CLOSE_NOTIFY),
        *b"\x15\x03\x03\x00\x02\x01\x00"
    );
}

/// An inner plaintext, its type and the length of its content (RFC 8446 section 5.4).
type Inner = (&'static [u8], Option<(u8, usize)>);

const INNER: [Inner; 6] = [
    (b"", None),
    (&[0; 9], None),
    (&[23], Some((23, 0))),
    (&[7, 0, 22], Some((22, 2))),
    (&[7, 0, 22, 0, 0], Some((22, 2))),
    (&[0, 0, 255, 0], Some((255, 2))),
];

#[test]
fn the_type_ends_the_content() {
    for (inner, found) in INNER {
        assert_eq!(last_nonzero(inner), found);
        if let Some((content_type, len)) = found {
            let mut written = [&inner[..len], &vec![9; inner.len() - len]].concat();
            write_type_and_padding(&mut written, content_type, len);
            assert_eq!(written, inner);
        }
    }
}

/// Each error, its text, and its alert, or 0 for none (RFC 8446 section 6).
const TEXTS: [(RecordError, &str, u8); 26] = [
    (
        RecordError::KeyLength,
        "the key does not have the length of the algorithm's keys",
        0,
    ),
    (
        RecordError::NoSecret,
        "there is no secret that gives the next key",
        0,
    ),
    (
        RecordError::HasSecret,
        "the next key is given by the secret",
        0,
    ),
    (
        RecordError::SameKey,
        "the next key and IV are those of this key",
        0,
    ),
    (
        RecordError::SizeLimit,
        "the size limit is not between 64 and 2^14 + 1",
        0,
    ),
    (
        RecordError::PeerSizeLimit,
        "the peer's size limit is not an allowed one",
        47,
    ),
    (
        RecordError::ContentTooLong,
        "the content and its padding are longer than the size limit allows",
        0,
    ),
    (
        RecordError::NoRoom,
        "the buffer has no room for the record",
        0,
    ),
    (RecordError::OutOfMemory, "no memory for the record", 0),
    (
        RecordError::KeyUsedUp,
        "the limit of records under this key is reached",
        0,
    ),
    (
        RecordError::Closed,
        "the reader is closed, since it has rejected a record",
        0,
    ),
    (
        RecordError::WrongLength,
        "the record does not have the length that its header gives",
        0,
    ),
    (
        RecordError::UnexpectedRecord,
        "the record header is not an expected one",
        10,
    ),
    (
        RecordError::PlaintextTooLong,
        "the plaintext record has more than 2^14 bytes",
        22,
    ),
    (
        RecordError::EncryptedRecordTooLong,
        "the encrypted record has more than 2^14 + 256 bytes",
        22,
    ),
    (
        RecordError::InnerPlaintextTooLong,
        "the inner plaintext is longer than the size limit",
        22,
    ),
    (
        RecordError::EncryptedRecordTooShort,
        "the encrypted record has fewer than 17 bytes",
        20,
    ),
    (RecordError::Refused, "the record is not authentic", 20),
    (
        RecordError::TooMuchEarlyData,
        "there is more early data than the server allows",
        10,
    ),
    (
        RecordError::NoContentType,
        "the inner plaintext has no content type",
        10,
    ),
    (
        RecordError::UnexpectedType,
        "a protected record cannot have this content type",
        10,
    ),
    (
        RecordError::EmptyContent,
        "an alert or handshake record has no content",
        10,
    ),
    (
        RecordError::AlertLength,
        "an alert does not have 2 bytes",
        50,
    ),
    (
        RecordError::MessageType,
        "a handshake message may not be sent here",
        0,
    ),
    (
        RecordError::MessageLength,
        "the handshake messages are not whole",
        0,
    ),
    (
        RecordError::Ended,
        "the connection has sent its last record",
        0,
    ),
];

/// The same of the errors of a connection that receives.
const RECEIVE_TEXTS: [(ReceiveError, &str, u8); 6] = [
    (
        ReceiveError::Record(RecordError::Refused),
        "a record is rejected: the record is not authentic",
        20,
    ),
    (
        ReceiveError::Message(MessageError::KeyUpdateLength),
        "a handshake message is rejected: a KeyUpdate does not have one byte",
        50,
    ),
    (ReceiveError::Alert(47), "the peer has sent alert 47", 0),
    (
        ReceiveError::TooManyKeyUpdates,
        "too many KeyUpdates came in a row",
        10,
    ),
    (
        ReceiveError::OutOfMemory,
        "no memory for what was received",
        80,
    ),
    (
        ReceiveError::Ended,
        "the connection receives nothing more",
        0,
    ),
];

#[test]
fn errors_have_texts_and_alerts() {
    let code = |alert: Option<AlertDescription>| alert.map_or(0, |it| it as u8);
    for (error, text, alert) in TEXTS {
        assert_eq!(
            (error.to_string().as_str(), code(error.alert())),
            (text, alert)
        );
    }
    for (error, text, alert) in RECEIVE_TEXTS {
        assert_eq!(
            (error.to_string().as_str(), code(error.alert())),
            (text, alert)
        );
    }
}

/// The values of RFC 8446 section 5.1.
#[test]
fn content_types_have_their_values() {
    let codes = [Alert, Handshake, ApplicationData].map(ContentType::code);
    assert_eq!(codes, [21, 22, 23]);
}
