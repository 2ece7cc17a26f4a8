//! Handshake messages: joined from records that are cut anywhere, the types that each stage allows, and the errors.

use std::error::Error;

use deerlapse::tls_messages::{AlertDescription, MessageError, MessageReader, Stage};
use vectors::drawn::Drawn;

/// Reads the messages of these contents of records, in a buffer of 64 bytes.
fn read(stage: Stage, contents: &[&[u8]]) -> Result<Vec<Vec<u8>>, MessageError> {
    let mut buffer = [0; 64];
    let mut reader = MessageReader::new(&mut buffer, stage);
    let mut found = Vec::new();
    for content in contents {
        let mut rest = *content;
        while let Some(message) = reader.next(&mut rest)? {
            found.push(message.to_vec());
        }
        assert!(rest.is_empty(), "a content is read to its end");
    }
    Ok(found)
}

/// The types of EncryptedExtensions, Certificate, CertificateRequest and CertificateVerify, which change no keys.
const KEEPS_KEYS: [u8; 4] = [8, 11, 13, 15];

/// A message of one of these types, whose body is drawn.
fn message(drawn: &mut Drawn) -> Vec<u8> {
    let message_type = KEEPS_KEYS[drawn.below(KEEPS_KEYS.len())];
    let len = drawn.below(61);
    [vec![message_type, 0, 0, len as u8], drawn.bytes(len)].concat()
}

#[test]
fn joins_what_records_cut() {
    let drawn = &mut Drawn::new(11);
    for count in 0..200 {
        let messages: Vec<_> = (0..count % 8).map(|_| message(drawn)).collect();
        let stream = messages.concat();
        let mut contents = Vec::new();
        let mut rest = &stream[..];
        while !rest.is_empty() {
            let (content, after) = rest.split_at((1 + drawn.below(30)).min(rest.len()));
            contents.push(content);
            rest = after;
        }
        assert_eq!(read(Stage::Handshake, &contents), Ok(messages));
    }
}

/// The types that may come after the handshake, and during it all but KeyUpdate (RFC 8446 section 4.6, RFC 9001 sections 4.4, 6
/// and 8.3).
const ALLOWED: [(Stage, &[u8]); 6] = [
    (Stage::Client, &[4, 24]),
    (Stage::AuthenticatingClient, &[4, 13, 24]),
    (Stage::Server, &[24]),
    (Stage::AuthenticatingServer, &[11, 15, 20, 24]),
    (Stage::QuicClient, &[4]),
    (Stage::QuicServer, &[]),
];

#[test]
fn allows_the_types_of_its_stage() {
    for (stage, types) in ALLOWED {
        for message_type in 0..=255 {
            assert_eq!(
                stage.allows(message_type),
                types.contains(&message_type),
                "{stage:?}: {message_type}"
            );
        }
    }
    for message_type in 0..=255 {
        assert_eq!(Stage::Handshake.allows(message_type), message_type != 24);
        assert_eq!(
            Stage::QuicHandshake.allows(message_type),
            ![5, 24].contains(&message_type)
        );
    }
}

#[test]
fn sends_the_types_of_its_stage() {
    let certificates = [11, 0, 0, 1, 7, 15, 0, 0, 0, 20, 0, 0, 0];
    assert_eq!(
        Stage::AuthenticatingClient.may_send_all(&certificates),
        Some(true)
    );
    assert_eq!(
        Stage::AuthenticatingClient.may_send_all(&certificates[..12]),
        None
    );
    assert_eq!(
        Stage::AuthenticatingClient.may_send_all(&[20, 0, 0, 0, 11, 0, 0, 0]),
        Some(false)
    );
    assert_eq!(
        Stage::Server.may_send_all(&[4, 0, 0, 0, 4, 0, 0, 0]),
        Some(true)
    );
    assert_eq!(Stage::Client.may_send_all(&[4, 0, 0, 0]), Some(false));
}

/// A stage, contents that are rejected, and the error with its text, its alert (RFC 8446 section 6.2) and its code in QUIC, which
/// is 0x0100 plus the alert (RFC 9001 section 4.8) or one of RFC 9000 section 20.1.
type Rejected = (
    Stage,
    &'static [&'static [u8]],
    MessageError,
    &'static str,
    u8,
    u64,
);

const REJECTED: [Rejected; 6] = [
    (
        Stage::Handshake,
        &[&[8, 1], &[0, 0]],
        MessageError::TooLong(65540),
        "a handshake message of 65540 bytes is longer than the buffer",
        80,
        0x0d,
    ),
    (
        Stage::QuicServer,
        &[&[13, 0, 0, 0]],
        MessageError::UnexpectedType(13),
        "a handshake message of type 13 is not expected",
        10,
        0x0a,
    ),
    (
        Stage::Handshake,
        &[&[24, 0, 0, 1, 0]],
        MessageError::UnexpectedType(24),
        "a handshake message of type 24 is not expected",
        10,
        0x010a,
    ),
    (
        Stage::Client,
        &[&[24, 0, 0, 2]],
        MessageError::KeyUpdateLength,
        "a KeyUpdate does not have one byte",
        50,
        0x0132,
    ),
    (
        Stage::Client,
        &[&[24, 0, 0, 1, 2]],
        MessageError::KeyUpdateRequest,
        "a KeyUpdate has an unknown request",
        47,
        0x012f,
    ),
    (
        Stage::Handshake,
        &[&[20, 0, 0, 1, 9, 4]],
        MessageError::DataAfterKeys,
        "a record goes on after a handshake message that changes the keys",
        10,
        0x0a,
    ),
];

#[test]
fn rejects_what_breaks_a_rule() {
    for (stage, contents, error, text, alert, code) in REJECTED {
        assert_eq!(read(stage, contents), Err(error));
        let shown: &dyn Error = &error;
        assert_eq!(shown.to_string(), text);
        assert_eq!(error.alert().map(|it| it as u8), Some(alert), "{text}");
        assert_eq!(error.quic_code(), Some(code), "{text}");
    }
}

#[test]
fn closes_after_a_record_of_another_type() {
    let mut buffer = [0; 16];
    let mut reader = MessageReader::new(&mut buffer, Stage::Handshake);
    assert_eq!(reader.admit_other_record(), Ok(()));
    assert_eq!(reader.next(&mut &[8, 0][..]), Ok(None));
    assert!(reader.is_cut());
    assert_eq!(reader.admit_other_record(), Err(MessageError::Interrupted));
    assert_eq!(
        MessageError::Interrupted.alert(),
        Some(AlertDescription::UnexpectedMessage)
    );
    assert!(reader.is_closed());
    assert_eq!(reader.next(&mut &[0, 0][..]), Err(MessageError::Closed));
    assert_eq!(MessageError::Closed.alert(), None);
}
