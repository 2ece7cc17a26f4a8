//! Connections of OpenSSL, whose records are read and written again, and received by a `Connection`.

use std::error::Error;

use deerlapse::aead::{AES_128_GCM, AES_256_GCM};
use deerlapse_protocols_vectors::tls::client_secret;
use key_derivation::{Secret, Suite};
use records::connection::{Connection, Received};
use records::{Begins, ContentType, Reader, RecordKind, Writer, classify};
use tls_messages::message_type::{
    CERTIFICATE, CERTIFICATE_VERIFY, CLIENT_HELLO, FINISHED, KEY_UPDATE, SERVER_HELLO,
};
use tls_messages::{MessageReader, Stage};
use vectors::hex;

#[path = "../../../../../crates/records_tests/src/tests/captured.rt"]
#[rustfmt::skip]
mod of_openssl;

/// What one side sent: its bytes in hex, and the contents of its records under each key.
pub(crate) struct Direction {
    pub(crate) stream: &'static [&'static str],
    pub(crate) epochs: &'static [Epoch],
}

/// A traffic secret, its key and IV, and the contents of the records under them. The first epoch of a direction is the
/// handshake.
pub(crate) struct Epoch {
    pub(crate) secret: &'static str,
    pub(crate) key: &'static str,
    pub(crate) iv: &'static str,
    pub(crate) records: &'static [Carried],
}

/// What a record contains, with the content in hex.
pub(crate) struct Carried {
    pub(crate) content_type: ContentType,
    pub(crate) content: &'static [&'static str],
    pub(crate) padding: usize,
}

fn bytes_of(lines: &[&str]) -> Vec<u8> {
    hex::bytes(&lines.concat())
}

/// Returns the records of a stream with their kinds.
fn records_of(stream: &[u8]) -> Vec<(RecordKind, &[u8])> {
    let mut found = Vec::new();
    let mut rest = stream;
    while let Ok(Begins::Record(kind, len)) = classify(rest) {
        let (record, later) = rest.split_at(len);
        found.push((kind, record));
        rest = later;
    }
    assert!(rest.is_empty(), "a stream is whole records");
    found
}

/// Returns the protected records of a direction.
fn protected(direction: &Direction) -> Vec<Vec<u8>> {
    records_of(&bytes_of(direction.stream))
        .into_iter()
        .filter(|(kind, _)| *kind == RecordKind::Protected)
        .map(|(_, record)| record.to_vec())
        .collect()
}

#[test]
fn records_are_read_and_written_again() -> Result<(), Box<dyn Error>> {
    for (name, direction) in of_openssl::CAPTURED {
        let mut records = protected(direction).into_iter();
        let first = &direction.epochs[0];
        let key = hex::bytes(first.key);
        let algorithm = if key.len() == 32 {
            &AES_256_GCM
        } else {
            &AES_128_GCM
        };
        let iv = |epoch: &Epoch| hex::bytes(epoch.iv).try_into().expect("an IV");
        let mut reader = Reader::new(algorithm, &key, iv(first))?;
        let mut writer = Writer::new(algorithm, &key, iv(first))?;
        for (at, epoch) in direction.epochs.iter().enumerate() {
            if at > 0 {
                reader.update_with(&hex::bytes(epoch.key), iv(epoch))?;
                writer.update_with(&hex::bytes(epoch.key), iv(epoch))?;
            }
            for carried in epoch.records {
                let record = records.next().expect("a record");
                let content = bytes_of(carried.content);
                let mut bytes = record.clone();
                let read = reader.read(&mut bytes)?;
                assert_eq!(read, (carried.content_type, &content[..]), "{name}");
                let mut written = Vec::new();
                writer.write(
                    carried.content_type,
                    &content,
                    carried.padding,
                    &mut written,
                )?;
                assert_eq!(written, record, "{name}");
            }
        }
        assert_eq!(records.next(), None, "{name}");
    }
    Ok(())
}

/// Returns the first application traffic secret of a direction.
fn secret_of(direction: &Direction) -> Secret {
    let secret = hex::bytes(direction.epochs[1].secret);
    let suite = if secret.len() == 48 {
        Suite::Aes256Gcm
    } else {
        Suite::Aes128Gcm
    };
    Secret::new(suite, &secret).expect("a secret of its length")
}

/// Returns what a direction carries after its handshake, without its KeyUpdates.
fn carried_after_handshake(direction: &Direction) -> Received {
    let mut wanted = Received::new();
    for carried in direction.epochs[1..].iter().flat_map(|epoch| epoch.records) {
        let content = bytes_of(carried.content);
        match carried.content_type {
            ContentType::ApplicationData => wanted.application_data.extend(content),
            ContentType::Handshake if content[0] != KEY_UPDATE => wanted.messages.push(content),
            ContentType::Handshake | ContentType::Alert => {}
        }
    }
    wanted
}

/// The lengths of the pieces in which the bytes arrive.
const PIECES: [usize; 3] = [1, 100, usize::MAX];

#[test]
fn connections_are_received_to_their_ends() -> Result<(), Box<dyn Error>> {
    for (name, direction) in of_openssl::CAPTURED {
        let stage = if name.ends_with("CLIENT") {
            Stage::Server
        } else {
            Stage::Client
        };
        let bytes = protected(direction)[direction.epochs[0].records.len()..].concat();
        let wanted = carried_after_handshake(direction);
        for len in PIECES {
            let mut buffer = [0; 1024];
            let reader = Reader::from_secret(secret_of(direction));
            let writer = Writer::from_secret(client_secret());
            let mut end = Connection::new(reader, writer, &mut buffer, stage);
            let (mut arrived, mut received) = (Vec::new(), Received::new());
            for piece in bytes.chunks(len) {
                arrived.extend_from_slice(piece);
                let taken = end.receive(&mut arrived, &mut received)?;
                arrived.drain(..taken);
            }
            assert!(end.is_ended() && arrived.is_empty(), "{name}");
            assert_eq!(received.application_data, wanted.application_data, "{name}");
            assert_eq!(received.messages, wanted.messages, "{name}");
        }
    }
    Ok(())
}

/// The type of EncryptedExtensions (RFC 8446 section 4).
const ENCRYPTED_EXTENSIONS: u8 = 8;

/// Returns the types of the messages of a handshake, those in plaintext and those in protected records.
fn handshake_types(direction: &Direction) -> Result<Vec<u8>, Box<dyn Error>> {
    let stream = bytes_of(direction.stream);
    let hellos = records_of(&stream)
        .into_iter()
        .filter(|(kind, _)| *kind == RecordKind::Handshake)
        .map(|(_, record)| record[5..].to_vec());
    let protected = direction.epochs[0]
        .records
        .iter()
        .map(|it| bytes_of(it.content));
    let mut buffer = [0; 1024];
    let mut messages = MessageReader::new(&mut buffer, Stage::Handshake);
    let mut types = Vec::new();
    for content in hellos.chain(protected) {
        let mut rest = &content[..];
        while let Some(message) = messages.next(&mut rest)? {
            types.push(message[0]);
        }
    }
    Ok(types)
}

#[test]
fn handshakes_have_their_messages() -> Result<(), Box<dyn Error>> {
    for (name, direction) in of_openssl::CAPTURED {
        let wanted: &[u8] = if name.ends_with("CLIENT") {
            &[CLIENT_HELLO, FINISHED]
        } else {
            &[
                SERVER_HELLO,
                ENCRYPTED_EXTENSIONS,
                CERTIFICATE,
                CERTIFICATE_VERIFY,
                FINISHED,
            ]
        };
        assert_eq!(handshake_types(direction)?, wanted, "{name}");
    }
    Ok(())
}
