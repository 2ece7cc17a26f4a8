//! Whole connections: key updates of both ends, handshake messages, padding, limits and ends.

use std::error::Error;

use deerlapse_protocols_vectors::tls::{client, client_secret, received, server, server_secret};
use key_derivation::Secret;
use records::ContentType::{Alert, ApplicationData, Handshake};
use records::connection::KeyUpdateRequest::{NotRequested, Requested};
use records::connection::{Connection, KeyUpdateRequest, ReceiveError, Received};
use records::{AlertDescription, Reader, RecordError, Writer};
use tls_messages::Stage;
use vectors::hex;

type Done = Result<(), Box<dyn Error>>;

/// Returns the records of a content.
fn sent(end: &mut Connection<'_>, content: &[u8]) -> Result<Vec<u8>, RecordError> {
    let mut out = Vec::new();
    end.send(content, &mut out)?;
    Ok(out)
}

/// Returns the record of a KeyUpdate, after that of the one that is owed.
fn updated(end: &mut Connection<'_>, request: KeyUpdateRequest) -> Result<Vec<u8>, RecordError> {
    let mut out = Vec::new();
    end.send_key_update(request, &mut out)?;
    Ok(out)
}

/// Sends a content from one end to the other.
fn carry(from: &mut Connection<'_>, to: &mut Connection<'_>, content: &[u8]) -> Done {
    let found = received(to, &mut sent(from, content)?)?;
    assert_eq!(found.application_data, content);
    Ok(())
}

/// What the ends of a connection do.
enum Move {
    /// Each sends a content to the other, the client first.
    Carry(&'static [u8]),
    /// The client sends a KeyUpdate.
    Client(KeyUpdateRequest),
    /// The server does.
    Server(KeyUpdateRequest),
}

use Move::{Carry, Client, Server};

/// Key updates of both ends, and whether the client and the server owe one afterwards (RFC 8446 section 4.6.3).
const MOVES: [(Move, bool, bool); 13] = [
    (Carry(b"first"), false, false),
    (Client(NotRequested), false, false),
    (Carry(b"second"), false, false),
    (Server(NotRequested), false, false),
    (Carry(b"third"), false, false),
    (Client(Requested), false, true),
    (Client(Requested), false, true),
    (Carry(b"fourth"), false, false),
    (Server(Requested), true, false),
    (Server(Requested), true, false),
    (Client(Requested), false, true),
    (Server(NotRequested), false, false),
    (Carry(b"fifth"), false, false),
];

#[test]
fn both_ends_update_their_keys() -> Done {
    let (mut of_client, mut of_server) = ([0; 64], [0; 64]);
    let (mut client, mut server) = (client(&mut of_client, 1000), server(&mut of_server));
    for (what, client_owes, server_owes) in MOVES {
        match what {
            Carry(content) => {
                carry(&mut client, &mut server, content)?;
                carry(&mut server, &mut client, content)?;
            }
            Client(request) => drop(received(&mut server, &mut updated(&mut client, request)?)?),
            Server(request) => drop(received(&mut client, &mut updated(&mut server, request)?)?),
        }
        assert_eq!(client.owes_update(), client_owes);
        assert_eq!(server.owes_update(), server_owes);
    }
    Ok(())
}

/// The records of an end are those of a writer that follows RFC 8446 sections 4.6.3 and 7.2.
#[test]
fn an_end_writes_the_records_of_a_writer() -> Done {
    let (mut of_client, mut of_server) = ([0; 64], [0; 64]);
    let (mut client, mut server) = (client(&mut of_client, 1000), server(&mut of_server));
    received(&mut client, &mut updated(&mut server, Requested)?)?;
    let mut records = sent(&mut client, b"after the answer")?;
    client.send_key_update(Requested, &mut records)?;
    client.send_padded(b"padded", 9, &mut records)?;
    client.close(&mut records)?;

    let mut writer = Writer::from_secret(client_secret());
    let mut wanted = Vec::new();
    writer.write(Handshake, &[24, 0, 0, 1, 0], 0, &mut wanted)?;
    writer.update()?;
    writer.write(ApplicationData, b"after the answer", 0, &mut wanted)?;
    writer.write(Handshake, &[24, 0, 0, 1, 1], 0, &mut wanted)?;
    writer.update()?;
    writer.write(ApplicationData, b"padded", 9, &mut wanted)?;
    writer.write(Alert, &[1, 0], 0, &mut wanted)?;
    assert_eq!(hex::text(&records), hex::text(&wanted));
    Ok(())
}

/// What a client sends, with none for a KeyUpdate, and whether a server that takes two KeyUpdates in a row receives it.
const BOUNDED: [(Option<&[u8]>, bool); 8] = [
    (None, true),
    (None, true),
    (Some(b"data"), true),
    (None, true),
    (None, true),
    (Some(b""), true),
    (None, false),
    (None, false),
];

#[test]
fn key_updates_in_a_row_are_bounded() -> Done {
    let (mut of_client, mut of_server) = ([0; 64], [0; 64]);
    let (mut client, mut server) = (client(&mut of_client, 1000), server(&mut of_server));
    server.set_update_bound(2);
    let mut errors = Vec::new();
    for (content, is_received) in BOUNDED {
        let mut records = match content {
            Some(content) => sent(&mut client, content)?,
            None => updated(&mut client, NotRequested)?,
        };
        let found = received(&mut server, &mut records);
        assert_eq!(found.is_ok(), is_received);
        errors.extend(found.err());
    }
    assert_eq!(
        errors,
        [ReceiveError::TooManyKeyUpdates, ReceiveError::Ended]
    );
    Ok(())
}

/// An end that is taken apart and made again goes on where it was.
#[test]
fn an_end_is_taken_apart() -> Done {
    let (mut of_client, mut of_server) = ([0; 64], [0; 64]);
    let (mut client, mut server) = (client(&mut of_client, 1000), server(&mut of_server));
    carry(&mut client, &mut server, b"before")?;
    received(&mut client, &mut updated(&mut server, Requested)?)?;
    let parts = client.into_parts();
    assert!(parts.owes_update && !parts.is_cut);
    assert_eq!((parts.reader.number(), parts.writer.number()), (0, 1));
    let mut client = Connection::new(parts.reader, parts.writer, &mut of_client, Stage::Client);
    carry(&mut client, &mut server, b"after")?;
    carry(&mut server, &mut client, b"after")?;

    Ok(())
}

#[test]
fn an_end_is_taken_apart_in_a_message() -> Done {
    let mut buffer = [0; 64];
    let mut client = client(&mut buffer, 1000);
    let mut record = Vec::new();
    Writer::from_secret(server_secret()).write(Handshake, &[4, 0, 0], 0, &mut record)?;
    received(&mut client, &mut record)?;
    let parts = client.into_parts();
    assert!(parts.is_cut && !parts.owes_update);
    Ok(())
}

/// A content and its padding, and the length of its records, or none if a record has no room for them: 2^14 + 1 bytes of inner
/// plaintext (RFC 8446 section 5.4), and 22 bytes more than content and padding.
const PADDED: [(&[u8], usize, Option<usize>); 7] = [
    (b"", 0, Some(22)),
    (b"", 16384, Some(16406)),
    (b"", 16385, None),
    (b"", usize::MAX, None),
    (b"four", 100, Some(126)),
    (b"four", 16383, Some(65624)),
    (b"four", 16384, None),
];

#[test]
fn contents_are_padded() -> Done {
    let (mut of_client, mut of_server) = ([0; 64], [0; 64]);
    let (mut client, mut server) = (client(&mut of_client, 1000), server(&mut of_server));
    for (content, padding, len) in PADDED {
        let mut records = Vec::new();
        let sent = client.send_padded(content, padding, &mut records);
        assert_eq!(records.len(), len.unwrap_or(0));
        if len.is_none() {
            assert_eq!(sent, Err(RecordError::ContentTooLong));
            continue;
        }
        sent?;
        assert_eq!(
            received(&mut server, &mut records)?.application_data,
            content
        );
    }
    Ok(())
}

/// A limit, and whether calls of a new end succeed: `send` of one record, `send_key_update` and `close`.
const LIMITS: [(u64, bool, bool, bool); 5] = [
    (0, false, false, false),
    (1, false, false, true),
    (2, false, true, true),
    (3, true, true, true),
    (1000, true, true, true),
];

#[test]
fn two_numbers_are_kept() {
    for (limit, sends, updates, closes) in LIMITS {
        let mut buffer = [0; 64];
        let mut call = |call: fn(&mut Connection<'_>, &mut Vec<u8>) -> Result<(), RecordError>| {
            let mut out = Vec::new();
            let result = call(&mut client(&mut buffer, limit), &mut out);
            assert_eq!(out.is_empty(), result.is_err());
            result
        };
        let wanted = |succeeds: bool| succeeds.then_some(()).ok_or(RecordError::KeyUsedUp);
        assert_eq!(call(|end, out| end.send(b"x", out)), wanted(sends));
        assert_eq!(
            call(|end, out| end.send_key_update(Requested, out)),
            wanted(updates)
        );
        assert_eq!(call(|end, out| end.close(out)), wanted(closes));
    }
}

/// With two records of content under each key, an end updates its key by itself, and refuses a content of three.
#[test]
fn an_end_updates_its_key_at_the_limit() -> Done {
    let (mut of_client, mut of_server) = ([0; 64], [0; 64]);
    let (mut client, mut server) = (client(&mut of_client, 4), server(&mut of_server));
    let content = vec![9; 32769];
    let two = &content[..32768];
    for (content, remaining) in [
        (&b"one record"[..], 1),
        (b"one record", 0),
        (b"one record", 1),
        (b"one record", 0),
        (two, 0),
        (b"one record", 1),
    ] {
        carry(&mut client, &mut server, content)?;
        assert_eq!(client.remaining(), remaining);
    }
    let mut out = Vec::new();
    assert_eq!(client.send(&content, &mut out), Err(RecordError::KeyUsedUp));
    assert!(out.is_empty());
    carry(&mut client, &mut server, b"one record")
}

/// After an alert every call that sends fails, and nothing is written. What the peer sends is still received.
#[test]
fn nothing_is_sent_after_an_alert() -> Done {
    for aborts in [false, true] {
        let (mut of_client, mut of_server) = ([0; 64], [0; 64]);
        let (mut client, mut server) = (client(&mut of_client, 1000), server(&mut of_server));
        let mut out = Vec::new();
        if aborts {
            client.abort(AlertDescription::InternalError, &mut out)?;
        } else {
            client.close(&mut out)?;
        }
        assert!(client.is_closed() && !client.is_ended());
        let before = out.clone();
        for result in [
            client.send(b"x", &mut out),
            client.send_padded(b"x", 1, &mut out),
            client.send_handshake(&[], &mut out),
            client.send_key_update(Requested, &mut out),
            client.close(&mut out),
            client.abort(AlertDescription::DecodeError, &mut out),
        ] {
            assert_eq!(result, Err(RecordError::Ended));
        }
        assert_eq!(out, before);
        let alert = received(&mut server, &mut out).err();
        assert_eq!(alert, aborts.then_some(ReceiveError::Alert(80)));
        assert!(server.is_ended() && !server.is_closed());
        carry(&mut server, &mut client, b"still")?;
    }
    Ok(())
}

/// Bytes that arrive in parts are taken by whole records, and the others stay.
#[test]
fn whole_records_are_taken() -> Done {
    let (mut of_client, mut of_server) = ([0; 64], [0; 64]);
    let (mut client, mut server) = (client(&mut of_client, 1000), server(&mut of_server));
    let mut records = sent(&mut client, b"one")?;
    client.send(b"two", &mut records)?;
    let before = records.clone();
    let mut found = Received::new();
    assert_eq!(server.receive(&mut records[..24], &mut found), Ok(0));
    assert_eq!(records, before);
    assert_eq!(server.receive(&mut records[..49], &mut found), Ok(25));
    assert_eq!(records[25..], before[25..]);
    assert_eq!(found.application_data, b"one");
    assert_eq!(server.receive(&mut records[25..], &mut found), Ok(25));
    assert_eq!(found.application_data, b"onetwo");
    Ok(())
}

/// A record that isn't authentic ends the direction with its bytes as they came, and what came before it is received.
#[test]
fn a_changed_record_ends_a_direction() -> Done {
    let (mut of_client, mut of_server) = ([0; 64], [0; 64]);
    let (mut client, mut server) = (client(&mut of_client, 1000), server(&mut of_server));
    let mut records = sent(&mut client, b"one")?;
    client.send(b"two", &mut records)?;
    records[30] ^= 1;
    let before = records.clone();
    let mut found = Received::new();
    let refused = ReceiveError::Record(RecordError::Refused);
    assert_eq!(server.receive(&mut records, &mut found), Err(refused));
    assert_eq!(found.application_data, b"one");
    assert_eq!(records[25..], before[25..]);
    assert!(server.is_ended() && !server.is_closed());
    let ended = server.receive(&mut records, &mut found);
    assert_eq!(ended, Err(ReceiveError::Ended));
    assert_eq!(found.application_data, b"one");
    carry(&mut server, &mut client, b"still")
}

/// The end of this stage, whose records have at most 64 bytes of inner plaintext.
fn end(buffer: &mut [u8; 64], stage: Stage, own: u8, peer: u8) -> Connection<'_> {
    let mut writer = Writer::from_secret(Secret::aes_128_gcm([own; 32]));
    writer.set_size_limit(64).expect("a size limit");
    let reader = Reader::from_secret(Secret::aes_128_gcm([peer; 32]));
    Connection::new(reader, writer, buffer, stage)
}

/// Bytes that an end sends, and whether it does: by their types, NewSessionTicket 4, Certificate 11, CertificateRequest 13,
/// CertificateVerify 15, Finished 20 and KeyUpdate 24 (RFC 8446 sections 4 and 4.6).
const MESSAGES: [(Stage, &[u8], Result<(), RecordError>); 18] = [
    (Stage::Server, &[4, 0, 0, 1, 9], Ok(())),
    (Stage::Server, &[4, 0, 0, 1, 9, 4, 0, 0, 2, 8, 7], Ok(())),
    (Stage::Server, &[], Err(RecordError::EmptyContent)),
    (Stage::Server, &[4, 0, 0], Err(RecordError::MessageLength)),
    (
        Stage::Server,
        &[4, 0, 0, 1],
        Err(RecordError::MessageLength),
    ),
    (
        Stage::Server,
        &[4, 0, 0, 1, 9, 4],
        Err(RecordError::MessageLength),
    ),
    (
        Stage::Server,
        &[4, 0, 0, 0, 24, 0, 0, 1, 0],
        Err(RecordError::MessageType),
    ),
    (Stage::Server, &[13, 0, 0, 0], Err(RecordError::MessageType)),
    (
        Stage::AuthenticatingServer,
        &[13, 0, 0, 0, 4, 0, 0, 0],
        Ok(()),
    ),
    (
        Stage::AuthenticatingServer,
        &[24, 0, 0, 1, 0],
        Err(RecordError::MessageType),
    ),
    (
        Stage::AuthenticatingServer,
        &[11, 0, 0, 0],
        Err(RecordError::MessageType),
    ),
    (
        Stage::AuthenticatingClient,
        &[11, 0, 0, 1, 0, 20, 0, 0, 0],
        Ok(()),
    ),
    (
        Stage::AuthenticatingClient,
        &[11, 0, 0, 0, 15, 0, 0, 0, 20, 0, 0, 0],
        Ok(()),
    ),
    (
        Stage::AuthenticatingClient,
        &[20, 0, 0, 0, 11, 0, 0, 0],
        Err(RecordError::MessageType),
    ),
    (
        Stage::AuthenticatingClient,
        &[4, 0, 0, 0],
        Err(RecordError::MessageType),
    ),
    (Stage::Client, &[4, 0, 0, 0], Err(RecordError::MessageType)),
    (Stage::Client, &[11, 0, 0, 0], Err(RecordError::MessageType)),
    (
        Stage::QuicServer,
        &[4, 0, 0, 0],
        Err(RecordError::MessageType),
    ),
];

#[test]
fn an_end_sends_the_messages_of_its_stage() {
    for (stage, messages, result) in MESSAGES {
        let mut buffer = [0; 64];
        let mut end = end(&mut buffer, stage, 7, 8);
        let mut out = Vec::new();
        assert_eq!(
            end.send_handshake(messages, &mut out),
            result,
            "{messages:?}"
        );
        assert_eq!(out.is_empty(), result.is_err());
        let numbers = if result.is_ok() { 1 } else { 0 };
        assert_eq!(end.into_parts().writer.number(), numbers);
    }
}

/// A ticket of 64 bytes, which is cut after the 63 for which a record has room.
const TICKET: [u8; 64] = {
    let mut ticket = [5; 64];
    [ticket[0], ticket[1], ticket[2], ticket[3]] = [4, 0, 0, 60];
    ticket
};

/// The stages of a sender and its peer, messages, and the length of their records.
type Arriving = (Stage, Stage, &'static [&'static [u8]], usize);

const ARRIVING: [Arriving; 5] = [
    (Stage::Server, Stage::Client, &[&[4, 0, 0, 2, 1, 2]], 6 + 22),
    (Stage::Server, Stage::Client, &[&TICKET], 64 + 2 * 22),
    (
        Stage::Server,
        Stage::Client,
        &[&TICKET, &TICKET],
        128 + 3 * 22,
    ),
    (
        Stage::AuthenticatingServer,
        Stage::AuthenticatingClient,
        &[&[13, 0, 0, 1, 0]],
        5 + 22,
    ),
    (
        Stage::AuthenticatingClient,
        Stage::AuthenticatingServer,
        &[&[11, 0, 0, 1, 0], &[15, 0, 0, 2, 3, 4], &[20, 0, 0, 1, 6]],
        16 + 22,
    ),
];

#[test]
fn messages_arrive() -> Done {
    for (of_sender, of_peer, messages, len) in ARRIVING {
        let (mut sender_buffer, mut peer_buffer) = ([0; 64], [0; 64]);
        let mut sender = end(&mut sender_buffer, of_sender, 7, 8);
        let mut peer = end(&mut peer_buffer, of_peer, 8, 7);
        let mut out = Vec::new();
        sender.send_handshake(&messages.concat(), &mut out)?;
        assert_eq!(out.len(), len);
        let found = received(&mut peer, &mut out)?;
        assert_eq!(found.messages, messages);
        assert!(found.application_data.is_empty());
    }
    Ok(())
}
