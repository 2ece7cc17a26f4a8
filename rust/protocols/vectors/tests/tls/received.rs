//! What an end receives of what its peer does: what it follows, passes over and rejects.

use std::error::Error;

use deerlapse_protocols_vectors::tls::{client_secret, server_secret};
use records::ContentType::{Alert, ApplicationData, Handshake};
use records::connection::{Connection, ReceiveError, Received};
use records::{ContentType, Reader, RecordError, Writer};
use tls_messages::{MessageError, Stage};

/// What a peer does.
enum Sent {
    /// It writes a record with this content.
    Content(ContentType, &'static [u8]),
    /// It continues under its next key.
    Updated,
    /// It writes a record of its plaintext kind.
    Plain(&'static [u8]),
}

use Sent::{Content, Plain, Updated};

/// What a peer does, and what an end at this stage receives of it: the application data, the messages that it hands over, whether
/// it owes a KeyUpdate, and whether it has ended, or why.
struct Case {
    what: &'static str,
    stage: Stage,
    sent: &'static [Sent],
    application_data: &'static [u8],
    messages: &'static [&'static [u8]],
    owes_update: bool,
    result: Result<bool, ReceiveError>,
}

/// An end that receives nothing, of which each case changes something.
const NOTHING: Case = Case {
    what: "nothing",
    stage: Stage::Client,
    sent: &[],
    application_data: b"",
    messages: &[],
    owes_update: false,
    result: Ok(false),
};

const TICKET: [u8; 6] = [4, 0, 0, 2, 7, 7];

const CASES: [Case; 22] = [
    NOTHING,
    Case {
        what: "a ticket and a KeyUpdate in one record",
        sent: &[
            Content(Handshake, &[4, 0, 0, 2, 7, 7, 24, 0, 0, 1, 0]),
            Updated,
            Content(ApplicationData, b"later"),
        ],
        application_data: b"later",
        messages: &[&TICKET],
        ..NOTHING
    },
    Case {
        what: "a KeyUpdate cut in two",
        stage: Stage::Server,
        sent: &[
            Content(ApplicationData, b"to"),
            Content(Handshake, &[24, 0, 0]),
            Content(Handshake, &[1, 1]),
            Updated,
            Content(ApplicationData, b"gether"),
        ],
        application_data: b"together",
        owes_update: true,
        ..NOTHING
    },
    Case {
        what: "two KeyUpdates, of which the first asks for one",
        stage: Stage::Server,
        sent: &[
            Content(Handshake, &[24, 0, 0, 1, 1]),
            Updated,
            Content(Handshake, &[24, 0, 0, 1, 0]),
            Updated,
            Content(ApplicationData, b"last"),
        ],
        application_data: b"last",
        owes_update: true,
        ..NOTHING
    },
    Case {
        what: "a fragment that begins with byte 24",
        sent: &[
            Content(Handshake, &[4, 0, 0, 2]),
            Content(Handshake, &[24, 0]),
            Content(ApplicationData, b"same key"),
        ],
        application_data: b"same key",
        messages: &[&[4, 0, 0, 2, 24, 0]],
        ..NOTHING
    },
    Case {
        what: "a fatal alert, and then data",
        sent: &[
            Content(ApplicationData, b"before"),
            Content(Alert, &[2, 40]),
            Content(ApplicationData, b"after"),
        ],
        application_data: b"before",
        result: Err(ReceiveError::Alert(40)),
        ..NOTHING
    },
    Case {
        what: "the same of level warning",
        sent: &[Content(Alert, &[1, 40]), Content(ApplicationData, b"after")],
        result: Err(ReceiveError::Alert(40)),
        ..NOTHING
    },
    Case {
        what: "user_canceled, and close_notify, and then data",
        stage: Stage::Server,
        sent: &[
            Content(Alert, &[1, 90]),
            Content(ApplicationData, b"before"),
            Content(Alert, &[1, 0]),
            Content(ApplicationData, b"after"),
        ],
        application_data: b"before",
        result: Ok(true),
        ..NOTHING
    },
    Case {
        what: "the same of level fatal",
        stage: Stage::Server,
        sent: &[
            Content(Alert, &[2, 90]),
            Content(Alert, &[2, 0]),
            Content(Alert, &[2, 40]),
        ],
        result: Ok(true),
        ..NOTHING
    },
    Case {
        what: "user_canceled between the parts of a message",
        sent: &[
            Content(Handshake, &[4, 0]),
            Content(Alert, &[1, 90]),
            Content(Handshake, &[0, 2, 7, 7]),
        ],
        result: Err(ReceiveError::Message(MessageError::Interrupted)),
        ..NOTHING
    },
    Case {
        what: "close_notify between the parts of a message, after a KeyUpdate",
        sent: &[
            Content(Handshake, &[24, 0, 0, 1, 1]),
            Updated,
            Content(Handshake, &[4, 0]),
            Content(Alert, &[1, 0]),
        ],
        owes_update: true,
        result: Err(ReceiveError::Message(MessageError::Interrupted)),
        ..NOTHING
    },
    Case {
        what: "a fatal alert between the parts of a message",
        sent: &[Content(Handshake, &[4, 0]), Content(Alert, &[2, 80])],
        result: Err(ReceiveError::Alert(80)),
        ..NOTHING
    },
    Case {
        what: "empty application data between the parts of a message",
        sent: &[
            Content(ApplicationData, b"before"),
            Content(Handshake, &[4, 0]),
            Content(ApplicationData, b""),
        ],
        application_data: b"before",
        result: Err(ReceiveError::Message(MessageError::Interrupted)),
        ..NOTHING
    },
    Case {
        what: "a ticket after a KeyUpdate in its record",
        sent: &[Content(Handshake, &[24, 0, 0, 1, 0, 4, 0, 0, 0])],
        result: Err(ReceiveError::Message(MessageError::DataAfterKeys)),
        ..NOTHING
    },
    Case {
        what: "a KeyUpdate with an unknown request",
        sent: &[Content(Handshake, &[24, 0, 0, 1, 2])],
        result: Err(ReceiveError::Message(MessageError::KeyUpdateRequest)),
        ..NOTHING
    },
    Case {
        what: "a KeyUpdate without a request",
        sent: &[Content(Handshake, &[24, 0, 0, 0])],
        result: Err(ReceiveError::Message(MessageError::KeyUpdateLength)),
        ..NOTHING
    },
    Case {
        what: "a ticket at a server",
        stage: Stage::Server,
        sent: &[Content(Handshake, &TICKET)],
        result: Err(ReceiveError::Message(MessageError::UnexpectedType(4))),
        ..NOTHING
    },
    Case {
        what: "a CertificateRequest, which the client allows",
        stage: Stage::AuthenticatingClient,
        sent: &[Content(Handshake, &[13, 0, 0, 3, 0, 0, 0])],
        messages: &[&[13, 0, 0, 3, 0, 0, 0]],
        ..NOTHING
    },
    Case {
        what: "a message longer than the buffer",
        sent: &[Content(Handshake, &[4, 0, 4, 0])],
        result: Err(ReceiveError::Message(MessageError::TooLong(1028))),
        ..NOTHING
    },
    Case {
        what: "a record under the key before",
        sent: &[
            Content(Handshake, &[24, 0, 0, 1, 0]),
            Content(ApplicationData, b"old key"),
        ],
        result: Err(ReceiveError::Record(RecordError::Refused)),
        ..NOTHING
    },
    Case {
        what: "a ChangeCipherSpec after the handshake",
        sent: &[
            Content(ApplicationData, b"before"),
            Plain(&[20, 3, 3, 0, 1, 1]),
        ],
        application_data: b"before",
        result: Err(ReceiveError::Record(RecordError::UnexpectedRecord)),
        ..NOTHING
    },
    Case {
        what: "an alert in plaintext",
        sent: &[Plain(&[21, 3, 3, 0, 2, 2, 40])],
        result: Err(ReceiveError::Record(RecordError::UnexpectedRecord)),
        ..NOTHING
    },
];

/// Returns the records that a peer writes.
fn written(sent: &[Sent]) -> Result<Vec<u8>, RecordError> {
    let mut peer = Writer::from_secret(client_secret());
    let mut bytes = Vec::new();
    for sent in sent {
        match sent {
            Content(content_type, content) => peer.write(*content_type, content, 3, &mut bytes)?,
            Updated => peer.update()?,
            Plain(record) => bytes.extend_from_slice(record),
        }
    }
    Ok(bytes)
}

/// Receives what a peer does in pieces of this length, and once more if the end has ended.
fn meets(case: &Case, len: usize) -> Result<(), Box<dyn Error>> {
    let mut buffer = [0; 1024];
    let reader = Reader::from_secret(client_secret());
    let writer = Writer::from_secret(server_secret());
    let mut end = Connection::new(reader, writer, &mut buffer, case.stage);
    let (mut arrived, mut received) = (Vec::new(), Received::new());
    let mut result = Ok(false);
    for piece in written(case.sent)?.chunks(len) {
        arrived.extend_from_slice(piece);
        match end.receive(&mut arrived, &mut received) {
            Ok(taken) => arrived.drain(..taken).for_each(drop),
            Err(error) => result = Err(error),
        }
        if end.is_ended() {
            break;
        }
    }
    let what = case.what;
    assert_eq!(result.map(|_| end.is_ended()), case.result, "{what}");
    assert_eq!(end.is_ended(), case.result != Ok(false), "{what}");
    let again = end.receive(&mut arrived, &mut received);
    assert_eq!(again == Err(ReceiveError::Ended), end.is_ended(), "{what}");
    assert_eq!(end.owes_update(), case.owes_update, "{what}");
    assert_eq!(received.application_data, case.application_data, "{what}");
    assert_eq!(received.messages, case.messages, "{what}");
    Ok(())
}

#[test]
fn an_end_receives_what_its_peer_does() -> Result<(), Box<dyn Error>> {
    for case in &CASES {
        for len in [1, 7, usize::MAX] {
            meets(case, len)?;
        }
    }
    Ok(())
}
