//! Relays connections of TLS 1.3 over a stream: `tls IN OUT`, with the files that it reads and writes.
//!
//! The records of the handshake pass as they are. What comes after a peer's Finished is received by the connection towards it,
//! and sent by the one towards the other peer: application data, and NewSessionTickets. Beside the lines that say which bytes
//! are to be sent, an answer has these:
//!
//! - `followed`: the peer has updated its keys; `answered`: it has because the relay has asked for it
//! - `updated`: the relay has updated its keys; `early`: it may not yet
//! - `ticket`: a ticket is sent to the peer

#![forbid(unsafe_code)]

use deerlapse_relay::{Answer, Lines, Peer, Relay, Result, secret_of};
use records::connection::{Connection, KeyUpdateRequest, Received};
use records::{Begins, ContentType, Reader, RecordKind, Writer, classify};
use tls_messages::message_type::{FINISHED, KEY_UPDATE};
use tls_messages::{MessageReader, Stage};

/// The most bytes of a handshake message.
const MESSAGE_LEN: usize = 1 << 14;

fn main() -> Result {
    let mut lines = Lines::of_arguments()?;
    while lines.begin("tls")? {
        let [mut client, mut server, mut to_client, mut to_server] = [[0; MESSAGE_LEN]; 4];
        lines.relay(TlsRelay {
            client: End::new(Stage::Server, &mut client, &mut to_client),
            server: End::new(Stage::Client, &mut server, &mut to_server),
        })?;
    }
    Ok(())
}

/// One end of the relay: the connection towards a peer.
struct End<'b> {
    /// What came from the peer and isn't relayed yet.
    bytes: Vec<u8>,
    /// Reads copies of the peer's records, to know where its handshake ends and where it updates its keys.
    watcher: Option<Reader>,
    /// The one after the handshake.
    next_watcher: Option<Reader>,
    watched: MessageReader<'b>,
    is_finished: bool,
    /// What the connection is made of, after the handshake.
    reader: Option<Reader>,
    writer: Option<Writer>,
    buffer: Option<&'b mut [u8]>,
    stage: Stage,
    connection: Option<Connection<'b>>,
    /// Whether a key update of the peer is asked for.
    is_asked: bool,
}

impl<'b> End<'b> {
    /// Creates the end towards a peer, which may send the messages of `stage` after the handshake.
    fn new(stage: Stage, watched: &'b mut [u8], buffer: &'b mut [u8]) -> Self {
        End {
            bytes: Vec::new(),
            watcher: None,
            next_watcher: None,
            watched: MessageReader::new(watched, Stage::Handshake),
            is_finished: false,
            reader: None,
            writer: None,
            buffer: Some(buffer),
            stage,
            connection: None,
            is_asked: false,
        }
    }

    /// Takes the first application traffic secret of the peer, under which `other` sends to the other peer.
    fn take_secret(&mut self, other: &mut Self, bytes: &[u8]) -> Result {
        self.next_watcher = Some(Reader::from_secret(secret_of(bytes)?));
        self.reader = Some(Reader::from_secret(secret_of(bytes)?));
        other.writer = Some(Writer::from_secret(secret_of(bytes)?));
        Ok(())
    }

    /// Returns the connection, which is made as soon as there are secrets for it.
    fn connection(&mut self) -> Option<&mut Connection<'b>> {
        if self.reader.is_some() && self.writer.is_some() {
            let reader = self.reader.take()?;
            let writer = self.writer.take()?;
            let buffer = self.buffer.take()?;
            self.connection = Some(Connection::new(reader, writer, buffer, self.stage));
        }
        self.connection.as_mut()
    }

    /// Takes a record of the peer's handshake, if it is whole and can be read.
    fn next_of_handshake(&mut self) -> Result<Option<Vec<u8>>> {
        let Begins::Record(kind, len) = classify(&self.bytes)? else {
            return Ok(None);
        };
        if kind == RecordKind::Protected {
            if self.watcher.is_none() {
                return Ok(None);
            }
            if self.watch(self.bytes[..len].to_vec())? == Some(FINISHED) {
                self.is_finished = true;
                self.watched.set_stage(self.stage);
            }
        }
        Ok(Some(self.bytes.drain(..len).collect()))
    }

    /// Reads a copy of a record, and returns the type of the last handshake message in it.
    fn watch(&mut self, mut record: Vec<u8>) -> Result<Option<u8>> {
        let Some(watcher) = &mut self.watcher else {
            return Ok(None);
        };
        let (content_type, mut content) = watcher.read(&mut record)?;
        if content_type != ContentType::Handshake {
            return Ok(None);
        }
        let mut last = None;
        while let Some(message) = self.watched.next(&mut content)? {
            last = Some(message[0]);
        }
        if last == Some(KEY_UPDATE) {
            watcher.update()?;
        }
        Ok(last)
    }

    /// Says which key updates of the peer are in its records.
    fn count_updates(&mut self, peer: Peer, answer: &mut Answer) -> Result {
        if let Some(watcher) = self.next_watcher.take() {
            self.watcher = Some(watcher);
        }
        let mut at = 0;
        while let Begins::Record(_, len) = classify(&self.bytes[at..])? {
            if self.watch(self.bytes[at..at + len].to_vec())? == Some(KEY_UPDATE) {
                let what = if self.is_asked {
                    "answered"
                } else {
                    "followed"
                };
                answer.say(what, peer.name());
                self.is_asked = false;
            }
            at += len;
        }
        Ok(())
    }
}

/// The relay of a connection.
struct TlsRelay<'b> {
    client: End<'b>,
    server: End<'b>,
}

impl Relay for TlsRelay<'_> {
    fn secret(&mut self, label: &str, bytes: &[u8], answer: &mut Answer) -> Result {
        let (client, server) = (&mut self.client, &mut self.server);
        match label {
            "CLIENT_HANDSHAKE_TRAFFIC_SECRET" => {
                client.watcher = Some(Reader::from_secret(secret_of(bytes)?));
            }
            "SERVER_HANDSHAKE_TRAFFIC_SECRET" => {
                server.watcher = Some(Reader::from_secret(secret_of(bytes)?));
            }
            "CLIENT_TRAFFIC_SECRET_0" => client.take_secret(server, bytes)?,
            "SERVER_TRAFFIC_SECRET_0" => server.take_secret(client, bytes)?,
            _ => return Ok(()),
        }
        self.relay_records(Peer::Client, answer)?;
        self.relay_records(Peer::Server, answer)
    }

    fn relay(&mut self, from: Peer, bytes: Vec<u8>, answer: &mut Answer) -> Result {
        self.end(from).bytes.extend(bytes);
        self.relay_records(from, answer)
    }

    fn update(&mut self, towards: Peer, asks: bool, answer: &mut Answer) -> Result {
        let end = self.end(towards);
        let Some(connection) = end.connection() else {
            answer.say("early", towards.name());
            return Ok(());
        };
        let request = if asks {
            KeyUpdateRequest::Requested
        } else {
            KeyUpdateRequest::NotRequested
        };
        let mut out = Vec::new();
        connection.send_key_update(request, &mut out)?;
        end.is_asked = asks;
        answer.send(towards, &out);
        answer.say("updated", towards.name());
        Ok(())
    }

    fn forget(&mut self, _towards: Peer, _answer: &mut Answer) -> Result {
        Ok(())
    }
}

impl<'b> TlsRelay<'b> {
    fn end(&mut self, peer: Peer) -> &mut End<'b> {
        match peer {
            Peer::Client => &mut self.client,
            Peer::Server => &mut self.server,
        }
    }

    /// Relays the whole records that came from a peer, as far as there are secrets for them.
    fn relay_records(&mut self, from: Peer, answer: &mut Answer) -> Result {
        let end = self.end(from);
        while !end.is_finished {
            let Some(record) = end.next_of_handshake()? else {
                return Ok(());
            };
            answer.send(from.other(), &record);
        }
        if self.client.connection().is_none() || self.server.connection().is_none() {
            return Ok(());
        }
        let end = self.end(from);
        end.count_updates(from, answer)?;
        let Some(connection) = &mut end.connection else {
            return Ok(());
        };
        let mut received = Received::new();
        let taken = connection.receive(&mut end.bytes, &mut received)?;
        let is_ended = connection.is_ended();
        end.bytes.drain(..taken);
        self.send_tickets(from.other(), &received.messages, answer)?;
        if received.application_data.is_empty() && !is_ended {
            return Ok(());
        }
        self.send(from.other(), &received.application_data, is_ended, answer)
    }

    /// Sends NewSessionTickets to a peer, and says so of each.
    fn send_tickets(&mut self, to: Peer, tickets: &[Vec<u8>], answer: &mut Answer) -> Result {
        let mut out = Vec::new();
        for ticket in tickets {
            let connection = self
                .end(to)
                .connection()
                .ok_or("a ticket before the secrets")?;
            connection.send_handshake(ticket, &mut out)?;
            answer.say("ticket", to.name());
        }
        if !out.is_empty() {
            answer.send(to, &out);
        }
        Ok(())
    }

    /// Sends application data to a peer, and close_notify at its end.
    fn send(&mut self, to: Peer, content: &[u8], is_end: bool, answer: &mut Answer) -> Result {
        let connection = self.end(to).connection().ok_or("data before the secrets")?;
        let mut out = Vec::new();
        if !content.is_empty() {
            connection.send(content, &mut out)?;
        }
        if is_end {
            connection.close(&mut out)?;
        }
        answer.send(to, &out);
        Ok(())
    }
}
