//! The calls on two connections of TLS, a client's and a server's.

use crate::shared::{Calls, Result, Words, change_bytes, say_bytes, say_outcome, secret_of};
use quic_packets::{PacketKey, algorithm};
use records::connection::{Connection, KeyUpdateRequest, Received};
use records::{AlertDescription, Reader, RecordError, Writer};
use std::fmt::Write;
use tls_messages::Stage;

const HEADER_LEN: usize = 5;
const TAG_LEN: usize = 16;

/// The longest handshake message that an end takes.
const MESSAGE_LEN: usize = 256;

/// The buffers of a list: two of each end, the second for the connection that is made of the parts of the first.
pub struct Buffers {
    client: [[u8; MESSAGE_LEN]; 2],
    server: [[u8; MESSAGE_LEN]; 2],
}

impl Buffers {
    pub fn new() -> Self {
        Buffers {
            client: [[0; MESSAGE_LEN]; 2],
            server: [[0; MESSAGE_LEN]; 2],
        }
    }
}

/// A connection, and the bytes that came from the other end.
struct End<'b> {
    connection: Option<Connection<'b>>,
    stage: Stage,
    /// The buffer of the next connection.
    spare: Option<&'b mut [u8]>,
    incoming: Vec<u8>,
    /// The suite and the seed of the first secret of what it receives.
    suite: &'b str,
    seed: u64,
}

/// A client and a server.
pub struct TlsList<'b> {
    client: End<'b>,
    server: End<'b>,
}

impl<'b> Calls for TlsList<'b> {
    fn answer(&mut self, words: &mut Words<'_>, answer: &mut String) -> Result<()> {
        let call = words.next();
        let is_client = words.is_next("client");
        match call {
            "receive" => self.end(is_client).receive(words, answer),
            "change" => {
                let incoming = &mut self.end(is_client).incoming;
                change_records(incoming, words)?;
                say_bytes(answer, incoming)
            }
            "forge" => self.end(is_client).forge(words, answer),
            "set-update-bound" => {
                let bound = words.number()?;
                if let Some(connection) = &mut self.end(is_client).connection {
                    connection.set_update_bound(bound);
                }
                self.end(is_client).say(answer)
            }
            "take-apart" => self.end(is_client).take_apart(answer),
            _ => {
                let mut out = Vec::new();
                let end = self.end(is_client);
                if let Some(connection) = &mut end.connection {
                    let sent = send(connection, call, words, &mut out)?;
                    say_outcome(answer, "RecordError", &sent)?;
                }
                say_bytes(answer, &out)?;
                end.say(answer)?;
                self.end(!is_client).incoming.extend_from_slice(&out);
                Ok(())
            }
        }
    }
}

impl<'b> TlsList<'b> {
    /// The two connections before any call. The words are the suite and the seeds of the secrets of what the client and the server
    /// send, and then those of `End::new` for each end.
    pub fn new(words: &mut Words<'b>, buffers: &'b mut Buffers) -> Result<Self> {
        let suite = words.next();
        let (of_client, of_server) = (words.number()?, words.number()?);
        Ok(TlsList {
            client: End::new(suite, of_server, of_client, words, &mut buffers.client)?,
            server: End::new(suite, of_client, of_server, words, &mut buffers.server)?,
        })
    }

    fn end(&mut self, is_client: bool) -> &mut End<'b> {
        if is_client {
            &mut self.client
        } else {
            &mut self.server
        }
    }
}

impl<'b> End<'b> {
    /// An end with the seeds of the secrets of what it receives and sends. The words are its stage, the length of its buffer, the
    /// limit and the size limit of its reader, and those of its writer.
    fn new(
        suite: &'b str,
        seed: u64,
        sending: u64,
        words: &mut Words<'b>,
        buffers: &'b mut [[u8; MESSAGE_LEN]; 2],
    ) -> Result<Self> {
        let stage = stage_of(words.next())?;
        let len = words.len()?;
        let reader = Reader::from_secret(secret_of(suite, seed)?);
        let mut reader = reader.with_limit(words.number()?);
        reader.set_size_limit(words.len()?)?;
        let writer = Writer::from_secret(secret_of(suite, sending)?);
        let mut writer = writer.with_limit(words.number()?);
        writer.set_size_limit(words.len()?)?;
        let [buffer, spare] = buffers;
        Ok(End {
            connection: Some(Connection::new(reader, writer, &mut buffer[..len], stage)),
            stage,
            spare: Some(&mut spare[..len]),
            incoming: Vec::new(),
            suite,
            seed,
        })
    }

    /// Receives this many of the bytes that came, or all of them.
    fn receive(&mut self, words: &mut Words<'_>, answer: &mut String) -> Result<()> {
        let mut len = words.len()?;
        if len == 0 || len > self.incoming.len() {
            len = self.incoming.len();
        }
        if let Some(connection) = &mut self.connection {
            let mut received = Received::new();
            let taken = connection.receive(&mut self.incoming[..len], &mut received);
            say_outcome(answer, "ReceiveError", &taken)?;
            say_bytes(answer, &self.incoming)?;
            say_bytes(answer, &received.application_data)?;
            for message in &received.messages {
                say_bytes(answer, message)?;
            }
            if let Ok(taken) = taken {
                write!(answer, " {taken}")?;
                self.incoming.drain(..taken);
            } else {
                self.incoming.clear();
            }
        }
        self.say(answer)
    }

    /// Appends a record with any inner plaintext to what came, under the secret after some updates.
    fn forge(&mut self, words: &mut Words<'_>, answer: &mut String) -> Result<()> {
        let first = secret_of(self.suite, self.seed)?;
        let updates = words.number()?;
        let secret = (0..updates).fold(first, |secret, _| secret.next_traffic());
        let number = words.number()?;
        let inner = words.bytes()?;
        let keys = secret.record_keys();
        let [high, low] = ((inner.len() + TAG_LEN) as u16).to_be_bytes();
        let mut record = [&[23, 3, 3, high, low], &inner[..], &[0; TAG_LEN]].concat();
        let key = PacketKey::new(algorithm(secret.suite()), keys.key.as_slice(), keys.iv)?;
        key.seal(number, &mut record, HEADER_LEN)?;
        say_bytes(answer, &record)?;
        self.incoming.extend_from_slice(&record);
        Ok(())
    }

    /// Takes the connection apart, and makes another one of its parts, if there is a buffer left.
    fn take_apart(&mut self, answer: &mut String) -> Result<()> {
        if let Some(connection) = self.connection.take() {
            let parts = connection.into_parts();
            let (reader, writer) = (&parts.reader, &parts.writer);
            write!(
                answer,
                "{} {} read {} left {} {} {}",
                parts.owes_update,
                parts.is_cut,
                reader.number(),
                reader.remaining(),
                reader.is_closed(),
                reader.size_limit()
            )?;
            write!(
                answer,
                " written {} of {} left {} {}",
                writer.number(),
                writer.limit(),
                writer.remaining(),
                writer.size_limit()
            )?;
            if let Some(buffer) = self.spare.take() {
                self.connection = Some(Connection::new(
                    parts.reader,
                    parts.writer,
                    buffer,
                    self.stage,
                ));
            }
        }
        self.say(answer)
    }

    /// Appends what can be read of the connection.
    fn say(&self, answer: &mut String) -> Result<()> {
        if let Some(connection) = &self.connection {
            write!(
                answer,
                " | owes {} ended {} closed {} left {}",
                connection.owes_update(),
                connection.is_ended(),
                connection.is_closed(),
                connection.remaining()
            )?;
        }
        Ok(())
    }
}

/// Makes a call that sends.
fn send(
    connection: &mut Connection<'_>,
    call: &str,
    words: &mut Words<'_>,
    out: &mut Vec<u8>,
) -> Result<std::result::Result<(), RecordError>> {
    Ok(match call {
        "send" => connection.send(&words.drawn()?, out),
        "send-padded" => {
            let padding = words.len()?;
            connection.send_padded(&words.drawn()?, padding, out)
        }
        "send-handshake" => connection.send_handshake(&words.bytes()?, out),
        "update" => {
            let request = if words.is_next("requested") {
                KeyUpdateRequest::Requested
            } else {
                KeyUpdateRequest::NotRequested
            };
            connection.send_key_update(request, out)
        }
        "close" => connection.close(out),
        "abort" => connection.abort(alert_of(words.next())?, out),
        _ => return Err("an unknown call".into()),
    })
}

/// Changes records: doubles the first one, or swaps the first two, or changes bytes.
fn change_records(bytes: &mut Vec<u8>, words: &mut Words<'_>) -> Result<()> {
    let first = first_len(bytes);
    let second = first + first_len(&bytes[first..]);
    match words.next() {
        "double" => {
            bytes.splice(..0, bytes[..first].to_vec());
        }
        "swap" => bytes[..second].rotate_left(first),
        change => change_bytes(bytes, change, words)?,
    }
    Ok(())
}

/// The length of the first record, or 0 if it is not whole.
fn first_len(bytes: &[u8]) -> usize {
    let Some(&[_, _, _, high, low]) = bytes.first_chunk() else {
        return 0;
    };
    let len = HEADER_LEN + usize::from(u16::from_be_bytes([high, low]));
    if len <= bytes.len() { len } else { 0 }
}

fn stage_of(word: &str) -> Result<Stage> {
    Ok(match word {
        "handshake" => Stage::Handshake,
        "client" => Stage::Client,
        "authenticating-client" => Stage::AuthenticatingClient,
        "server" => Stage::Server,
        "authenticating-server" => Stage::AuthenticatingServer,
        _ => return Err("an unknown stage".into()),
    })
}

fn alert_of(word: &str) -> Result<AlertDescription> {
    Ok(match word {
        "unexpected_message" => AlertDescription::UnexpectedMessage,
        "bad_record_mac" => AlertDescription::BadRecordMac,
        "decode_error" => AlertDescription::DecodeError,
        "internal_error" => AlertDescription::InternalError,
        _ => return Err("an unknown alert".into()),
    })
}
