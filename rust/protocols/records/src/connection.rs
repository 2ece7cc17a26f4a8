// Written by tools/rust from crates/records/src/connection.rt. Don't edit.
//! One end of a TLS 1.3 connection after the handshake: it receives records, over the peer's key updates, and sends records, over
//! its own key updates.

mod receive_error;
mod receiving;

use crate::RECORD_OVERHEAD;
use crate::alert::{ALERT_LEN, CLOSE_NOTIFY, fatal_alert};
use crate::content_type::ContentType;
use crate::reader::Reader;
use crate::record_error::RecordError;
use crate::writer::Writer;
use deerlapse::memory::TryGrow;
pub use receive_error::ReceiveError;
pub use receiving::Received;
use receiving::{Incoming, receive_records};
use tls_messages::message_type::KEY_UPDATE;
use tls_messages::{AlertDescription, KEY_UPDATE_LEN, MessageReader, Stage};

/// How many numbers of each key are reserved: one for a KeyUpdate, and the last one for an alert.
const RESERVED: u64 = 2;

/// The length in bytes of the record of a KeyUpdate.
const UPDATE_LEN: usize = KEY_UPDATE_LEN + RECORD_OVERHEAD;

/// Whether a KeyUpdate asks the peer for one in turn (RFC 8446 section 4.6.3). `as u8` gives its value.
#[derive(Clone, Copy, Debug, PartialEq, Eq)]
pub enum KeyUpdateRequest {
    /// `update_not_requested`
    NotRequested = 0,
    /// `update_requested`
    Requested = 1,
}

impl KeyUpdateRequest {
    /// Returns the KeyUpdate message with this request.
    // ensures { result ≡ (key_update self).content }
    fn message(self) -> [u8; KEY_UPDATE_LEN] {
        [KEY_UPDATE, 0, 0, 1, self as u8]
    }
}

/// The parts of a connection that was taken apart, and what it has left undone.
pub struct Parts {
    /// The reader, which goes on after the last record that was received.
    pub reader: Reader,
    /// The writer, which goes on after the last record that was sent.
    pub writer: Writer,
    /// Whether the peer has asked for a KeyUpdate that is not sent yet.
    pub owes_update: bool,
    /// Whether a handshake message is cut: more of it is to come.
    pub is_cut: bool,
}

/// One end of a TLS 1.3 connection after the handshake.
///
/// It receives the records of a stream, follows the peer's KeyUpdates, and answers those that ask for one (RFC 8446 section
/// 4.6.3) before it sends the next content. It keeps the last two numbers of a key for a KeyUpdate and an alert (section 5.5),
/// and sends a KeyUpdate by itself if a content needs more numbers than are left.
///
/// Each direction ends by itself: what is received by close_notify or an error of `receive`, and what is sent by `close` or
/// `abort`. After an error of `receive`, the caller sends the alert that it calls for by `abort`, if there is one (section 6.2).
///
/// # Examples
///
/// Each event of a connection calls for one call:
///
/// - The handshake has ended: `new`, with the first application traffic secret of each direction. `Secret` is a type of
///   `deerlapse-key-derivation`, and `Stage` one of `deerlapse`. A handshake message of the peer that is longer than the buffer,
///   with its header of four bytes, ends the connection: `receive` fails with `MessageError::TooLong`. A KeyUpdate has five bytes.
/// - Bytes have arrived: `receive`. The caller drops the bytes of the records that it took, and keeps the others until more arrive.
/// - There is data to send: `send`. If the peer has asked for a KeyUpdate, the answer goes before the data. No call sends the answer
///   alone: `send` of no data sends it and an empty record.
/// - The keys are to change: `send_key_update`.
/// - There is nothing more to send: `close`. The peer's data is received until its close_notify, after which `is_ended` is true.
/// - `receive` has failed: `abort` with the error's alert, if it has one. After `Alert`, the caller sends nothing more (section 6.2),
///   although `send` wouldn't fail. `Ended` only repeats that nothing more is received: after close_notify, `send` and `close` may still
///   be called.
/// - The stream has ended, and `is_ended` is false: an attacker may have cut it (RFC 8446 section 6.1). What came is not all.
///
/// A call that sends and fails has written nothing. After `OutOfMemory` it may be made again, and after `KeyUsedUp` with less content.
/// `Ended` comes after `close` and `abort`. The other errors are of what the caller passed. `receive` fails with `OutOfMemory` if what it appends to needs to grow and there is no memory. Application data needs none if
/// `application_data` has room for as many bytes as have arrived.
///
/// ```
/// # use key_derivation as deerlapse_key_derivation;
/// use deerlapse::tls_messages::Stage;
/// use deerlapse_key_derivation::Secret;
/// use deerlapse_tls::connection::{Connection, KeyUpdateRequest, ReceiveError, Received};
/// use deerlapse_tls::{Reader, Writer};
/// use std::error::Error;
///
/// /// Makes both ends of a connection, of the secrets that the handshake has derived.
/// fn ends<'b>(client: &'b mut [u8], server: &'b mut [u8]) -> (Connection<'b>, Connection<'b>) {
///     let of_client = || Secret::aes_128_gcm([7; 32]);
///     let of_server = || Secret::aes_128_gcm([8; 32]);
///     let reader = Reader::from_secret(of_server());
///     let writer = Writer::from_secret(of_client());
///     let client = Connection::new(reader, writer, client, Stage::Client);
///     let reader = Reader::from_secret(of_client());
///     let writer = Writer::from_secret(of_server());
///     let server = Connection::new(reader, writer, server, Stage::Server);
///     (client, server)
/// }
///
/// /// Receives what has arrived. If that fails, the alert for the peer is in `out`.
/// fn receive(
///     end: &mut Connection<'_>,
///     arrived: &mut Vec<u8>,
///     out: &mut Vec<u8>,
/// ) -> Result<Received, Box<dyn Error>> {
///     let mut received = Received::new();
///     match end.receive(arrived, &mut received) {
///         Ok(taken) => {
///             arrived.drain(..taken);
///             Ok(received)
///         }
///         Err(error) => {
///             match error.alert() {
///                 Some(alert) if !end.is_closed() => end.abort(alert, out)?,
///                 _ => {}
///             }
///             Err(error.into())
///         }
///     }
/// }
///
/// fn main() -> Result<(), Box<dyn Error>> {
///     let (mut of_client, mut of_server) = ([0; 4096], [0; 4096]); // for handshake messages
///     let (mut client, mut server) = ends(&mut of_client, &mut of_server);
///     let (mut to_client, mut to_server) = (Vec::new(), Vec::new());
///
///     client.send(b"a request", &mut to_server)?;
///     let received = receive(&mut server, &mut to_server, &mut to_client)?;
///     assert_eq!(received.application_data, b"a request");
///
///     // The server changes its key, and asks the client to change its own.
///     server.send_key_update(KeyUpdateRequest::Requested, &mut to_client)?;
///     server.send(b"a response", &mut to_client)?;
///     let received = receive(&mut client, &mut to_client, &mut to_server)?;
///     assert_eq!(received.application_data, b"a response");
///     assert!(client.owes_update());
///     client.send(b"another request", &mut to_server)?;
///     assert!(!client.owes_update());
///
///     // The client has no more data, and then the server has none.
///     client.close(&mut to_server)?;
///     let received = receive(&mut server, &mut to_server, &mut to_client)?;
///     assert_eq!(received.application_data, b"another request");
///     assert!(server.is_ended());
///     server.close(&mut to_client)?;
///     receive(&mut client, &mut to_client, &mut to_server)?;
///     assert!(client.is_ended());
///
///     // A record is changed on its way. The server ends the connection by an alert, bad_record_mac.
///     let (mut client, mut server) = ends(&mut of_client, &mut of_server);
///     client.send(b"a request", &mut to_server)?;
///     to_server[5] ^= 1;
///     assert!(receive(&mut server, &mut to_server, &mut to_client).is_err());
///     let error = client.receive(&mut to_client, &mut Received::new());
///     assert_eq!(error, Err(ReceiveError::Alert(20)));
///     Ok(())
/// }
/// ```
///
/// <details><summary>Model</summary>
///
/// ```text
/// ghost Value = { ConnectionState };
/// ghost view = { λ c. record {
///   reader = c.incoming.reader;
///   owes_update = c.incoming.owes_update;
///   updates = c.incoming.updates;
///   update_bound = c.incoming.update_bound;
///   is_ended = c.incoming.is_ended;
///   stage = c.messages.stage;
///   bound = c.messages.bound;
///   part = c.messages.part;
///   writer = c.writer;
///   is_closed = c.is_closed;
/// } };
/// ghost invariant = { λ c. IsOfSecret c.incoming.reader.secret c.incoming.reader.key
///     × IsOfSecret c.writer.secret c.writer.key
///     × (64 ≤ c.writer.key.size_limit)
///     × (IsFalse c.incoming.is_ended → IsFalse c.messages.is_closed) };
/// ```
///
/// Definitions: [`ConnectionState`](crate::specs::connection#ConnectionState),
/// [`IsOfSecret`](crate::specs::keys#IsOfSecret).
///
/// </details>
pub struct Connection<'b> {
    incoming: Incoming,
    messages: MessageReader<'b>,
    writer: Writer,
    /// Whether nothing more is sent, after an alert.
    is_closed: bool,
}

impl<'b> Connection<'b> {
    /// Creates the end that receives by `reader` and sends by `writer`, each of the first application traffic secret of its
    /// direction. `stage` says which handshake messages may come, each of at most as many bytes as the buffer.
    ///
    /// The limit of the writer bounds the records under each key, and its size limit, and that of the reader, the records.
    ///
    /// # Panics
    ///
    /// Panics if `reader` has no secret, which `Reader::from_secret` gives it, if `writer` has no secret, which
    /// `Writer::from_secret` gives it, if the size limit of `writer` is below `MIN_SIZE_LIMIT`, or if `buffer` has fewer than 4
    /// bytes.
    ///
    /// <details><summary>Contract</summary>
    ///
    /// ```text
    /// requires reader { IsOfSecret reader.secret reader.key }
    /// requires writer { IsOfSecret writer.secret writer.key × (64 ≤ writer.key.size_limit) }
    /// requires buffer { 4 ≤ length buffer.old }
    /// ensures { result ≡ new_connection reader writer stage (length buffer.old) }
    /// ```
    ///
    /// Definitions: [`IsOfSecret`](crate::specs::keys#IsOfSecret),
    /// [`new_connection`](crate::specs::connection#new_connection).
    ///
    /// </details>
    pub fn new(reader: Reader, writer: Writer, buffer: &'b mut [u8], stage: Stage) -> Self {
        assert!(
            reader.has_secret(),
            "reader has no secret, which Reader::from_secret gives it"
        );
        assert!(
            writer.has_secret(),
            "writer has no secret, which Writer::from_secret gives it"
        );
        assert!(
            crate::MIN_SIZE_LIMIT <= writer.size_limit(),
            "the size limit of writer is below MIN_SIZE_LIMIT"
        );
        assert!(4 <= buffer.len(), "buffer has fewer than 4 bytes");

        Connection {
            incoming: Incoming {
                reader,
                owes_update: false,
                updates: 0,
                update_bound: u64::MAX,
                is_ended: false,
            },
            messages: MessageReader::new(buffer, stage),
            writer,
            is_closed: false,
        }
    }

    /// Takes the connection apart.
    ///
    /// A caller that needs to know whether a direction has ended calls `is_ended` and `is_closed` before.
    ///
    /// <details><summary>Contract</summary>
    ///
    /// ```text
    /// ensures reader { result.reader ≡ self.entry.reader }
    /// ensures writer { result.writer ≡ self.entry.writer }
    /// ensures secrets { IsOfSecret result.reader.secret result.reader.key
    ///     × IsOfSecret result.writer.secret result.writer.key }
    /// ensures size { 64 ≤ result.writer.key.size_limit }
    /// ensures owes_update { result.owes_update ≡ self.entry.owes_update }
    /// ensures cut { IsFalse result.is_cut ↔ (self.entry.part ≡ []) }
    /// ```
    ///
    /// Definitions: [`IsOfSecret`](crate::specs::keys#IsOfSecret).
    ///
    /// </details>
    pub fn into_parts(self) -> Parts {
        Parts {
            is_cut: self.messages.is_cut(),
            owes_update: self.incoming.owes_update,
            reader: self.incoming.reader,
            writer: self.writer,
        }
    }

    /// Sets how many KeyUpdates may be received in a row, without application data between them that is not empty. Each costs two
    /// derivations and a key schedule. At first any number may: up to 2^64 - 1, more than a peer can send.
    ///
    /// <details><summary>Contract</summary>
    ///
    /// ```text
    /// ensures { self.new ≡ record self.old { update_bound = bound } }
    /// ```
    ///
    /// </details>
    pub fn set_update_bound(&mut self, bound: u64) {
        self.incoming.update_bound = bound;
    }

    /// Returns whether the peer has asked for a KeyUpdate that is not sent yet.
    ///
    /// <details><summary>Contract</summary>
    ///
    /// ```text
    /// ensures { result ≡ self.now.owes_update }
    /// ```
    ///
    /// </details>
    pub fn owes_update(&self) -> bool {
        self.incoming.owes_update
    }

    /// Returns whether nothing more is received, after close_notify or an error.
    ///
    /// <details><summary>Contract</summary>
    ///
    /// ```text
    /// ensures { result ≡ self.now.is_ended }
    /// ```
    ///
    /// </details>
    pub fn is_ended(&self) -> bool {
        self.incoming.is_ended
    }

    /// Returns whether nothing more is sent, after `close` or `abort`.
    ///
    /// <details><summary>Contract</summary>
    ///
    /// ```text
    /// ensures { result ≡ self.now.is_closed }
    /// ```
    ///
    /// </details>
    pub fn is_closed(&self) -> bool {
        self.is_closed
    }

    /// Returns how many more records of content may be sent under this key.
    ///
    /// <details><summary>Contract</summary>
    ///
    /// ```text
    /// ensures { result ≡ content_left self.now.writer }
    /// ```
    ///
    /// Definitions: [`content_left`](crate::specs::connection#content_left).
    ///
    /// </details>
    pub fn remaining(&self) -> u64 {
        self.writer.remaining().saturating_sub(RESERVED)
    }

    /// Receives the whole records at the front of `bytes`, up to close_notify, and returns their length. The caller keeps the
    /// bytes after them until more arrive. Only protected records may come after the handshake.
    ///
    /// Appends application data and handshake messages to `received`, where the capacity of `application_data` never falls. Follows
    /// KeyUpdates, and notes if the peer asks for one.
    ///
    /// Each error but `Ended` ends the direction, with what came before it in `received`: `Record` if a record is rejected,
    /// `Message` if a handshake message is, or a record that is between its parts, `Alert` for an alert other than close_notify
    /// and user_canceled, `TooManyKeyUpdates` for a KeyUpdate above the bound of `set_update_bound`, and `OutOfMemory` if the
    /// capacity of `received.application_data` is too small for a record, or if a handshake message that is handed over finds no
    /// memory. Bytes that are not authentic are as they came. After close_notify or an error, every call fails with `Ended` and
    /// changes nothing.
    ///
    /// <details><summary>Contract</summary>
    ///
    /// ```text
    /// ensures taken { IfOk result (λ n. Taken Step bytes.old (received_by self.old received.old)
    ///     n (received_by self.new received.new)) }
    /// ensures within { IfOk result (λ n. n ≤ length bytes.old) }
    /// ensures kept { IfOk result (λ n. drop n bytes.new ≡ drop n bytes.old) }
    /// ensures more { IfOk result (λ n. IsFalse self.new.is_ended → NeedsMore (drop n bytes.new)) }
    /// ensures rejected { IsFalse self.old.is_ended → IfErr result (λ error.
    ///     EndsWith (vec_capacity received.old.application_data) bytes.old bytes.new
    ///     (received_by self.old received.old) error (received_by self.new received.new)) }
    /// ensures ended { IsTrue self.old.is_ended → IsErrOf result ReceiveError.Ended
    ///     × (self.new ≡ self.old) × (bytes.new ≡ bytes.old) × (received.new ≡ received.old) }
    /// ensures sender { (self.new.writer ≡ self.old.writer) × (self.new.is_closed ≡ self.old.is_closed) }
    /// ensures capacity { vec_capacity received.old.application_data
    ///     ≤ vec_capacity received.new.application_data }
    /// ```
    ///
    /// Definitions: [`Taken`](crate::specs::stream#Taken), [`Step`](crate::specs::connection#Step),
    /// [`received_by`](crate::specs::connection#received_by), [`NeedsMore`](crate::specs::stream#NeedsMore),
    /// [`EndsWith`](crate::specs::connection#EndsWith).
    ///
    /// </details>
    pub fn receive(
        &mut self,
        bytes: &mut [u8],
        received: &mut Received,
    ) -> Result<usize, ReceiveError> {
        if self.incoming.is_ended {
            return Err(ReceiveError::Ended);
        }
        let taken = receive_records(&mut self.incoming, &mut self.messages, bytes, received);
        if taken.is_err() {
            self.incoming.is_ended = true;
        }
        taken
    }

    /// Appends the records of application data of any length to `out`, and before them, under the old key, a KeyUpdate that asks
    /// for none, if the peer has asked for one or if the content has more records than `remaining`.
    ///
    /// # Errors
    ///
    /// Fails with `Ended` after `close` or `abort`; with `KeyUsedUp` if the content has more records than a fresh key has numbers
    /// for, all but two of its limit, or if a KeyUpdate is to come first and not even its number is left; and with `OutOfMemory`
    /// only if the capacity of `out` is too small. Nothing is then written.
    ///
    /// <details><summary>Contract</summary>
    ///
    /// ```text
    /// ensures outcome { AppendOutcome (IsSendable self.old 0 (length content.now))
    ///     (RefusesToSend self.old 0 (length content.now))
    ///     (sent_for self.old ContentType.ApplicationData 0 content.now) out.old out.new result
    ///     self.old self.new (after_send self.old 0 (length content.now)) }
    /// ```
    ///
    /// Definitions: [`AppendOutcome`](crate::specs::appending#AppendOutcome),
    /// [`IsSendable`](crate::specs::connection#IsSendable), [`RefusesToSend`](crate::specs::connection#RefusesToSend),
    /// [`sent_for`](crate::specs::connection#sent_for), [`after_send`](crate::specs::connection#after_send).
    ///
    /// </details>
    pub fn send(&mut self, content: &[u8], out: &mut Vec<u8>) -> Result<(), RecordError> {
        if self.is_closed {
            return Err(RecordError::Ended);
        }
        self.send_content(ContentType::ApplicationData, content, 0, out)
    }

    /// Appends the records of application data as `send` does, each with `padding` zeros, which hide its length (RFC 8446 section
    /// 5.4).
    ///
    /// # Errors
    ///
    /// Fails as `send` does and, before `KeyUsedUp`, with `ContentTooLong` if the padding leaves no room for one byte of the
    /// content in a record. Nothing is then written.
    ///
    /// <details><summary>Contract</summary>
    ///
    /// ```text
    /// ensures outcome { AppendOutcome (HasRoom self.old.writer padding (length content.now)
    ///     × IsSendable self.old padding (length content.now))
    ///     (RefusesToSendPadded self.old padding (length content.now))
    ///     (sent_for self.old ContentType.ApplicationData padding content.now) out.old out.new result
    ///     self.old self.new (after_send self.old padding (length content.now)) }
    /// ```
    ///
    /// Definitions: [`AppendOutcome`](crate::specs::appending#AppendOutcome),
    /// [`HasRoom`](crate::specs::connection#HasRoom), [`IsSendable`](crate::specs::connection#IsSendable),
    /// [`RefusesToSendPadded`](crate::specs::connection#RefusesToSendPadded),
    /// [`sent_for`](crate::specs::connection#sent_for), [`after_send`](crate::specs::connection#after_send).
    ///
    /// </details>
    pub fn send_padded(
        &mut self,
        content: &[u8],
        padding: usize,
        out: &mut Vec<u8>,
    ) -> Result<(), RecordError> {
        if self.is_closed {
            return Err(RecordError::Ended);
        }
        if self.writer.size_limit() - 1 - content.len().min(1) < padding {
            return Err(RecordError::ContentTooLong);
        }
        self.send_content(ContentType::ApplicationData, content, padding, out)
    }

    /// Appends handshake messages to `out`, each with its type and its length, in records of their own (RFC 8446 section 5.1),
    /// and before them a KeyUpdate where `send` does: NewSessionTickets of a server (section 4.6.1), and with post-handshake
    /// authentication a CertificateRequest of a server, or Certificate, CertificateVerify and Finished of a client (section
    /// 4.6.2).
    ///
    /// # Errors
    ///
    /// Fails with `Ended` after `close` or `abort`, with `EmptyContent` for no message, with `MessageLength` if they are not
    /// whole, with `MessageType` for one that `Stage::may_send` does not name at the `Stage` of the connection or that follows a
    /// Finished, and then as `send` does. Nothing is then written.
    ///
    /// <details><summary>Contract</summary>
    ///
    /// ```text
    /// ensures outcome { AppendOutcome (AreSendable self.old.stage messages.now
    ///     × IsSendable self.old 0 (length messages.now))
    ///     (RefusesToSendMessages self.old messages.now)
    ///     (sent_for self.old ContentType.Handshake 0 messages.now) out.old out.new result
    ///     self.old self.new (after_send self.old 0 (length messages.now)) }
    /// ```
    ///
    /// Definitions: [`AppendOutcome`](crate::specs::appending#AppendOutcome),
    /// [`AreSendable`](crate::specs::connection#AreSendable), [`IsSendable`](crate::specs::connection#IsSendable),
    /// [`RefusesToSendMessages`](crate::specs::connection#RefusesToSendMessages),
    /// [`sent_for`](crate::specs::connection#sent_for), [`after_send`](crate::specs::connection#after_send).
    ///
    /// </details>
    pub fn send_handshake(
        &mut self,
        messages: &[u8],
        out: &mut Vec<u8>,
    ) -> Result<(), RecordError> {
        if self.is_closed {
            return Err(RecordError::Ended);
        }
        if messages.is_empty() {
            return Err(RecordError::EmptyContent);
        }
        match self.messages.stage().may_send_all(messages) {
            None => Err(RecordError::MessageLength),
            Some(false) => Err(RecordError::MessageType),
            Some(true) => self.send_content(ContentType::Handshake, messages, 0, out),
        }
    }

    /// Appends a KeyUpdate with this request to `out`, under the old key, and continues under the next traffic secret (RFC 8446
    /// sections 4.6.3 and 7.2). If the peer has asked for a KeyUpdate, the answer is appended first.
    ///
    /// # Errors
    ///
    /// Fails with `Ended` after `close` or `abort`, with `KeyUsedUp` if only the number for an alert is left under this key, and
    /// with `OutOfMemory` only if the capacity of `out` is too small. Nothing is then written.
    ///
    /// <details><summary>Contract</summary>
    ///
    /// ```text
    /// ensures outcome { AppendOutcome (IsFalse self.old.is_closed × MayUpdate self.old.writer)
    ///     (RefusesToUpdate self.old)
    ///     (answer_of self.old ++ update_record (after_answer self.old).writer request) out.old out.new result
    ///     self.old self.new (key_updated (after_answer self.old)) }
    /// ```
    ///
    /// Definitions: [`AppendOutcome`](crate::specs::appending#AppendOutcome),
    /// [`MayUpdate`](crate::specs::connection#MayUpdate),
    /// [`RefusesToUpdate`](crate::specs::connection#RefusesToUpdate),
    /// [`answer_of`](crate::specs::connection#answer_of), [`update_record`](crate::specs::connection#update_record),
    /// [`after_answer`](crate::specs::connection#after_answer), [`key_updated`](crate::specs::connection#key_updated).
    ///
    /// </details>
    pub fn send_key_update(
        &mut self,
        request: KeyUpdateRequest,
        out: &mut Vec<u8>,
    ) -> Result<(), RecordError> {
        if self.is_closed {
            return Err(RecordError::Ended);
        }
        if self.writer.remaining() < RESERVED {
            return Err(RecordError::KeyUsedUp);
        }
        let owes_update = self.incoming.owes_update;
        out.try_grow(preceding_update_len(owes_update) + UPDATE_LEN)?;
        if owes_update {
            self.append_update(KeyUpdateRequest::NotRequested, out);
        }
        self.append_update(request, out);
        Ok(())
    }

    /// Appends close_notify to `out`, after which nothing more is sent (RFC 8446 section 6.1). What the peer sends is still
    /// received.
    ///
    /// # Errors
    ///
    /// Fails with `Ended` after `close` or `abort`, with `KeyUsedUp` if no number is left, and with `OutOfMemory` only if the
    /// capacity of `out` is too small. Nothing is then written.
    ///
    /// <details><summary>Contract</summary>
    ///
    /// ```text
    /// ensures outcome { AppendOutcome (IsFalse self.old.is_closed × (self.old.writer.number < self.old.writer.limit))
    ///     (RefusesToAlert self.old) (record_at self.old.writer.key self.old.writer.number close_notify)
    ///     out.old out.new result self.old self.new (after_alert self.old) }
    /// ```
    ///
    /// Definitions: [`AppendOutcome`](crate::specs::appending#AppendOutcome),
    /// [`RefusesToAlert`](crate::specs::connection#RefusesToAlert), [`record_at`](crate::specs::record#record_at),
    /// [`close_notify`](crate::specs::alerts#close_notify), [`after_alert`](crate::specs::connection#after_alert).
    ///
    /// </details>
    pub fn close(&mut self, out: &mut Vec<u8>) -> Result<(), RecordError> {
        self.send_alert(CLOSE_NOTIFY, out)
    }

    /// Appends a fatal alert to `out`, after which nothing more is sent (RFC 8446 section 6.2).
    ///
    /// # Errors
    ///
    /// Fails as `close` does. Nothing is then written.
    ///
    /// <details><summary>Contract</summary>
    ///
    /// ```text
    /// ensures outcome { AppendOutcome (IsFalse self.old.is_closed × (self.old.writer.number < self.old.writer.limit))
    ///     (RefusesToAlert self.old) (record_at self.old.writer.key self.old.writer.number (fatal_record alert))
    ///     out.old out.new result self.old self.new (after_alert self.old) }
    /// ```
    ///
    /// Definitions: [`AppendOutcome`](crate::specs::appending#AppendOutcome),
    /// [`RefusesToAlert`](crate::specs::connection#RefusesToAlert), [`record_at`](crate::specs::record#record_at),
    /// [`fatal_record`](crate::specs::alerts#fatal_record), [`after_alert`](crate::specs::connection#after_alert).
    ///
    /// </details>
    pub fn abort(&mut self, alert: AlertDescription, out: &mut Vec<u8>) -> Result<(), RecordError> {
        self.send_alert(fatal_alert(alert), out)
    }

    /// Appends an alert, after which nothing more is sent.
    // ensures outcome { AppendOutcome (IsFalse self.old.is_closed × (self.old.writer.number < self.old.writer.limit))
    //     (RefusesToAlert self.old) (record_at self.old.writer.key self.old.writer.number
    //     (record { content_type = ContentType.Alert; content = alert; padding = 0 }))
    //     out.old out.new result self.old self.new (after_alert self.old) }
    fn send_alert(&mut self, alert: [u8; ALERT_LEN], out: &mut Vec<u8>) -> Result<(), RecordError> {
        if self.is_closed {
            return Err(RecordError::Ended);
        }
        self.writer.write(ContentType::Alert, &alert, 0, out)?;
        self.is_closed = true;
        Ok(())
    }

    /// Appends the records of a content to `out`, and before them a KeyUpdate, if one is owed or needed.
    // requires open { IsFalse self.old.is_closed }
    // requires allowed { IsAllowed self.old.writer.key.size_limit content_type
    //     (least_piece content_type (length content.now)) padding }
    // requires cut { content_type ≢ ContentType.Alert }
    // ensures outcome { AppendOutcome (IsSendable self.old padding (length content.now))
    //     (RefusesToSend self.old padding (length content.now))
    //     (sent_for self.old content_type padding content.now) out.old out.new result
    //     self.old self.new (after_send self.old padding (length content.now)) }
    fn send_content(
        &mut self,
        content_type: ContentType,
        content: &[u8],
        padding: usize,
        out: &mut Vec<u8>,
    ) -> Result<(), RecordError> {
        let cut = self.writer.cut(content.len(), padding);
        let updates = self.updates_before(cut.count() as u64)?;
        let Some(len) = cut.records_len(preceding_update_len(updates), content.len(), padding)
        else {
            return Err(RecordError::OutOfMemory);
        };
        out.try_grow(len)?;
        if updates {
            self.append_update(KeyUpdateRequest::NotRequested, out);
        }
        self.writer
            .append_content(cut, content_type, content, padding, out);
        Ok(())
    }

    /// Returns whether a KeyUpdate comes before a content of this many records.
    // ensures accepted { IsOk result ↔ MaySend self.now records }
    // ensures refused { IsOkUnless result RecordError.KeyUsedUp }
    // ensures updates { IfOk result (λ updates. updates ≡ updates_before self.now records) }
    fn updates_before(&self, records: u64) -> Result<bool, RecordError> {
        if records > self.writer.limit().saturating_sub(RESERVED) {
            return Err(RecordError::KeyUsedUp);
        }
        let updates = self.incoming.owes_update || records > self.remaining();
        if updates && self.writer.remaining() < RESERVED {
            return Err(RecordError::KeyUsedUp);
        }
        Ok(updates)
    }

    /// Appends a KeyUpdate under the old key to `out`, which has room for it, and continues under the next traffic secret. No
    /// KeyUpdate is owed afterwards.
    // requires may { MayUpdate self.old.writer }
    // requires room { vec_len out.old + update_len ≤ vec_capacity out.old }
    // ensures appended { Appended update_len (update_record self.old.writer request) out.old out.new }
    // ensures updated { self.new ≡ key_updated self.old }
    fn append_update(&mut self, request: KeyUpdateRequest, out: &mut Vec<u8>) {
        self.writer
            .append(ContentType::Handshake, &request.message(), 0, out);
        let Ok(()) = self.writer.update() else {
            unreachable!();
        };
        self.incoming.owes_update = false;
    }
}

/// Returns the length in bytes of the record of a KeyUpdate that comes before a content or another KeyUpdate, or 0 if none comes.
// ensures { result ≡ cond updates update_len 0 }
fn preceding_update_len(updates: bool) -> usize {
    if updates { UPDATE_LEN } else { 0 }
}
