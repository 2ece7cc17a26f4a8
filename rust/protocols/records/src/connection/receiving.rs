// Written by tools/rust from crates/records/src/connection/receiving.rt. Don't edit.
//! Receiving the records of a connection one after another: application data, handshake messages and alerts.

use super::receive_error::ReceiveError;
use crate::content_type::ContentType;
use crate::header::Header;
use crate::reader::Reader;
use crate::record_error::RecordError;
use crate::stream::{Begins, RecordKind, classify_headed};
use deerlapse::memory::{TryGrow, try_to_vec};
use tls_messages::MessageReader;
use tls_messages::message_type::KEY_UPDATE;

/// The value of close_notify (RFC 8446 section 6.1).
const CLOSE_NOTIFY: u8 = 0;

/// The value of user_canceled (RFC 8446 section 6.1).
const USER_CANCELED: u8 = 90;

/// What was received: application data, and the handshake messages but for KeyUpdates, as tickets.
pub struct Received {
    /// The bytes of the application data, in order.
    pub application_data: Vec<u8>,
    /// The messages, each with its type and its length.
    pub messages: Vec<Vec<u8>>,
}

impl Received {
    /// Creates an empty `Received`.
    ///
    /// <details><summary>Contract</summary>
    ///
    /// ```text
    /// ensures { (result.application_data.items ≡ []) × (result.messages.items ≡ []) }
    /// ```
    ///
    /// </details>
    pub fn new() -> Self {
        Received {
            application_data: Vec::new(),
            messages: Vec::new(),
        }
    }
}

/// The state of what the peer sends.
pub(super) struct Incoming {
    pub(super) reader: Reader,
    /// Whether the peer has asked for a KeyUpdate that is not sent yet.
    pub(super) owes_update: bool,
    /// The number of KeyUpdates since the last application data that was not empty.
    pub(super) updates: u64,
    /// The largest number of KeyUpdates that may come in a row.
    pub(super) update_bound: u64,
    /// Whether nothing more is received, after close_notify or an error.
    pub(super) is_ended: bool,
}

impl Incoming {
    /// Continues under the next traffic secret, after a KeyUpdate with this byte (RFC 8446 section 4.6.3).
    // requires is_of { IsOfSecret self.old.reader.secret self.old.reader.key }
    // requires open { IsFalse self.old.reader.is_closed }
    // ensures accepted { OnOk result (self.old.updates < self.old.update_bound) }
    // ensures too_many { IfErr result (λ error. (error ≡ ReceiveError.TooManyKeyUpdates)
    //     × (self.old.update_bound ≤ self.old.updates)) }
    // ensures reader { OnOk result (self.new.reader ≡ next_reader self.old.reader) }
    // ensures owes_update { OnOk result (self.new.owes_update ≡ (self.old.owes_update || request == 1)) }
    // ensures updates { OnOk result (self.new.updates ≡ self.old.updates + 1) }
    // ensures update_bound { self.new.update_bound ≡ self.old.update_bound }
    // ensures is_ended { self.new.is_ended ≡ self.old.is_ended }
    // ensures kept { OnErr result (self.new ≡ self.old) }
    // ensures is_of { IsOfSecret self.new.reader.secret self.new.reader.key }
    // ensures open { IsFalse self.new.reader.is_closed }
    fn update(&mut self, request: u8) -> Result<(), ReceiveError> {
        if self.updates >= self.update_bound {
            return Err(ReceiveError::TooManyKeyUpdates);
        }
        let Ok(()) = self.reader.update() else {
            unreachable!();
        };
        self.owes_update = self.owes_update || request == 1;
        self.updates += 1;
        Ok(())
    }
}

/// Follows a KeyUpdate, unless too many came in a row, or appends a message of another type to `handed`.
// requires is_of { IsOfSecret incoming.old.reader.secret incoming.old.reader.key }
// requires open { IsFalse incoming.old.reader.is_closed }
// requires len { (0 < length message.now) × (slice_index message.now 0 ≡ 24 → 4 < length message.now) }
// ensures handled { OnOk result (handling incoming.new (map (λ v. v.items) handed.new.items)
//     ≡ after_message (handling incoming.old (map (λ v. v.items) handed.old.items)) message.now) }
// ensures allowed { OnOk result
//     (MayHandle (handling incoming.old (map (λ v. v.items) handed.old.items)) message.now) }
// ensures refused { IfErr result
//     (RefusesToHandle (handling incoming.old (map (λ v. v.items) handed.old.items)) message.now) }
// ensures kept { OnErr result ((incoming.new ≡ incoming.old) × (handed.new.items ≡ handed.old.items)) }
// ensures update_bound { incoming.new.update_bound ≡ incoming.old.update_bound }
// ensures is_ended { incoming.new.is_ended ≡ incoming.old.is_ended }
// ensures is_of { IsOfSecret incoming.new.reader.secret incoming.new.reader.key }
// ensures open { IsFalse incoming.new.reader.is_closed }
fn handle_message(
    incoming: &mut Incoming,
    message: &[u8],
    handed: &mut Vec<Vec<u8>>,
) -> Result<(), ReceiveError> {
    if message[0] == KEY_UPDATE {
        return incoming.update(message[4]);
    }
    handed.try_push(try_to_vec(message)?)?;
    Ok(())
}

/// Takes the messages of a handshake record: follows each KeyUpdate, and appends the messages of other types to `handed`.
// requires is_of { IsOfSecret incoming.old.reader.secret incoming.old.reader.key }
// requires open { IsFalse incoming.old.reader.is_closed × IsFalse messages.old.is_closed }
// ensures handled { OnOk result (HandlesAll messages.old.stage messages.old.bound messages.old.part content.entry.now
//     (handling incoming.old (map (λ v. v.items) handed.old.items)) messages.new.part
//     (handling incoming.new (map (λ v. v.items) handed.new.items))) }
// ensures rejected { IfErr result (λ error. RejectsMessages messages.old.stage messages.old.bound messages.old.part
//     content.entry.now (handling incoming.old (map (λ v. v.items) handed.old.items)) error messages.new.part
//     (handling incoming.new (map (λ v. v.items) handed.new.items))) }
// ensures is_ended { incoming.new.is_ended ≡ incoming.old.is_ended }
// ensures update_bound { incoming.new.update_bound ≡ incoming.old.update_bound }
// ensures rules { (messages.new.stage ≡ messages.old.stage) × (messages.new.bound ≡ messages.old.bound) }
// ensures open { OnOk result (IsFalse messages.new.is_closed) }
// ensures is_of { IsOfSecret incoming.new.reader.secret incoming.new.reader.key }
fn receive_messages(
    incoming: &mut Incoming,
    messages: &mut MessageReader<'_>,
    mut content: &[u8],
    handed: &mut Vec<Vec<u8>>,
) -> Result<(), ReceiveError> {
    while let Some(message) = messages.next(&mut content)? {
        handle_message(incoming, message, handed)?;
    }
    Ok(())
}

/// Returns whether an alert is close_notify, the end of the data, and not user_canceled. Any other alert is an error.
// requires { length alert.now ≡ 2 }
// ensures close_notify { IfOk result (λ is_end. slice_index alert.now 1 ≡ cond is_end 0 90) }
// ensures error { IfErr result (λ error. (error ≡ ReceiveError.Alert (slice_index alert.now 1))
//     × (slice_index alert.now 1 ≢ 0) × (slice_index alert.now 1 ≢ 90)) }
fn is_close_notify(alert: &[u8]) -> Result<bool, ReceiveError> {
    match alert[1] {
        CLOSE_NOTIFY => Ok(true),
        USER_CANCELED => Ok(false),
        number => Err(ReceiveError::Alert(number)),
    }
}

/// Takes the content of a record.
// requires is_of { IsOfSecret incoming.old.reader.secret incoming.old.reader.key }
// requires open { IsFalse incoming.old.reader.is_closed × IsFalse messages.old.is_closed }
// requires alert { content_type ≡ ContentType.Alert → length content.now ≡ 2 }
// ensures brings { OnOk result (Brings content_type content.now (receiving incoming.old messages.old received.old)
//     (receiving incoming.new messages.new received.new)) }
// ensures failed { IfErr result (λ error. FailsToBring (vec_capacity received.old.application_data)
//     content_type content.now (receiving incoming.old messages.old received.old) error
//     (receiving incoming.new messages.new received.new)) }
// ensures open { OnOk result (IsFalse messages.new.is_closed) }
// ensures capacity { vec_capacity received.old.application_data
//     ≤ vec_capacity received.new.application_data }
// ensures is_of { IsOfSecret incoming.new.reader.secret incoming.new.reader.key }
fn receive_content(
    incoming: &mut Incoming,
    messages: &mut MessageReader<'_>,
    content_type: ContentType,
    content: &[u8],
    received: &mut Received,
) -> Result<(), ReceiveError> {
    match content_type {
        ContentType::ApplicationData => {
            messages.admit_other_record()?;
            received.application_data.try_extend_from_slice(content)?;
            incoming.updates = if content.is_empty() {
                incoming.updates
            } else {
                0
            };
        }
        ContentType::Handshake => {
            receive_messages(incoming, messages, content, &mut received.messages)?;
        }
        ContentType::Alert => {
            let is_end = is_close_notify(content)?;
            messages.admit_other_record()?;
            incoming.is_ended = is_end;
        }
    }
    Ok(())
}

/// Receives one protected record, which is the whole of `bytes` and has this header.
// requires is_of { IsOfSecret incoming.old.reader.secret incoming.old.reader.key }
// requires going { IsFalse incoming.old.is_ended × IsFalse messages.old.is_closed }
// requires header { header.now ≡ take header_len bytes.old }
// requires begins { BeginsProtected bytes.old (length bytes.old) }
// ensures step { OnOk result (Step (receiving incoming.old messages.old received.old) bytes.old
//     (receiving incoming.new messages.new received.new)) }
// ensures failed { IfErr result (λ error. Fails (vec_capacity received.old.application_data)
//     (receiving incoming.old messages.old received.old) bytes.old error
//     (receiving incoming.new messages.new received.new)) }
// ensures left { IfErr result (LeavesRecord (receiving incoming.old messages.old received.old)
//     bytes.old bytes.new) }
// ensures open { OnOk result (IsFalse messages.new.is_closed) }
// ensures capacity { vec_capacity received.old.application_data
//     ≤ vec_capacity received.new.application_data }
// ensures is_of { IsOfSecret incoming.new.reader.secret incoming.new.reader.key }
fn receive_record(
    incoming: &mut Incoming,
    messages: &mut MessageReader<'_>,
    header: &Header,
    bytes: &mut [u8],
    received: &mut Received,
) -> Result<(), ReceiveError> {
    let (content_type, len) = incoming.reader.read_headed(header, bytes)?;
    receive_content(incoming, messages, content_type, &bytes[..len], received)
}

/// A whole protected record that a stream begins with.
struct FirstRecord {
    header: Header,
    /// Its length in bytes, including the header.
    len: usize,
}

/// Returns the protected record at the front of these bytes, or `None` if it is not whole.
// ensures header { IfOk result (λ found. IfSome found (λ first. first.header ≡ take header_len bytes.now)) }
// ensures len { IfOk result (λ found. IfSome found (λ first. (0 < first.len) × (first.len ≤ length bytes.now)
//     × BeginsProtected bytes.now first.len)) }
// ensures more { IfOk result (λ found. found ≡ None → NeedsMore bytes.now) }
// ensures refused { IfErr result (RefusesProtected bytes.now) }
fn first_record(bytes: &[u8]) -> Result<Option<FirstRecord>, RecordError> {
    let Some(header) = Header::read(bytes) else {
        return Ok(None);
    };
    match classify_headed(&header, bytes)? {
        Begins::Record(RecordKind::Protected, len) => Ok(Some(FirstRecord { header, len })),
        Begins::Record(_, _) => Err(RecordError::UnexpectedRecord),
        Begins::MoreNeeded(_) => Ok(None),
    }
}

/// Receives the whole records at the front of `bytes`, up to close_notify, and returns their length.
// requires is_of { IsOfSecret incoming.old.reader.secret incoming.old.reader.key }
// requires going { IsFalse incoming.old.is_ended × IsFalse messages.old.is_closed }
// ensures taken { IfOk result (λ n. Taken Step bytes.old (receiving incoming.old messages.old received.old)
//     n (receiving incoming.new messages.new received.new)) }
// ensures within { IfOk result (λ n. n ≤ length bytes.old) }
// ensures kept { IfOk result (λ n. drop n bytes.new ≡ drop n bytes.old) }
// ensures more { IfOk result (λ n. IsFalse incoming.new.is_ended → NeedsMore (drop n bytes.new)) }
// ensures rejected { IfErr result (λ error. Rejects (vec_capacity received.old.application_data) bytes.old bytes.new
//     (receiving incoming.old messages.old received.old) error
//     (receiving incoming.new messages.new received.new)) }
// ensures open { OnOk result (IsFalse messages.new.is_closed) }
// ensures capacity { vec_capacity received.old.application_data
//     ≤ vec_capacity received.new.application_data }
// ensures is_of { IsOfSecret incoming.new.reader.secret incoming.new.reader.key }
pub(super) fn receive_records(
    incoming: &mut Incoming,
    messages: &mut MessageReader<'_>,
    bytes: &mut [u8],
    received: &mut Received,
) -> Result<usize, ReceiveError> {
    let mut at = 0;
    while let Some(first) = first_record(&bytes[at..])? {
        let end = at + first.len;
        receive_record(
            incoming,
            messages,
            &first.header,
            &mut bytes[at..end],
            received,
        )?;
        if incoming.is_ended {
            return Ok(end);
        }
        at = end;
    }
    Ok(at)
}
