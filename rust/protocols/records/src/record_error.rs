// Written by tools/rust from crates/records/src/record_error.rt. Don't edit.
//! The errors of sealing, opening and classifying records, with the alert that each calls for.

use deerlapse::memory::AllocError;
use std::error::Error;
use std::fmt;
use tls_messages::AlertDescription;

/// The error of sealing, opening or classifying a record.
#[derive(Clone, Copy, Debug, PartialEq, Eq)]
pub enum RecordError {
    /// The key is not as long as the algorithm's keys.
    KeyLength,
    /// The reader or writer was made of a key and an IV, so it has no secret that gives the next ones.
    NoSecret,
    /// The reader or writer was made of a secret, which gives the next key and IV.
    HasSecret,
    /// The next key and IV of a writer are those that it has, under which it would use numbers again.
    SameKey,
    /// The size limit is not from 64 to 2^14 + 1 bytes (RFC 8449 section 4).
    SizeLimit,
    /// The RecordSizeLimit that the peer sent is below 64 or, from a server, above 2^14 + 1 bytes (RFC 8449 section 4).
    PeerSizeLimit,
    /// The content, its type and its padding exceed the size limit (RFC 8446 section 5.4, RFC 8449 section 4).
    ContentTooLong,
    /// The buffer has no room for the record: its content and padding, and 22 bytes more. To open to it, it has no room for the
    /// inner plaintext.
    NoRoom,
    /// Allocating memory for the record failed.
    OutOfMemory,
    /// The limit on records under this key is reached, or would be passed by the records of a content (RFC 8446 section 5.5).
    KeyUsedUp,
    /// The reader has rejected a record before, which ended the connection.
    Closed,
    /// The bytes are not one whole record: the header is cut off, or announces another length.
    WrongLength,
    /// The header is of no record that is allowed here: a reader only takes application data of version 0x0303 (RFC 8446
    /// section 5.2), and a connection only has the records of `RecordKind`.
    UnexpectedRecord,
    /// The header announces a plaintext record of more than 2^14 bytes (RFC 8446 section 5.1).
    PlaintextTooLong,
    /// The header announces more than 2^14 + 256 bytes (RFC 8446 section 5.2).
    EncryptedRecordTooLong,
    /// The header announces at most 2^14 + 256 bytes, but more than an inner plaintext within the size limit and its tag (RFC
    /// 8446 section 5.4, RFC 8449 section 4).
    InnerPlaintextTooLong,
    /// The header announces fewer than the 17 bytes of a content type and a tag.
    EncryptedRecordTooShort,
    /// The tag is wrong: the record was changed, or is of another key or number.
    Refused,
    /// The record is taken as rejected early data, and there is more of it than the server allows (RFC 8446 sections 4.2.10 and
    /// 4.6.1).
    TooMuchEarlyData,
    /// The record is authentic, but its inner plaintext is all zeros (RFC 8446 section 5.4).
    NoContentType,
    /// The record is authentic, but a protected record cannot have its content type (RFC 8446 section 5).
    UnexpectedType,
    /// An alert or a handshake content is empty, when writing it or, in an authentic record, reading it (RFC 8446 section 5.4).
    EmptyContent,
    /// An alert has a number of bytes other than 2 and 0, when writing it or, in an authentic record, reading it (RFC 8446
    /// sections 5.1 and 6).
    AlertLength,
    /// A handshake message may not be sent at the stage of the connection, or follows a Finished, which ends its record (RFC 8446
    /// sections 4.6 and 5.1).
    MessageType,
    /// The handshake messages to be sent are not whole.
    MessageLength,
    /// The connection has sent close_notify or a fatal alert, after which it sends nothing (RFC 8446 sections 6.1 and 6.2).
    Ended,
}

impl RecordError {
    /// Returns the alert that ends the connection when reading or classifying a record fails with this error, or `None` if the
    /// record is not the cause (RFC 8446 sections 5.1, 5.2, 5.4 and 6.2).
    ///
    /// <details><summary>Contract</summary>
    ///
    /// ```text
    /// ensures { result ≡ alert_of self }
    /// ```
    ///
    /// Definitions: [`alert_of`](crate::specs::refusals#alert_of).
    ///
    /// </details>
    pub fn alert(self) -> Option<AlertDescription> {
        match self {
            RecordError::EncryptedRecordTooShort | RecordError::Refused => {
                Some(AlertDescription::BadRecordMac)
            }
            RecordError::EncryptedRecordTooLong
            | RecordError::InnerPlaintextTooLong
            | RecordError::PlaintextTooLong => Some(AlertDescription::RecordOverflow),
            RecordError::UnexpectedRecord
            | RecordError::TooMuchEarlyData
            | RecordError::UnexpectedType
            | RecordError::NoContentType
            | RecordError::EmptyContent => Some(AlertDescription::UnexpectedMessage),
            RecordError::AlertLength => Some(AlertDescription::DecodeError),
            RecordError::PeerSizeLimit => Some(AlertDescription::IllegalParameter),
            _ => None,
        }
    }

    /// Returns the text of the error.
    fn text(self) -> &'static str {
        match self {
            RecordError::KeyLength => "the key does not have the length of the algorithm's keys",
            RecordError::NoSecret => "there is no secret that gives the next key",
            RecordError::HasSecret => "the next key is given by the secret",
            RecordError::SameKey => "the next key and IV are those of this key",
            RecordError::SizeLimit => "the size limit is not between 64 and 2^14 + 1",
            RecordError::PeerSizeLimit => "the peer's size limit is not an allowed one",
            RecordError::ContentTooLong => {
                "the content and its padding are longer than the size limit allows"
            }
            RecordError::NoRoom => "the buffer has no room for the record",
            RecordError::OutOfMemory => "no memory for the record",
            RecordError::KeyUsedUp => "the limit of records under this key is reached",
            RecordError::Closed => "the reader is closed, since it has rejected a record",
            RecordError::WrongLength => "the record does not have the length that its header gives",
            RecordError::UnexpectedRecord => "the record header is not an expected one",
            RecordError::PlaintextTooLong => "the plaintext record has more than 2^14 bytes",
            RecordError::EncryptedRecordTooLong => {
                "the encrypted record has more than 2^14 + 256 bytes"
            }
            RecordError::InnerPlaintextTooLong => {
                "the inner plaintext is longer than the size limit"
            }
            RecordError::EncryptedRecordTooShort => "the encrypted record has fewer than 17 bytes",
            RecordError::Refused => "the record is not authentic",
            RecordError::TooMuchEarlyData => "there is more early data than the server allows",
            RecordError::NoContentType => "the inner plaintext has no content type",
            RecordError::UnexpectedType => "a protected record cannot have this content type",
            RecordError::EmptyContent => "an alert or handshake record has no content",
            RecordError::AlertLength => "an alert does not have 2 bytes",
            RecordError::MessageType => "a handshake message may not be sent here",
            RecordError::MessageLength => "the handshake messages are not whole",
            RecordError::Ended => "the connection has sent its last record",
        }
    }
}

impl fmt::Display for RecordError {
    fn fmt(&self, f: &mut fmt::Formatter<'_>) -> fmt::Result {
        f.write_str(self.text())
    }
}

impl Error for RecordError {}

/// <details><summary>Ghost items</summary>
///
/// ```text
/// // What holds of the argument of `from` and of what it returns.
/// ghost from_gives = { λ _ error. error ≡ OutOfMemory };
/// ```
///
/// </details>
impl From<AllocError> for RecordError {
    fn from(_error: AllocError) -> Self {
        RecordError::OutOfMemory
    }
}
