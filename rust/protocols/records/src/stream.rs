// Written by tools/rust from crates/records/src/stream.rt. Don't edit.
//! The record that a stream of bytes begins with, found by its header: its kind and its length (RFC 8446 section 5).

use crate::header::{APPLICATION_DATA, Header};
use crate::record_error::RecordError;
use crate::{HEADER_LEN, MAX_CONTENT_LEN, MAX_SIZE_LIMIT};

/// The kind of a record, by its header.
#[derive(Clone, Copy, Debug, PartialEq, Eq)]
pub enum RecordKind {
    /// A protected record (RFC 8446 section 5.2), for a `Reader`.
    Protected,
    /// Handshake messages in plaintext (RFC 8446 section 5.1): a ClientHello, a ServerHello or a HelloRetryRequest.
    Handshake,
    /// An alert in plaintext (RFC 8446 section 5.1). A peer without keys sends one.
    Alert,
    /// A ChangeCipherSpec, whose one byte is 1. It is dropped between the first ClientHello and the peer's Finished, and ends
    /// the connection at any other time (RFC 8446 section 5).
    ChangeCipherSpec,
}

/// What a stream of bytes begins with.
#[derive(Clone, Copy, Debug, PartialEq, Eq)]
pub enum Begins {
    /// A whole record, and its length in bytes, including its header.
    Record(RecordKind, usize),
    /// Less than a whole record: at least this many bytes are needed in all.
    MoreNeeded(usize),
}

/// Returns what a stream begins with, given the bytes that were received so far.
///
/// If the bytes begin with no record that a connection of TLS 1.3 can have, this fails with an error that has an alert, as soon
/// as the header is complete. The version of a plaintext record is ignored (RFC 8446 section 5.1). Whether a record is allowed
/// at this point is the caller's responsibility, and so is dropping a ChangeCipherSpec.
///
/// # Examples
///
/// Takes the first record of a stream before the peer's Finished: opens a protected record, and drops a ChangeCipherSpec. The peer's
/// plaintext messages came before.
///
/// ```
/// # use key_derivation as deerlapse_key_derivation;
/// use deerlapse_key_derivation::Secret;
/// use deerlapse_tls::{Begins, ContentType, Reader, RecordError, RecordKind, Writer, classify};
///
/// /// Returns the number of bytes taken, which is 0 if more are needed, and the type and the length of the content of a record that
/// /// was opened, which is then at the front of the stream.
/// fn take_record(
///     reader: &mut Reader,
///     stream: &mut [u8],
/// ) -> Result<(usize, Option<(ContentType, usize)>), RecordError> {
///     match classify(stream)? {
///         Begins::Record(RecordKind::Protected, len) => {
///             let content = reader.gather(stream, 0, 0, len)?;
///             Ok((len, Some(content)))
///         }
///         Begins::Record(RecordKind::ChangeCipherSpec, len) => Ok((len, None)),
///         Begins::Record(RecordKind::Handshake | RecordKind::Alert, _) => {
///             Err(RecordError::UnexpectedRecord)
///         }
///         Begins::MoreNeeded(_) => Ok((0, None)),
///     }
/// }
///
/// fn main() -> Result<(), RecordError> {
///     let secret = || Secret::aes_128_gcm([7; 32]);
///     let mut stream = vec![20, 3, 3, 0, 1, 1]; // a ChangeCipherSpec
///     let finished = [20, 0, 0, 1, 9];
///     Writer::from_secret(secret()).write(ContentType::Handshake, &finished, 0, &mut stream)?;
///
///     let mut reader = Reader::from_secret(secret());
///     assert_eq!(take_record(&mut reader, &mut stream), Ok((6, None)));
///     let record = &mut stream[6..];
///     assert_eq!(classify(&record[..26]), Ok(Begins::MoreNeeded(27)));
///     let content = Some((ContentType::Handshake, 5));
///     assert_eq!(take_record(&mut reader, record), Ok((27, content)));
///     assert_eq!(record[..5], finished);
///     Ok(())
/// }
/// ```
///
/// <details><summary>Contract</summary>
///
/// ```text
/// ensures begins { IfOk result (BeginsWith bytes.now) }
/// ensures refused { IfErr result (RefusesToClassify bytes.now) }
/// ```
///
/// Definitions: [`BeginsWith`](crate::specs::stream#BeginsWith),
/// [`RefusesToClassify`](crate::specs::stream#RefusesToClassify).
///
/// </details>
pub fn classify(bytes: &[u8]) -> Result<Begins, RecordError> {
    match Header::read(bytes) {
        Some(header) => classify_headed(&header, bytes),
        None => Ok(Begins::MoreNeeded(HEADER_LEN)),
    }
}

/// Returns what a stream begins with, given its header, which was read.
// requires whole { header_len ≤ length bytes.now }
// requires header { header.now ≡ take header_len bytes.now }
// ensures begins { IfOk result (BeginsWith bytes.now) }
// ensures refused { IfErr result (RefusesToClassify bytes.now) }
pub(crate) fn classify_headed(header: &Header, bytes: &[u8]) -> Result<Begins, RecordError> {
    let (kind, len) = kind_of(header)?;
    if bytes.len() < len {
        return Ok(Begins::MoreNeeded(len));
    }
    if kind == RecordKind::ChangeCipherSpec && bytes[HEADER_LEN] != 1 {
        return Err(RecordError::UnexpectedRecord);
    }
    Ok(Begins::Record(kind, len))
}

/// Returns the kind of the record that begins with this header, and its length, including the header.
// ensures kind { IfOk result (λ kind. IsHeaderOf kind.0 header.now) }
// ensures len { IfOk result (λ kind. kind.1 ≡ header_len + body_len header.now) }
// ensures refused { IfErr result (RefusesStart header.now) }
fn kind_of(header: &Header) -> Result<(RecordKind, usize), RecordError> {
    let first = header.bytes[0];
    if first == APPLICATION_DATA {
        return Ok((RecordKind::Protected, header.record_len(MAX_SIZE_LIMIT)?));
    }
    let len = header.payload_len;
    if len > MAX_CONTENT_LEN {
        return Err(RecordError::PlaintextTooLong);
    }
    let kind = match (first, len) {
        (22, 1..) => RecordKind::Handshake,
        (21, 2) => RecordKind::Alert,
        (20, 1) => RecordKind::ChangeCipherSpec,
        _ => return Err(RecordError::UnexpectedRecord),
    };
    Ok((kind, HEADER_LEN + len))
}
