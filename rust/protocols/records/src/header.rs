// Written by tools/rust from crates/records/src/header.rt. Don't edit.
//! The header of a protected record: it is made and read, and the length that it announces is checked (RFC 8446 section 5.2).

use crate::record_error::RecordError;
use crate::{HEADER_LEN, TAG_LEN};

/// The length in bytes of the longest encrypted record that a header may announce, for any cipher (RFC 8446 section 5.2).
pub const MAX_ENCRYPTED_LEN: usize = 16640;

/// The content type in the header of each protected record (RFC 8446 section 5.2).
pub(crate) const APPLICATION_DATA: u8 = 23;

/// Returns the header of a protected record with `len` bytes after it. It is the AAD of these bytes (RFC 8446 section 5.2).
///
/// # Panics
///
/// Panics if `len` is 65,536 or more.
///
/// <details><summary>Contract</summary>
///
/// ```text
/// requires { len < 65536 }
/// ensures { result ≡ header len }
/// ```
///
/// Definitions: [`header`](crate::specs::record#header).
///
/// </details>
pub fn header_of(len: usize) -> [u8; HEADER_LEN] {
    assert!(len < 65536, "len is 65,536 or more");

    let [high, low] = (len as u16).to_be_bytes();
    [APPLICATION_DATA, 3, 3, high, low]
}

/// A header, and the length that it announces (RFC 8446 sections 5.1 and 5.2).
// Model:
// ghost Value = { List ℕ };
// ghost view = { λ header. header.bytes };
// ghost invariant = { λ header. header.payload_len ≡ body_len header.bytes };
pub(crate) struct Header {
    pub(crate) bytes: [u8; HEADER_LEN],
    pub(crate) payload_len: usize,
}

impl Header {
    /// Returns the header at the front of these bytes, or `None` if they are fewer than 5.
    // ensures whole { IsSome result ↔ (header_len ≤ length bytes.now) }
    // ensures header { IfSome result (λ header. header ≡ take header_len bytes.now) }
    pub(crate) fn read(bytes: &[u8]) -> Option<Header> {
        let bytes = bytes.first_chunk::<HEADER_LEN>()?;
        let [_, _, _, high, low] = *bytes;
        Some(Header {
            bytes: *bytes,
            payload_len: usize::from(u16::from_be_bytes([high, low])),
        })
    }

    /// Returns the length of the protected record that begins with this header, including the header, if the header is allowed.
    // requires { size_limit ≤ 2 ^ 14 + 256 - tag_len }
    // ensures accepted { IsOk result ↔ IsHeader size_limit self.now }
    // ensures len { IfOk result (λ n. n ≡ header_len + body_len self.now) }
    // ensures refused { IfErr result (RefusesHeader size_limit self.now) }
    pub(crate) fn record_len(&self, size_limit: usize) -> Result<usize, RecordError> {
        let [content_type, major, minor, _, _] = self.bytes;
        if content_type != APPLICATION_DATA || major != 3 || minor != 3 {
            return Err(RecordError::UnexpectedRecord);
        }
        check_encrypted_len(size_limit, self.payload_len)?;
        Ok(HEADER_LEN + self.payload_len)
    }
}

/// Checks the length that a header announces, that of the encrypted record after it (RFC 8446 section 5.2).
// requires { size_limit ≤ 2 ^ 14 + 256 - tag_len }
// ensures accepted { IsOk result ↔ ((1 + tag_len ≤ len) × (len ≤ size_limit + tag_len)) }
// ensures refused { IfErr result (RefusesLen size_limit len) }
pub(crate) fn check_encrypted_len(size_limit: usize, len: usize) -> Result<(), RecordError> {
    if len > MAX_ENCRYPTED_LEN {
        return Err(RecordError::EncryptedRecordTooLong);
    }
    if len > size_limit + TAG_LEN {
        return Err(RecordError::InnerPlaintextTooLong);
    }
    if len < 1 + TAG_LEN {
        return Err(RecordError::EncryptedRecordTooShort);
    }
    Ok(())
}

/// Returns the header of the record with this payload, if its length is allowed.
// requires { size_limit ≤ 2 ^ 14 + 256 - tag_len }
// ensures accepted { IsOk result ↔ IsWhole size_limit (header (length payload.now) ++ payload.now) }
// ensures header { IfOk result (λ made. made ≡ header (length payload.now)) }
// ensures refused { length payload.now ≤ 2 ^ 14 + 256
//     → IfErr result (RefusesBytes size_limit (header (length payload.now) ++ payload.now)) }
// ensures too_long { IsErrOf result RecordError.EncryptedRecordTooLong ↔ (2 ^ 14 + 256 < length payload.now) }
pub(crate) fn header_of_payload(
    size_limit: usize,
    payload: &[u8],
) -> Result<[u8; HEADER_LEN], RecordError> {
    check_encrypted_len(size_limit, payload.len())?;
    Ok(header_of(payload.len()))
}

/// Returns whether the inner plaintext of this record, which is whole, is within the size limit.
// requires limit { size_limit ≤ 2 ^ 14 + 1 }
// requires begins { BeginsProtected bytes.now (length bytes.now) }
// ensures whole { IsTrue result → IsWhole size_limit bytes.now }
// ensures long { IsFalse result → size_limit + tag_len < body_len (take header_len bytes.now) }
pub(crate) fn is_within(size_limit: usize, bytes: &[u8]) -> bool {
    bytes.len() <= HEADER_LEN + size_limit + TAG_LEN
}

/// Returns the header of these bytes, if they are one whole record.
// requires { size_limit ≤ 2 ^ 14 + 256 - tag_len }
// ensures accepted { IsOk result ↔ IsWhole size_limit bytes.now }
// ensures header { IfOk result (λ header. header ≡ take header_len bytes.now) }
// ensures refused { IfErr result (RefusesBytes size_limit bytes.now) }
pub(crate) fn header_in(size_limit: usize, bytes: &[u8]) -> Result<[u8; HEADER_LEN], RecordError> {
    let Some(header) = Header::read(bytes) else {
        return Err(RecordError::WrongLength);
    };
    if header.record_len(size_limit)? != bytes.len() {
        return Err(RecordError::WrongLength);
    }
    Ok(header.bytes)
}
