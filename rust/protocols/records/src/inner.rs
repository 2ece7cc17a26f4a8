// Written by tools/rust from crates/records/src/inner.rt. Don't edit.
//! The inner plaintext of a record, which is content, type and padding: it is made, and taken apart (RFC 8446 section 5.4).

use crate::alert::ALERT_LEN;
use crate::content_type::ContentType;
use crate::record_error::RecordError;

/// Returns the length of the inner plaintext of a content of this type and length, if it may be sent.
// requires { size_limit ≤ 2 ^ 14 + 1 }
// ensures accepted { IsOk result ↔ IsAllowed size_limit content_type content_len padding }
// ensures len { IfOk result (λ n. n ≡ content_len + 1 + padding) }
// ensures refused { IfErr result (RefusesContent size_limit content_type content_len padding) }
pub(crate) fn inner_len(
    size_limit: usize,
    content_type: ContentType,
    content_len: usize,
    padding: usize,
) -> Result<usize, RecordError> {
    if content_len == 0 && !content_type.may_be_empty() {
        return Err(RecordError::EmptyContent);
    }
    if content_type == ContentType::Alert && content_len != ALERT_LEN {
        return Err(RecordError::AlertLength);
    }
    if content_len >= size_limit || padding >= size_limit - content_len {
        return Err(RecordError::ContentTooLong);
    }
    Ok(content_len + 1 + padding)
}

/// Writes the value of a content type and zeros after a content, which is the first `content_len` bytes of `inner`. `inner` is
/// then the inner plaintext of that content and type, with the zeros as padding (RFC 8446 section 5.4).
///
/// # Panics
///
/// Panics if `inner` has no byte after the content.
///
/// <details><summary>Contract</summary>
///
/// ```text
/// requires { content_len < length inner.old }
/// ensures { inner.new ≡ plaintext (take content_len inner.old) content_type
///     (length inner.old - 1 - content_len) }
/// ```
///
/// Definitions: [`plaintext`](crate::specs::record#plaintext).
///
/// </details>
pub fn write_type_and_padding(inner: &mut [u8], content_type: u8, content_len: usize) {
    assert!(
        content_len < inner.len(),
        "inner has no byte after the content"
    );

    inner[content_len] = content_type;
    inner[content_len + 1..].fill(0);
}

/// Returns the type and the length of the content of an inner plaintext.
// ensures found { IfOk result (λ found. (found.1 ≡ 0 → found.0 ≡ ContentType.ApplicationData)
//     × (found.0 ≡ ContentType.Alert → found.1 ≡ 2)
//     × (padding : ℕ) × (found.1 + 1 + padding ≡ length inner.now) × (inner.now ≡ inner_plaintext (record {
//       content_type = found.0;
//       content = take found.1 inner.now;
//       padding = padding;
//     }))) }
// ensures refused { IfErr result (RefusesInner inner.now) }
pub(crate) fn content_of(inner: &[u8]) -> Result<(ContentType, usize), RecordError> {
    let Some((code, len)) = last_nonzero(inner) else {
        return Err(RecordError::NoContentType);
    };
    let Some(content_type) = ContentType::from_code(code) else {
        return Err(RecordError::UnexpectedType);
    };
    if len == 0 && !content_type.may_be_empty() {
        return Err(RecordError::EmptyContent);
    }
    if content_type == ContentType::Alert && len != ALERT_LEN {
        return Err(RecordError::AlertLength);
    }
    Ok((content_type, len))
}

/// Returns the last nonzero byte of an inner plaintext, which is the content type, and its index, which is the length of the
/// content (RFC 8446 section 5.4). Returns `None` if all bytes are zero. It reads every byte, whatever the length of the padding.
///
/// <details><summary>Contract</summary>
///
/// ```text
/// ensures found { IfSome result (λ found. (found.0 ≢ 0)
///     × (padding : ℕ) × (found.1 + 1 + padding ≡ length inner.now)
///     × (inner.now ≡ plaintext (take found.1 inner.now) found.0 padding)) }
/// ensures zeros { IfNone result (inner.now ≡ replicate (length inner.now) 0) }
/// ```
///
/// Definitions: [`plaintext`](crate::specs::record#plaintext).
///
/// </details>
pub fn last_nonzero(inner: &[u8]) -> Option<(u8, usize)> {
    let mut len = 0;
    for (i, byte) in inner.iter().enumerate() {
        len += usize::from(*byte != 0) * (i - len);
    }
    let code = *inner.get(len)?;
    if code == 0 { None } else { Some((code, len)) }
}
