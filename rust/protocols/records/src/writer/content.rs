// Written by tools/rust from crates/records/src/writer/content.rt. Don't edit.
//! Writing a content of any length, cut into as many records as it takes (RFC 8446 section 5.1).

use super::Writer;
use crate::RECORD_OVERHEAD;
use crate::content_type::ContentType;
use crate::key::RecordKey;
use crate::record_error::RecordError;
use deerlapse::memory::TryGrow;

/// How a content is cut into records.
#[derive(Clone, Copy)]
pub(crate) struct Cut {
    /// The most bytes of the content in a record.
    room: usize,
    /// The number of records.
    count: usize,
}

impl Cut {
    /// Returns the number of records.
    // ensures { result ≡ self.count }
    pub(crate) fn count(self) -> usize {
        self.count
    }

    /// Returns the length of `before` bytes and the records of `len` bytes after them, or `None` if it doesn't fit in a `usize`.
    // requires { padding ≤ 2 ^ 14 }
    // ensures some { IfSome result (λ n. n ≡ before + (len + self.count * record_len padding)) }
    // ensures none { IfNone result (2 ^ 64 ≤ before + (len + self.count * record_len padding)) }
    pub(crate) fn records_len(self, before: usize, len: usize, padding: usize) -> Option<usize> {
        let overhead = self.count.checked_mul(padding + RECORD_OVERHEAD)?;
        overhead.checked_add(len)?.checked_add(before)
    }

    /// Returns the part of a content that is in record `i`, counted from 0.
    // requires { i * self.room ≤ length content.now }
    // ensures { result.now ≡ take self.room (drop (i * self.room) content.now) }
    fn piece(self, content: &[u8], i: usize) -> &[u8] {
        let rest = &content[i * self.room..];
        &rest[..self.room.min(rest.len())]
    }
}

impl Writer {
    /// Seals a content of any length in as many records as it takes (RFC 8446 section 5.1), under the next numbers, and returns
    /// their length in bytes.
    ///
    /// The records are at the front of `out`, one after another, each with `padding` zeros; the bytes after them are unchanged.
    /// Each but the last has as much of the content as the size limit allows. An empty content of application data is one record,
    /// and an alert is never cut.
    ///
    /// A failure changes nothing and uses no number. The errors come in this order:
    ///
    /// - `EmptyContent` for an empty alert or handshake content;
    /// - `AlertLength` for an alert that doesn't have two bytes;
    /// - `ContentTooLong` if the padding leaves no room for an alert or, with another type, for one byte of the content;
    /// - `KeyUsedUp` if fewer numbers are left than there are records;
    /// - `NoRoom` if `out` is too short for all records.
    ///
    /// <details><summary>Contract</summary>
    ///
    /// ```text
    /// ensures accepted { IsOk result
    ///     ↔ (IsWritable self.old content_type (length content.now) padding
    ///     × (records_len self.old.key.size_limit padding (length content.now) ≤ length out.old)) }
    /// ensures refused { IfErr result (RefusesToSealAll
    ///     self.old content_type (length content.now) padding (length out.old)) }
    /// ensures len { IfOk result
    ///     (λ n. n ≡ records_len self.old.key.size_limit padding (length content.now)) }
    /// ensures sealed { OnOk result (out.new
    ///     ≡ concat (records_of self.old content_type padding content.now)
    ///     ++ drop (records_len self.old.key.size_limit padding (length content.now)) out.old) }
    /// ensures counted { OnOk result
    ///     (self.new ≡ after_content self.old padding (length content.now)) }
    /// ensures kept { OnErr result ((self.new ≡ self.old) × (out.new ≡ out.old)) }
    /// ```
    ///
    /// Definitions: [`IsWritable`](crate::specs::content#IsWritable),
    /// [`records_len`](crate::specs::content#records_len),
    /// [`RefusesToSealAll`](crate::specs::content#RefusesToSealAll), [`records_of`](crate::specs::content#records_of),
    /// [`after_content`](crate::specs::content#after_content).
    ///
    /// </details>
    pub fn seal_content(
        &mut self,
        content_type: ContentType,
        content: &[u8],
        padding: usize,
        out: &mut [u8],
    ) -> Result<usize, RecordError> {
        let cut = self.check_content(content_type, content.len(), padding)?;
        match cut.records_len(0, content.len(), padding) {
            Some(len) if len <= out.len() => {
                seal_pieces(
                    &self.key,
                    self.number,
                    cut,
                    content_type,
                    content,
                    padding,
                    out,
                );
                self.number += cut.count as u64;
                Ok(len)
            }
            _ => Err(RecordError::NoRoom),
        }
    }

    /// Appends a content of any length to `out`, in as many records as it takes (RFC 8446 section 5.1). The records and the
    /// errors are those of `seal_content`, in the same order, except for `NoRoom`.
    ///
    /// A failure appends nothing and uses no number. Fails with `OutOfMemory` only if the capacity of `out` is too small for the
    /// records.
    ///
    /// <details><summary>Contract</summary>
    ///
    /// ```text
    /// ensures outcome { AppendOutcome (IsWritable self.old content_type (length content.now) padding)
    ///     (RefusesToWriteAll self.old content_type (length content.now) padding)
    ///     (concat (records_of self.old content_type padding content.now)) out.old out.new result
    ///     self.old self.new (after_content self.old padding (length content.now)) }
    /// ```
    ///
    /// Definitions: [`AppendOutcome`](crate::specs::appending#AppendOutcome),
    /// [`IsWritable`](crate::specs::content#IsWritable),
    /// [`RefusesToWriteAll`](crate::specs::content#RefusesToWriteAll),
    /// [`records_of`](crate::specs::content#records_of), [`after_content`](crate::specs::content#after_content).
    ///
    /// </details>
    pub fn write_content(
        &mut self,
        content_type: ContentType,
        content: &[u8],
        padding: usize,
        out: &mut Vec<u8>,
    ) -> Result<(), RecordError> {
        let cut = self.check_content(content_type, content.len(), padding)?;
        let Some(len) = cut.records_len(0, content.len(), padding) else {
            return Err(RecordError::OutOfMemory);
        };
        out.try_grow(len)?;
        self.append_content(cut, content_type, content, padding, out);
        Ok(())
    }

    /// Checks that a content of this type and length may be written, and returns how it is cut.
    // ensures accepted { IsOk result ↔ IsWritable self.now content_type len padding }
    // ensures refused { IfErr result (RefusesToWrite self.now content_type len padding) }
    // ensures cut { IfOk result (IsCut self.now.key.size_limit padding len) }
    fn check_content(
        &self,
        content_type: ContentType,
        len: usize,
        padding: usize,
    ) -> Result<Cut, RecordError> {
        let least = least_piece(content_type, len);
        self.key.inner_len(content_type, least, padding)?;
        let cut = self.cut(len, padding);
        if self.limit.saturating_sub(self.number) < cut.count as u64 {
            return Err(RecordError::KeyUsedUp);
        }
        Ok(cut)
    }

    /// Returns how a content of this length is cut, if its records have room for this padding and for a byte of the content.
    // requires { min len 1 + 1 + padding ≤ self.now.key.size_limit }
    // ensures cut { IsCut self.now.key.size_limit padding len result }
    // ensures some { 0 < result.count }
    pub(crate) fn cut(&self, len: usize, padding: usize) -> Cut {
        let room = self.key.size_limit() - 1 - padding;
        Cut {
            room,
            count: record_count(room, len),
        }
    }

    /// Appends the records of a content under the next numbers to `out`, which has room for them.
    // requires writable { IsWritable self.old content_type (length content.now) padding }
    // requires cut { IsCut self.old.key.size_limit padding (length content.now) cut }
    // requires room { vec_len out.old + records_len self.old.key.size_limit padding (length content.now)
    //     ≤ vec_capacity out.old }
    // ensures appended { out.new.items
    //     ≡ out.old.items ++ concat (records_of self.old content_type padding content.now) }
    // ensures capacity { vec_capacity out.old ≤ vec_capacity out.new }
    // ensures counted { self.new ≡ after_content self.old padding (length content.now) }
    pub(crate) fn append_content(
        &mut self,
        cut: Cut,
        content_type: ContentType,
        content: &[u8],
        padding: usize,
        out: &mut Vec<u8>,
    ) {
        append_pieces(
            &self.key,
            self.number,
            cut,
            content_type,
            content,
            padding,
            out,
        );
        self.number += cut.count as u64;
    }
}

/// Seals the pieces of a content, from the front of `out` on.
// requires allowed { IsAllowed key.now.size_limit content_type
//     (least_piece content_type (length content.now)) padding }
// requires cut { IsCut key.now.size_limit padding (length content.now) cut }
// requires numbers { first + cut.count < 2 ^ 64 }
// requires fits { records_len key.now.size_limit padding (length content.now)
//     ≤ length out.old }
// ensures { out.new ≡ concat (consecutive_records key.now first
//     (pieces content_type key.now.size_limit padding content.now))
//     ++ drop (records_len key.now.size_limit padding (length content.now)) out.old }
fn seal_pieces(
    key: &RecordKey,
    first: u64,
    cut: Cut,
    content_type: ContentType,
    content: &[u8],
    padding: usize,
    out: &mut [u8],
) {
    let mut filled = 0;
    for i in 0..cut.count {
        let piece = cut.piece(content, i);
        let number = first + i as u64;
        filled = seal_piece(key, number, content_type, piece, padding, out, filled);
    }
}

/// Seals the record of a piece from `filled` on, and returns where it ends.
// requires fits { length piece.now + padding ≤ 2 ^ 14 }
// requires room { filled + record_len (length piece.now + padding) ≤ length out.old }
// ensures end { result ≡ filled + record_len (length piece.now + padding) }
// ensures sealed { out.new ≡ take filled out.old ++ (record_at key.now number (record {
//   content_type = content_type;
//   content = piece.now;
//   padding = padding;
// }) ++ drop result out.old) }
fn seal_piece(
    key: &RecordKey,
    number: u64,
    content_type: ContentType,
    piece: &[u8],
    padding: usize,
    out: &mut [u8],
    filled: usize,
) -> usize {
    let end = filled + piece.len() + padding + RECORD_OVERHEAD;
    key.seal_from(number, content_type, piece, &mut out[filled..end]);
    end
}

/// Appends the records of the pieces of a content to `out`, which has room for them.
// requires allowed { IsAllowed key.now.size_limit content_type
//     (least_piece content_type (length content.now)) padding }
// requires cut { IsCut key.now.size_limit padding (length content.now) cut }
// requires numbers { first + cut.count < 2 ^ 64 }
// requires room { vec_len out.old + records_len key.now.size_limit padding (length content.now)
//     ≤ vec_capacity out.old }
// ensures appended { out.new.items ≡ out.old.items ++ concat (consecutive_records key.now first
//     (pieces content_type key.now.size_limit padding content.now)) }
// ensures capacity { vec_capacity out.old ≤ vec_capacity out.new }
fn append_pieces(
    key: &RecordKey,
    first: u64,
    cut: Cut,
    content_type: ContentType,
    content: &[u8],
    padding: usize,
    out: &mut Vec<u8>,
) {
    for i in 0..cut.count {
        let piece = cut.piece(content, i);
        key.append(first + i as u64, content_type, piece, padding, out);
    }
}

/// Returns the smallest part of a content of `len` bytes that a record may have.
// ensures { result ≡ least_piece content_type len }
fn least_piece(content_type: ContentType, len: usize) -> usize {
    match content_type {
        ContentType::Alert => len,
        ContentType::Handshake | ContentType::ApplicationData => len.min(1),
    }
}

/// Returns the number of records of `len` bytes of content, of which each has at most `room` bytes.
// requires { 0 < len → 0 < room }
// ensures count { result ≡ record_count room len }
// ensures some { 0 < result }
fn record_count(room: usize, len: usize) -> usize {
    if len == 0 { 1 } else { len.div_ceil(room) }
}
