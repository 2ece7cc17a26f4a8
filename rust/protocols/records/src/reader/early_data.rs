// Written by tools/rust from crates/records/src/reader/early_data.rt. Don't edit.
//! Passing over the records of early data that a server has rejected (RFC 8446 section 4.2.10).

use super::Reader;
use crate::content_type::ContentType;
use crate::header::{MAX_ENCRYPTED_LEN, header_in};
use crate::record_error::RecordError;
use crate::{RECORD_OVERHEAD, TAG_LEN};

/// How much early data a server that has rejected it still passes over (RFC 8446 section 4.2.10).
///
/// Each record counts as its encrypted length less 17 bytes, those of a content type and a tag; padding counts, since it can't be
/// told from content (section 4.6.1).
///
/// <details><summary>Model</summary>
///
/// ```text
/// ghost Value = { EarlyDataState };
/// ghost view = { λ e. record { remaining = e.remaining; is_over = e.is_over } };
/// ```
///
/// Definitions: [`EarlyDataState`](crate::specs::early_data#EarlyDataState).
///
/// </details>
pub struct EarlyData {
    remaining: u64,
    is_over: bool,
}

impl EarlyData {
    /// Creates the state of rejected early data, of which at most `max_early_data_size` bytes are passed over: the number in the
    /// ticket that the client offers.
    ///
    /// <details><summary>Contract</summary>
    ///
    /// ```text
    /// ensures { result ≡ record { remaining = max_early_data_size; is_over = false } }
    /// ```
    ///
    /// </details>
    pub fn rejected(max_early_data_size: u32) -> Self {
        EarlyData {
            remaining: u64::from(max_early_data_size),
            is_over: false,
        }
    }

    /// Returns how many bytes may still be passed over.
    ///
    /// <details><summary>Contract</summary>
    ///
    /// ```text
    /// ensures { result ≡ self.now.remaining }
    /// ```
    ///
    /// </details>
    pub fn remaining(&self) -> u64 {
        self.remaining
    }

    /// Returns whether the early data is over, because a record was opened.
    ///
    /// <details><summary>Contract</summary>
    ///
    /// ```text
    /// ensures { result ≡ self.now.is_over }
    /// ```
    ///
    /// </details>
    pub fn is_over(&self) -> bool {
        self.is_over
    }

    /// Passes over the protected record that is the whole of `bytes`, without a key: after a HelloRetryRequest, a server passes
    /// over the records of type 23 until the second ClientHello.
    ///
    /// # Errors
    ///
    /// Fails with `TooMuchEarlyData` if the record counts as more than `remaining` bytes, or if the early data is over, and as
    /// `classify` does if `bytes` is not one protected record, of up to 2^14 + 256 bytes. Nothing is then counted.
    ///
    /// <details><summary>Contract</summary>
    ///
    /// ```text
    /// ensures accepted { IsOk result ↔ (IsEncryptedRecord bytes.now × IsFalse self.old.is_over
    ///     × (counted_len bytes.now ≤ self.old.remaining)) }
    /// ensures refused { IfErr result (RefusesToSkip self.old bytes.now) }
    /// ensures counted { OnOk result (self.new ≡ record self.old {
    ///   remaining = self.old.remaining - counted_len bytes.now;
    /// }) }
    /// ensures kept { OnErr result (self.new ≡ self.old) }
    /// ```
    ///
    /// Definitions: [`IsEncryptedRecord`](crate::specs::early_data#IsEncryptedRecord),
    /// [`counted_len`](crate::specs::early_data#counted_len),
    /// [`RefusesToSkip`](crate::specs::early_data#RefusesToSkip).
    ///
    /// </details>
    pub fn skip(&mut self, bytes: &[u8]) -> Result<(), RecordError> {
        header_in(MAX_ENCRYPTED_LEN - TAG_LEN, bytes)?;
        let counted = (bytes.len() - RECORD_OVERHEAD) as u64;
        if self.is_over || counted > self.remaining {
            return Err(RecordError::TooMuchEarlyData);
        }
        self.remaining -= counted;
        Ok(())
    }
}

impl Reader {
    /// Like `gather` at a server that has rejected early data, before the client's second flight (RFC 8446 section 4.2.10).
    ///
    /// Returns `None` if the record is passed over: it is not authentic, or it is longer than the size limit, which the client
    /// had not seen, but at most 2^14 + 256 bytes long. It uses no number, `early_data` counts it, and the buffer is unchanged.
    /// The first record that opens ends the early data: from then on this call does the same as `gather`.
    ///
    /// # Errors
    ///
    /// Fails with `TooMuchEarlyData` if the record counts as more than `early_data.remaining()` bytes, and in any other case as
    /// `gather` does.
    ///
    /// # Panics
    ///
    /// Panics if `at` and `end` aren't a range of `bytes`, or if `filled` is beyond the header at `at`.
    ///
    /// <details><summary>Contract</summary>
    ///
    /// ```text
    /// requires before { filled ≤ at + header_len }
    /// requires range { (at ≤ end) × (end ≤ length bytes.old) }
    /// ensures reads { ReadsPast self.old self.new early_data.old early_data.new
    ///     (slice_range bytes.old at end) (past_at filled bytes.new result) }
    /// ensures within { IfOk result (λ found. IfSome found (λ read. filled + encrypted_len read.1 ≤ end)) }
    /// ensures put { IfOk result (λ found. IfSome found
    ///     (LeavesInner (end - at) filled bytes.old bytes.new)) }
    /// ensures passed { IfOk result (λ found. IfNone found (bytes.new ≡ bytes.old)) }
    /// ensures kept { IfErr result (LeavesRefused self.old.key self.old.number
    ///     (slice_range bytes.old at end) filled bytes.old bytes.new) }
    /// ```
    ///
    /// Definitions: [`header_len`](crate::specs::record#header_len), [`ReadsPast`](crate::specs::early_data#ReadsPast),
    /// [`past_at`](crate::specs::early_data#past_at), [`encrypted_len`](crate::specs::record#encrypted_len),
    /// [`LeavesInner`](crate::specs::steps#LeavesInner), [`LeavesRefused`](crate::specs::steps#LeavesRefused).
    ///
    /// </details>
    pub fn gather_past_early_data(
        &mut self,
        early_data: &mut EarlyData,
        bytes: &mut [u8],
        filled: usize,
        at: usize,
        end: usize,
    ) -> Result<Option<(ContentType, usize)>, RecordError> {
        assert!(
            at <= end && end <= bytes.len(),
            "at and end aren't a range of bytes"
        );
        assert!(
            filled <= at + crate::HEADER_LEN,
            "filled is beyond the header at at"
        );

        let error = match self.gather(bytes, filled, at, end) {
            Ok(read) => {
                early_data.is_over = true;
                return Ok(Some(read));
            }
            Err(error) => error,
        };
        let may_be_skipped = matches!(
            error,
            RecordError::Refused | RecordError::InnerPlaintextTooLong
        );
        if early_data.is_over || !may_be_skipped {
            return Err(error);
        }
        match early_data.skip(&bytes[at..end]) {
            Ok(()) => {
                self.is_closed = false;
                Ok(None)
            }
            Err(RecordError::TooMuchEarlyData) => Err(RecordError::TooMuchEarlyData),
            Err(_) => Err(error),
        }
    }
}
