// Written by tools/rust from crates/records/src/side.rt. Don't edit.
//! The two sides of a connection, and the size limit that each takes from the peer's RecordSizeLimit (RFC 8449 section 4).

use crate::record_error::RecordError;
use crate::{MAX_SIZE_LIMIT, MIN_SIZE_LIMIT};

/// A side of a connection.
#[derive(Clone, Copy, Debug, PartialEq, Eq)]
pub enum Side {
    Client,
    Server,
}

impl Side {
    /// Returns the size limit for what this side sends to a peer that sent this RecordSizeLimit (RFC 8449 section 4).
    ///
    /// A server takes a value above 2^14 + 1 as 2^14 + 1, since the client may know of an extension with longer records.
    ///
    /// # Errors
    ///
    /// Fails with `PeerSizeLimit` for a value above 2^14 + 1 at a client, and for a value below 64 at either side.
    ///
    /// <details><summary>Contract</summary>
    ///
    /// ```text
    /// ensures accepted { IsOk result
    ///     ↔ ((64 ≤ sent) × (self ≡ Side.Client → sent ≤ 2 ^ 14 + 1)) }
    /// ensures refused { IsOkUnless result RecordError.PeerSizeLimit }
    /// ensures limit { IfOk result (λ size_limit. size_limit ≡ min sent (2 ^ 14 + 1)) }
    /// ```
    ///
    /// </details>
    pub fn size_limit_of(self, sent: u16) -> Result<usize, RecordError> {
        let size_limit = usize::from(sent);
        if size_limit < MIN_SIZE_LIMIT {
            return Err(RecordError::PeerSizeLimit);
        }
        match self {
            Side::Client if size_limit > MAX_SIZE_LIMIT => Err(RecordError::PeerSizeLimit),
            Side::Client | Side::Server => Ok(size_limit.min(MAX_SIZE_LIMIT)),
        }
    }
}
