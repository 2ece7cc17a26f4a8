// Written by tools/rust from crates/quic_packets/src/number_error.rt. Don't edit.
//! The error of skipping packet numbers and recording acknowledgments.

use crate::codes::{KEY_UPDATE_ERROR, PROTOCOL_VIOLATION};

/// The error of skipping packet numbers or recording an acknowledgment. The sender, or the connection, is then unchanged.
#[derive(Clone, Copy, PartialEq, Eq, Debug)]
pub enum NumberError {
    /// The next packet number is already above this one.
    NumberUsed,
    /// The packet number is above 2^62, where packet numbers end (RFC 9000 section 12.3).
    NumbersEnded,
    /// The peer has acknowledged a packet number that was not sent (RFC 9000 section 13.1): one that is not below the next
    /// number, or that was skipped and is in a range that is kept (see `Sender::skip_to`).
    NeverSent,
    /// The peer has acknowledged a packet of the current keys in a packet of older keys (RFC 9001 section 6.2).
    UpdateUnanswered,
    /// The connection does not have the keys of the level.
    NoKeys,
}

impl core::fmt::Display for NumberError {
    fn fmt(&self, f: &mut core::fmt::Formatter<'_>) -> core::fmt::Result {
        match self {
            NumberError::NumberUsed => f.write_str("the packet number is below the next one"),
            NumberError::NumbersEnded => f.write_str("the packet number is above 2^62"),
            NumberError::NeverSent => f.write_str("a packet that was not sent was acknowledged"),
            NumberError::UpdateUnanswered => {
                f.write_str("a packet of the current keys was acknowledged under older keys")
            }
            NumberError::NoKeys => f.write_str("the keys of the level are not there"),
        }
    }
}

impl core::error::Error for NumberError {}

impl NumberError {
    /// Returns the code of the transport error that the connection must be closed with (RFC 9000 section 20.1), or `None` if it
    /// is not closed: `PROTOCOL_VIOLATION` for `NeverSent`, and `KEY_UPDATE_ERROR` for `UpdateUnanswered`.
    ///
    /// <details><summary>Contract</summary>
    ///
    /// ```text
    /// ensures { result ≡ number_error_code self }
    /// ```
    ///
    /// Definitions: [`number_error_code`](crate::specs::errors#number_error_code).
    ///
    /// </details>
    pub fn code(self) -> Option<u64> {
        match self {
            NumberError::NeverSent => Some(PROTOCOL_VIOLATION),
            NumberError::UpdateUnanswered => Some(KEY_UPDATE_ERROR),
            _ => None,
        }
    }
}
