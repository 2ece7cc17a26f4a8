// Written by tools/rust from crates/records/src/connection/receive_error.rt. Don't edit.
//! The reasons why a connection receives nothing more, with the alert that each calls for.

use crate::record_error::RecordError;
use deerlapse::memory::{AllocError, AllocFailed};
use tls_messages::{AlertDescription, MessageError};

/// Why a connection receives nothing more.
#[derive(Clone, Copy, Debug, PartialEq, Eq)]
pub enum ReceiveError {
    /// A record is rejected.
    Record(RecordError),
    /// A handshake message is rejected, or a record that is between its parts.
    Message(MessageError),
    /// The peer has sent this alert, which is an error whatever its level (RFC 8446 section 6).
    Alert(u8),
    /// More KeyUpdates came in a row than may, without data between them (RFC 8446 section 4.6.3).
    TooManyKeyUpdates,
    /// Allocating memory for what was received failed.
    OutOfMemory,
    /// The connection received close_notify before, or failed.
    Ended,
}

impl core::fmt::Display for ReceiveError {
    fn fmt(&self, f: &mut core::fmt::Formatter<'_>) -> core::fmt::Result {
        match self {
            ReceiveError::Record(it) => write!(f, "a record is rejected: {it}"),
            ReceiveError::Message(it) => write!(f, "a handshake message is rejected: {it}"),
            ReceiveError::Alert(it) => write!(f, "the peer has sent alert {it}"),
            ReceiveError::TooManyKeyUpdates => f.write_str("too many KeyUpdates came in a row"),
            ReceiveError::OutOfMemory => f.write_str("no memory for what was received"),
            ReceiveError::Ended => f.write_str("the connection receives nothing more"),
        }
    }
}

impl core::error::Error for ReceiveError {}

impl ReceiveError {
    /// Returns the alert that ends the connection, or `None` if the peer has ended it. It is `internal_error` for `OutOfMemory`
    /// (RFC 8446 section 6.2).
    ///
    /// <details><summary>Contract</summary>
    ///
    /// ```text
    /// ensures { result ≡ received_alert self }
    /// ```
    ///
    /// Definitions: [`received_alert`](crate::specs::handling#received_alert).
    ///
    /// </details>
    pub fn alert(self) -> Option<AlertDescription> {
        match self {
            ReceiveError::Record(error) => error.alert(),
            ReceiveError::Message(error) => error.alert(),
            ReceiveError::TooManyKeyUpdates => Some(AlertDescription::UnexpectedMessage),
            ReceiveError::OutOfMemory => Some(AlertDescription::InternalError),
            ReceiveError::Alert(_) | ReceiveError::Ended => None,
        }
    }
}

/// <details><summary>Ghost items</summary>
///
/// ```text
/// // What holds of the argument of `from` and of what it returns.
/// ghost from_gives = { λ from error. error ≡ Record from };
/// ```
///
/// </details>
impl From<RecordError> for ReceiveError {
    fn from(error: RecordError) -> Self {
        ReceiveError::Record(error)
    }
}

/// <details><summary>Ghost items</summary>
///
/// ```text
/// // What holds of the argument of `from` and of what it returns.
/// ghost from_gives = { λ from error. error ≡ Message from };
/// ```
///
/// </details>
impl From<MessageError> for ReceiveError {
    fn from(error: MessageError) -> Self {
        ReceiveError::Message(error)
    }
}

/// <details><summary>Ghost items</summary>
///
/// ```text
/// // What holds of the argument of `from` and of what it returns.
/// ghost from_gives = { λ _ error. error ≡ OutOfMemory };
/// ```
///
/// </details>
impl From<AllocError> for ReceiveError {
    fn from(_error: AllocError) -> Self {
        ReceiveError::OutOfMemory
    }
}

/// <details><summary>Ghost items</summary>
///
/// ```text
/// // What holds of the argument of `from` and of what it returns.
/// ghost from_gives = { λ _ error. error ≡ OutOfMemory };
/// ```
///
/// </details>
impl<T> From<AllocFailed<T>> for ReceiveError {
    fn from(_error: AllocFailed<T>) -> Self {
        ReceiveError::OutOfMemory
    }
}
