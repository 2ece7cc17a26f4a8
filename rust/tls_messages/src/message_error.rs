// Written by tools/rust from crates/tls_messages/src/message_error.rt. Don't edit.
//! The errors of joining messages, with the alert or the code in QUIC that each calls for.

use crate::alert::AlertDescription;
use crate::message_type::CERTIFICATE_REQUEST;

/// The code PROTOCOL_VIOLATION, for an error that no other code describes (RFC 9000 section 20.1).
const PROTOCOL_VIOLATION: u64 = 0x0a;

/// The code CRYPTO_BUFFER_EXCEEDED, for more bytes of a message than an endpoint can buffer (RFC 9000 section 7.5).
const CRYPTO_BUFFER_EXCEEDED: u64 = 0x0d;

/// The code CRYPTO_ERROR, to which the value of an alert is added (RFC 9001 section 4.8).
const CRYPTO_ERROR: u64 = 0x0100;

/// The error of joining messages. Each error but `Closed` ends the connection.
#[derive(Clone, Copy, Debug, PartialEq, Eq)]
pub enum MessageError {
    /// A message has more bytes than the reader's buffer: this many.
    TooLong(usize),
    /// A message of this type may not come at the reader's stage (RFC 8446 sections 4.6.2 and 4.6.3, RFC 9001 sections 4.4, 6
    /// and 8.3).
    UnexpectedType(u8),
    /// The body of a KeyUpdate does not have one byte (RFC 8446 section 4.6.3).
    KeyUpdateLength,
    /// The byte of a KeyUpdate is neither 0 nor 1 (RFC 8446 section 4.6.3).
    KeyUpdateRequest,
    /// The record goes on after a message that changes the keys (RFC 8446 section 5.1).
    DataAfterKeys,
    /// A record of another type is between the parts of a message (RFC 8446 section 5.1).
    Interrupted,
    /// The reader has rejected a message before, which ended the connection.
    Closed,
}

impl core::fmt::Display for MessageError {
    fn fmt(&self, f: &mut core::fmt::Formatter<'_>) -> core::fmt::Result {
        match self {
            MessageError::TooLong(it) => write!(
                f,
                "a handshake message of {it} bytes is longer than the buffer"
            ),
            MessageError::UnexpectedType(it) => {
                write!(f, "a handshake message of type {it} is not expected")
            }
            MessageError::KeyUpdateLength => f.write_str("a KeyUpdate does not have one byte"),
            MessageError::KeyUpdateRequest => f.write_str("a KeyUpdate has an unknown request"),
            MessageError::DataAfterKeys => {
                f.write_str("a record goes on after a handshake message that changes the keys")
            }
            MessageError::Interrupted => {
                f.write_str("a record of another type is between the parts of a handshake message")
            }
            MessageError::Closed => {
                f.write_str("the reader is closed, since it has rejected a message")
            }
        }
    }
}

impl core::error::Error for MessageError {}

impl MessageError {
    /// Returns the alert that ends the connection, or `None` for `Closed`. It is `internal_error` for `TooLong`, since the
    /// bound is the caller's and not the protocol's (RFC 8446 section 6.2).
    ///
    /// <details><summary>Contract</summary>
    ///
    /// ```text
    /// ensures { result ≡ alert_of self }
    /// ```
    ///
    /// Definitions: [`alert_of`](crate::specs::steps#alert_of).
    ///
    /// </details>
    pub fn alert(self) -> Option<AlertDescription> {
        match self {
            MessageError::TooLong(_) => Some(AlertDescription::InternalError),
            MessageError::UnexpectedType(_)
            | MessageError::DataAfterKeys
            | MessageError::Interrupted => Some(AlertDescription::UnexpectedMessage),
            MessageError::KeyUpdateLength => Some(AlertDescription::DecodeError),
            MessageError::KeyUpdateRequest => Some(AlertDescription::IllegalParameter),
            MessageError::Closed => None,
        }
    }

    /// Returns the error code with which a connection of QUIC is closed, or `None` for `Closed`. It is
    /// CRYPTO_BUFFER_EXCEEDED for `TooLong` (RFC 9000 section 7.5), PROTOCOL_VIOLATION for `DataAfterKeys` (RFC 9001 section
    /// 4.1.3) and for `UnexpectedType` of a CertificateRequest (section 4.4), and CRYPTO_ERROR with the alert for each other
    /// error (section 4.8).
    ///
    /// <details><summary>Contract</summary>
    ///
    /// ```text
    /// ensures { result ≡ quic_code_of self }
    /// ```
    ///
    /// Definitions: [`quic_code_of`](crate::specs::steps#quic_code_of).
    ///
    /// </details>
    pub fn quic_code(self) -> Option<u64> {
        match self {
            MessageError::TooLong(_) => Some(CRYPTO_BUFFER_EXCEEDED),
            MessageError::DataAfterKeys | MessageError::UnexpectedType(CERTIFICATE_REQUEST) => {
                Some(PROTOCOL_VIOLATION)
            }
            MessageError::UnexpectedType(_) | MessageError::Interrupted => {
                Some(crypto_error(AlertDescription::UnexpectedMessage))
            }
            MessageError::KeyUpdateLength => Some(crypto_error(AlertDescription::DecodeError)),
            MessageError::KeyUpdateRequest => {
                Some(crypto_error(AlertDescription::IllegalParameter))
            }
            MessageError::Closed => None,
        }
    }
}

/// Returns the code for an alert (RFC 9001 section 4.8).
// ensures { result ≡ crypto_error alert }
fn crypto_error(alert: AlertDescription) -> u64 {
    CRYPTO_ERROR + u64::from(alert as u8)
}
