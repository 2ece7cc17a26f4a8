// Written by tools/rust from crates/quic_packets/src/receive_error.rt. Don't edit.
//! The error of opening and receiving packets.

use crate::codes::{AEAD_LIMIT_REACHED, KEY_UPDATE_ERROR, PROTOCOL_VIOLATION};

/// The error of opening or receiving a packet.
///
/// A call that fails leaves the packet and the key unchanged, except with `ReservedBits`, `Duplicate`, `KeyUpdate` and
/// `NoFrames`: these come after the packet was opened.
#[derive(Clone, Copy, PartialEq, Eq, Debug)]
pub enum ReceiveError {
    /// The packet ends past the end of the datagram.
    PastEnd,
    /// The packet has no packet number, because of its type or its version.
    NoNumber,
    /// The packet number is said to begin at byte 0, which is the first byte of every header.
    NumberAtFirstByte,
    /// The packet ends before the 16-byte sample, which begins 4 bytes after the start of the packet number (RFC 9001 section
    /// 5.4.2).
    NoSample,
    /// The packet has fewer bytes than its header and a tag.
    TooShort,
    /// The payload has more than 2^36 - 32 bytes, or the header has 2^61 bytes or more (SP 800-38D section 5.2.1.1).
    TooLong,
    /// The packet has a long header of another version than the receiver's.
    OtherVersion,
    /// The packet number is not below 2^62, where packet numbers end (RFC 9000 section 12.3).
    NumbersEnded,
    /// The output does not have the length of the result.
    OutputLength,
    /// The tag does not match the header, the payload and the number under this key.
    Refused,
    /// The limit on packets that fail authentication is reached (RFC 9001 section 6.6).
    TooManyFailures,
    /// The packet is authentic, but its reserved bits are set (RFC 9000 sections 17.2 and 17.3.1).
    ReservedBits,
    /// The packet is authentic, but its number was already received, or is too low for the window to tell (RFC 9000 section
    /// 12.3).
    Duplicate,
    /// The packet is authentic, but its key phase is out of turn (RFC 9001 section 6.4).
    KeyUpdate,
    /// The packet is authentic, but its payload is empty, so it has no frames (RFC 9000 section 12.4).
    NoFrames,
}

impl core::fmt::Display for ReceiveError {
    fn fmt(&self, f: &mut core::fmt::Formatter<'_>) -> core::fmt::Result {
        match self {
            ReceiveError::PastEnd => f.write_str("the datagram ends before the packet"),
            ReceiveError::NoNumber => f.write_str("the packet has no packet number"),
            ReceiveError::NumberAtFirstByte => {
                f.write_str("the packet number cannot begin at the header's first byte")
            }
            ReceiveError::NoSample => {
                f.write_str("the packet is too short for a sample of header protection")
            }
            ReceiveError::TooShort => {
                f.write_str("the packet is shorter than its header and a tag")
            }
            ReceiveError::TooLong => f.write_str("the packet is longer than AES-GCM allows"),
            ReceiveError::OtherVersion => f.write_str("the packet has another version"),
            ReceiveError::NumbersEnded => f.write_str("the packet number is not below 2^62"),
            ReceiveError::OutputLength => {
                f.write_str("the output does not have the length of the result")
            }
            ReceiveError::Refused => f.write_str("the packet is not authentic"),
            ReceiveError::TooManyFailures => {
                f.write_str("too many packets have failed authentication")
            }
            ReceiveError::ReservedBits => f.write_str("the packet's reserved bits are set"),
            ReceiveError::Duplicate => {
                f.write_str("the packet number was already received, or is below the window")
            }
            ReceiveError::KeyUpdate => f.write_str("the packet's key phase is out of order"),
            ReceiveError::NoFrames => f.write_str("the packet has no frames"),
        }
    }
}

impl core::error::Error for ReceiveError {}

impl ReceiveError {
    /// Returns the code of the transport error that the connection must be closed with (RFC 9000 section 20.1), or `None` if the
    /// packet is only dropped: `PROTOCOL_VIOLATION` for `ReservedBits` and `NoFrames`, `KEY_UPDATE_ERROR` for `KeyUpdate`, and
    /// `AEAD_LIMIT_REACHED` for `TooManyFailures`.
    ///
    /// <details><summary>Contract</summary>
    ///
    /// ```text
    /// ensures { result ≡ receive_error_code self }
    /// ```
    ///
    /// Definitions: [`receive_error_code`](crate::specs::errors#receive_error_code).
    ///
    /// </details>
    pub fn code(self) -> Option<u64> {
        match self {
            ReceiveError::ReservedBits | ReceiveError::NoFrames => Some(PROTOCOL_VIOLATION),
            ReceiveError::KeyUpdate => Some(KEY_UPDATE_ERROR),
            ReceiveError::TooManyFailures => Some(AEAD_LIMIT_REACHED),
            _ => None,
        }
    }
}
