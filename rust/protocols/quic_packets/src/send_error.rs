// Written by tools/rust from crates/quic_packets/src/send_error.rt. Don't edit.
//! The error of sealing and sending packets.

/// The error of sealing or sending a packet. The packet, the key, the sender and the connection are then unchanged. None of
/// these errors closes a connection.
#[derive(Clone, Copy, PartialEq, Eq, Debug)]
pub enum SendError {
    /// The connection does not have the keys of the level.
    NoKeys,
    /// The packet number is said to begin at byte 0, which is the first byte of every header.
    NumberAtFirstByte,
    /// The room for the packet number has fewer bytes than `Sender::next_number_len` returns, or more than 4 (RFC 9000 section
    /// 17.1).
    NumberLength,
    /// The packet number is too far above the largest acknowledged one for 4 bytes (RFC 9000 section 17.1).
    NumberTooFar,
    /// The packet ends before the 16-byte sample, which begins 4 bytes after the start of the packet number (RFC 9001 section
    /// 5.4.2).
    NoSample,
    /// The packet has fewer bytes than its header and a tag.
    TooShort,
    /// The payload has more than 2^36 - 32 bytes, or the header has 2^61 bytes or more (SP 800-38D section 5.2.1.1).
    TooLong,
    /// The packet is of a type without protection: Version Negotiation or Retry (RFC 9000 sections 17.2.1 and 17.2.5).
    NoProtection,
    /// The packet has a long header of another version than the sender's.
    OtherVersion,
    /// The fixed bit is 0 and must be 1 (RFC 9000 sections 17.2 and 17.3.1).
    NoFixedBit,
    /// The packet to be sent has no payload, where a payload has at least one frame (RFC 9000 section 12.4). With a number of
    /// fewer than 4 bytes, `NoSample` comes first.
    EmptyPayload,
    /// The packet number is not below 2^62, where packet numbers end: no packet may be sent after the last number (RFC 9000
    /// section 12.3).
    NumbersEnded,
    /// The key has sealed as many packets as its limit allows (RFC 9001 section 6.6). A key update follows it. The key cannot
    /// seal the packet that closes the connection either, so a caller that cannot update closes it with `AEAD_LIMIT_REACHED`
    /// (0x0f) while `Sender::remaining` is above 0. `Connection::send` fails with it one packet earlier while no key update may
    /// be initiated, so that `Connection::send_close` can still seal that packet.
    KeyUsedUp,
    /// The output does not have the length of the result.
    OutputLength,
}

impl core::fmt::Display for SendError {
    fn fmt(&self, f: &mut core::fmt::Formatter<'_>) -> core::fmt::Result {
        match self {
            SendError::NoKeys => f.write_str("the keys of the level are not there"),
            SendError::NumberAtFirstByte => {
                f.write_str("the packet number cannot begin at the header's first byte")
            }
            SendError::NumberLength => {
                f.write_str("the packet number does not fit the room for it")
            }
            SendError::NumberTooFar => f.write_str(
                "4 bytes cannot encode the packet number after the largest acknowledged one",
            ),
            SendError::NoSample => {
                f.write_str("the packet is too short for a sample of header protection")
            }
            SendError::TooShort => f.write_str("the packet is shorter than its header and a tag"),
            SendError::TooLong => f.write_str("the packet is longer than AES-GCM allows"),
            SendError::NoProtection => f.write_str("packets of this type have no protection"),
            SendError::OtherVersion => f.write_str("the packet has another version"),
            SendError::NoFixedBit => f.write_str("the fixed bit of the packet is 0"),
            SendError::EmptyPayload => f.write_str("the packet has no payload"),
            SendError::NumbersEnded => f.write_str("the packet number is not below 2^62"),
            SendError::KeyUsedUp => f.write_str("the key has reached its limit of packets"),
            SendError::OutputLength => {
                f.write_str("the output does not have the length of the result")
            }
        }
    }
}

impl core::error::Error for SendError {}
