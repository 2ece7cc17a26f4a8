// Written by tools/rust from crates/quic_packets/src/key_error.rt. Don't edit.
//! The error of creating keys and changing them.

/// The error of creating a key, a sender or a receiver, or of changing the keys of a sender, a receiver or a connection, which
/// is then unchanged. None of these errors closes a connection.
#[derive(Clone, Copy, PartialEq, Eq, Debug)]
pub enum KeyError {
    /// The key is not as long as the algorithm's keys.
    KeyLength,
    /// The keys derive from a secret, so keys of the caller's are refused.
    KeysDerived,
    /// There is no secret from which keys could derive: the sender or the receiver was created with the caller's keys.
    NoSecret,
    /// The first packet number of a sender is above 2^62, where packet numbers end (RFC 9000 section 12.3).
    NumbersEnded,
    /// The handshake is not confirmed, so the keys cannot be updated yet (RFC 9001 section 6.1).
    HandshakeUnconfirmed,
    /// No packet of this key phase is acknowledged, so the keys cannot be updated again yet (RFC 9001 section 6.1).
    PhaseUnacknowledged,
    /// The connection has discarded the keys of the level or of 0-RTT packets, or was told that it will have none, so no keys
    /// can be installed (RFC 9001 section 4.9).
    Discarded,
}

impl core::fmt::Display for KeyError {
    fn fmt(&self, f: &mut core::fmt::Formatter<'_>) -> core::fmt::Result {
        match self {
            KeyError::KeyLength => {
                f.write_str("the key does not have the length of the algorithm's keys")
            }
            KeyError::KeysDerived => f.write_str("the keys derive from a secret"),
            KeyError::NoSecret => f.write_str("there is no secret from which keys derive"),
            KeyError::NumbersEnded => f.write_str("the packet number is above 2^62"),
            KeyError::HandshakeUnconfirmed => f.write_str("the handshake is not confirmed"),
            KeyError::PhaseUnacknowledged => {
                f.write_str("no packet of this key phase was acknowledged")
            }
            KeyError::Discarded => {
                f.write_str("the keys were dropped, so no others can be installed")
            }
        }
    }
}

impl core::error::Error for KeyError {}
