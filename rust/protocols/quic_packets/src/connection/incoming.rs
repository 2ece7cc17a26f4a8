// Written by tools/rust from crates/quic_packets/src/connection/incoming.rt. Don't edit.
//! What `Connection::receive` returns for a packet: whether it is received, has no keys yet, is dropped or is ignored, and
//! where the next packet begins.

use crate::datagram::PacketType;
use crate::receive_error::ReceiveError;
use crate::receiver::Received;

/// The step past one packet of a datagram: what became of the packet, and where the next one begins.
#[derive(Clone, PartialEq, Eq, Debug)]
pub struct Step {
    /// The position after the packet, where the next one begins. It is the length of the datagram if there is none. If the
    /// packet began within the datagram, its end is above its beginning, so a loop over the packets of a datagram ends.
    pub next: usize,
    /// What became of the packet.
    pub incoming: Incoming,
}

/// A key update of the peer, which the first packet that the next keys open shows (RFC 9001 section 6).
#[derive(Clone, Copy, PartialEq, Eq, Debug)]
pub enum PeerUpdate {
    /// The peer has initiated the update, and this endpoint's sender, if there is one, has followed it (RFC 9001 section 6.2).
    Initiated,
    /// This endpoint has initiated the update, and the peer has answered: it now sends under the next keys too.
    Answered,
}

/// What became of a packet that was passed to `Connection::receive`.
#[derive(Clone, PartialEq, Eq, Debug)]
pub enum Incoming {
    /// A packet of this type was received, and its payload is decrypted in the datagram. The last value is the key update of
    /// the peer, if the packet is the first that the next keys opened. The caller then sets a timer to three times the probe
    /// timeout, after which it calls `Connection::forget_previous` (RFC 9001 section 6.5).
    Packet(PacketType, Received, Option<PeerUpdate>),
    /// The keys for packets of this type are not installed yet. Nothing has changed, so the caller may keep the packet until
    /// they are, as far as it has room (RFC 9001 section 5.7).
    NoKeys(PacketType),
    /// The packet is dropped for this error, which does not close the connection. Unless the error is `Duplicate`, the datagram
    /// is unchanged, and for `Refused` a failure is counted. A stateless reset is dropped so too: the caller compares the last
    /// 16 bytes of the datagram with the tokens that it has (RFC 9000 section 10.3.1).
    Dropped(ReceiveError),
    /// The packet is ignored, and nothing has changed, for one of three reasons. It cannot be parsed, or has another
    /// destination ID than the first packet of the datagram (RFC 9000 section 12.2). Its type has no keys: Retry, Version
    /// Negotiation, or another version. Or the keys for its type are discarded (`Connection::discard`, `discard_zero_rtt`).
    Ignored,
}

/// The result of giving a packet to its receiver, and the key update of the peer that the packet shows.
pub(crate) struct Attempt {
    pub(crate) outcome: Result<Received, ReceiveError>,
    pub(crate) update: Option<PeerUpdate>,
}

impl Attempt {
    /// Creates the result of a packet that shows no key update, since it isn't a 1-RTT packet.
    // ensures { result ≡ record { outcome = outcome; update = None } }
    pub(crate) fn without_phase(outcome: Result<Received, ReceiveError>) -> Self {
        Attempt {
            outcome,
            update: None,
        }
    }
}

/// Returns the step past a packet that was given to its receiver, or the error if it closes the connection.
// ensures { result ≡ given_of next packet_type attempt.update attempt.outcome }
pub(crate) fn step_or_close(
    next: usize,
    packet_type: PacketType,
    attempt: Attempt,
) -> Result<Step, ReceiveError> {
    let incoming = match attempt.outcome {
        Ok(received) => Incoming::Packet(packet_type, received, attempt.update),
        Err(error) if error.code().is_some() => return Err(error),
        Err(error) => Incoming::Dropped(error),
    };
    Ok(Step { next, incoming })
}
