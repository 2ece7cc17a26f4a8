//! Relays connections of QUIC, from the first Initial packet on: `quic IN OUT`, with the lines of the library.
//!
//! Each packet is opened under the keys towards the peer that it comes from, and sealed under those towards the other one, with
//! the same number, so that acknowledgments stay right. The answers say what happened:
//!
//! - `followed`: the peer has updated its keys; `answered`: it has after the relay had; `settled`: after either, an
//!   acknowledgment of a packet under its new keys is on its way to it
//! - `updated`: the relay has updated its keys; `early`: it may not yet; `forgot`: it has dropped the key before
//! - `retry`, `zero-rtt`: a packet of this type has come from the peer
//! - `kept`: one whose keys aren't there yet; `ignored`: one that the connection ignores, as those whose keys are dropped;
//!   `late`: one with a number below the last; `dropped`: any other that isn't relayed
//! - `ended`: the Handshake keys are dropped, and the peer's first Handshake packet is then ignored

#![forbid(unsafe_code)]

mod frames;

use deerlapse_relay::{Answer, Lines, Peer, Relay, Result, secret_of};
use frames::Frames;
use quic_packets::connection::{Connection, Incoming, Level, PeerUpdate};
use quic_packets::{
    FixedBit, NumberError, Packet, PacketType, QuicSecret, Received, TAG_LEN, Version, packet_at,
};

/// The words of a window, so that it has 1,024 packet numbers.
const WORDS: usize = 16;

/// The fixed bit of a header, which a peer may clear for one that allows it (RFC 9287).
const FIXED_BIT: u8 = 0x40;

fn main() -> Result {
    let mut lines = Lines::of_arguments()?;
    while lines.begin("quic")? {
        lines.relay(QuicRelay::new())?;
    }
    Ok(())
}

/// One end of the relay: the connection towards a peer.
struct End {
    connection: Connection<WORDS>,
    /// The length of the IDs that the peer sends its packets to.
    id_len: usize,
    /// The number of the first packet of the peer's last key update, until an acknowledgment of it is sent to the peer.
    unacknowledged: Option<u64>,
    /// The peer's first Handshake packet, until the keys of these packets are dropped.
    first_handshake: Option<Kept>,
}

/// A packet as it came from a peer, or the rest of a datagram.
struct Kept {
    from: Peer,
    bytes: Vec<u8>,
    /// The destination ID of the datagram's first packet.
    id: Vec<u8>,
}

/// A packet that was opened.
struct Opened {
    from: Peer,
    packet_type: PacketType,
    parts: Packet,
    received: Received,
    update: Option<PeerUpdate>,
}

/// The relay of a connection.
struct QuicRelay {
    client: End,
    server: End,
    has_initial: bool,
    /// The version of the client's first Initial packet.
    version: Version,
    /// Whether there was a Retry packet: a client takes one (RFC 9000 section 17.2.5.2).
    is_retried: bool,
    /// The client's 1-RTT secret, until its first 1-RTT packet: the sender towards the server has the 0-RTT secret before.
    client_traffic: Option<QuicSecret>,
    /// What came before the keys for it.
    kept: Vec<Kept>,
}

impl Relay for QuicRelay {
    fn secret(&mut self, label: &str, bytes: &[u8], answer: &mut Answer) -> Result {
        match label {
            "CLIENT_EARLY_TRAFFIC_SECRET" => {
                let [opening, sealing] = self.secrets(bytes)?;
                self.client.connection.install_zero_rtt_receiver(opening)?;
                let server = &mut self.server.connection;
                server.install_sender(Level::OneRtt, sealing)?;
            }
            "CLIENT_HANDSHAKE_TRAFFIC_SECRET" => {
                self.install(Peer::Client, Level::Handshake, self.secrets(bytes)?)?;
            }
            "SERVER_HANDSHAKE_TRAFFIC_SECRET" => {
                self.install(Peer::Server, Level::Handshake, self.secrets(bytes)?)?;
            }
            "CLIENT_TRAFFIC_SECRET_0" => {
                let [opening, sealing] = self.secrets(bytes)?;
                let client = &mut self.client.connection;
                client.install_receiver(Level::OneRtt, opening)?;
                self.client_traffic = Some(sealing);
            }
            "SERVER_TRAFFIC_SECRET_0" => {
                self.install(Peer::Server, Level::OneRtt, self.secrets(bytes)?)?;
            }
            _ => return Ok(()),
        }
        for kept in std::mem::take(&mut self.kept) {
            self.relay_packets(kept, answer)?;
        }
        Ok(())
    }

    fn relay(&mut self, from: Peer, bytes: Vec<u8>, answer: &mut Answer) -> Result {
        let id_len = self.end(from).id_len;
        let Ok(first) = packet_at(&bytes, 0, id_len, FixedBit::Greased) else {
            answer.say("dropped", from.name());
            return Ok(());
        };
        if first.version.is_some() {
            self.end(from.other()).id_len = first.source_id.len();
        }
        match (from, first.packet_type) {
            (_, PacketType::VersionNegotiation | PacketType::OtherVersion) => {
                answer.send(from.other(), &bytes);
                return Ok(());
            }
            (Peer::Server, PacketType::Retry) if !self.is_retried => {
                self.is_retried = true;
                self.install_initial(&bytes[first.source_id])?;
                answer.say("retry", from.name());
                answer.send(from.other(), &bytes);
                return Ok(());
            }
            (Peer::Client, PacketType::Initial) if !self.has_initial => {
                let version = first.version.and_then(Version::from_number);
                self.version = version.unwrap_or(Version::One);
                self.install_initial(&bytes[first.destination_id.clone()])?;
            }
            _ => {}
        }
        let id = bytes[first.destination_id].to_vec();
        self.relay_packets(Kept { from, bytes, id }, answer)
    }

    fn update(&mut self, towards: Peer, _asks: bool, answer: &mut Answer) -> Result {
        let updated = self.end(towards).connection.initiate_update();
        let what = if updated.is_ok() { "updated" } else { "early" };
        answer.say(what, towards.name());
        Ok(())
    }

    fn forget(&mut self, towards: Peer, answer: &mut Answer) -> Result {
        self.end(towards).connection.forget_previous();
        answer.say("forgot", towards.name());
        Ok(())
    }
}

impl QuicRelay {
    fn new() -> Self {
        QuicRelay {
            client: End::new(),
            server: End::new(),
            has_initial: false,
            version: Version::One,
            is_retried: false,
            client_traffic: None,
            kept: Vec::new(),
        }
    }

    fn end(&mut self, peer: Peer) -> &mut End {
        match peer {
            Peer::Client => &mut self.client,
            Peer::Server => &mut self.server,
        }
    }

    /// Returns a secret that was logged, for the end that opens and for the one that seals.
    fn secrets(&self, bytes: &[u8]) -> Result<[QuicSecret; 2]> {
        let secret = || secret_of(bytes).map(|it| QuicSecret::new(self.version, it));
        Ok([secret()?, secret()?])
    }

    /// Installs the keys of a direction, for both ends.
    fn install(&mut self, from: Peer, level: Level, secrets: [QuicSecret; 2]) -> Result {
        let [opening, sealing] = secrets;
        self.end(from).connection.install_receiver(level, opening)?;
        let other = &mut self.end(from.other()).connection;
        Ok(other.install_sender(level, sealing)?)
    }

    /// Installs the Initial keys of a destination ID of the client's (RFC 9001 section 5.2).
    fn install_initial(&mut self, id: &[u8]) -> Result {
        let version = self.version;
        let client = || QuicSecret::client_initial(version, id);
        let server = || QuicSecret::server_initial(version, id);
        self.install(Peer::Client, Level::Initial, [client()?, client()?])?;
        self.install(Peer::Server, Level::Initial, [server()?, server()?])?;
        self.has_initial = true;
        Ok(())
    }

    /// Relays the packets of a datagram, or of the rest of one that was kept.
    fn relay_packets(&mut self, datagram: Kept, answer: &mut Answer) -> Result {
        let Kept {
            from,
            mut bytes,
            id,
        } = datagram;
        let mut out = Vec::new();
        let mut at = 0;
        while at < bytes.len() {
            let end = self.end(from);
            let parts = end.packet_at(from, &bytes, at, &id);
            let step = end.connection.receive(&mut bytes, at, end.id_len, &id)?;
            match (step.incoming, parts) {
                (Incoming::Packet(packet_type, received, update), Some(parts)) => {
                    let opened = Opened {
                        from,
                        packet_type,
                        parts,
                        received,
                        update,
                    };
                    self.relay_packet(&opened, &bytes, &mut out, answer)?;
                }
                (Incoming::NoKeys(_), _) => {
                    let bytes = bytes.split_off(at);
                    self.kept.push(Kept { from, bytes, id });
                    answer.say("kept", from.name());
                    break;
                }
                (Incoming::Ignored, _) => answer.say("ignored", from.name()),
                _ => answer.say("dropped", from.name()),
            }
            at = step.next;
        }
        if !out.is_empty() {
            answer.send(from.other(), &out);
        }
        Ok(())
    }

    /// Seals a packet for the other peer, and appends it to a datagram.
    fn relay_packet(
        &mut self,
        opened: &Opened,
        bytes: &[u8],
        out: &mut Vec<u8>,
        answer: &mut Answer,
    ) -> Result {
        let (from, start, received) = (opened.from, opened.parts.start, &opened.received);
        let number_at = opened.parts.number_at.ok_or("a packet without a number")?;
        let level = level_of(opened.packet_type);
        let frames = Frames::read(&bytes[received.payload.clone()])
            .ok_or("a frame that isn't whole or isn't known")?;
        self.take_frames(opened, level, &frames, answer)?;
        let mut packet = bytes[start..received.payload.end].to_vec();
        packet.extend([0; TAG_LEN]);
        packet[0] |= FIXED_BIT;
        let number = number_at - start..received.payload.start - start;
        let connection = &mut self.end(from.other()).connection;
        // The numbers that the peer left out, or whose packets were lost, are skipped. A packet that comes late is not relayed.
        match connection.skip_to(level, received.number) {
            Err(NumberError::NumberUsed) => {
                answer.say("late", from.name());
                return Ok(());
            }
            skipped => skipped?,
        }
        let sent = if frames.is_close {
            connection.send_close(level, &mut packet, number)?
        } else {
            connection.send(level, &mut packet, number)?
        };
        out.extend(packet);
        if sent.keys_updated {
            answer.say("updated", from.other().name());
        }
        self.discard(opened, &frames, answer)
    }

    /// Takes what a packet says of the packets that were sent to its peer, and of the handshake.
    fn take_frames(
        &mut self,
        opened: &Opened,
        level: Level,
        frames: &Frames,
        answer: &mut Answer,
    ) -> Result {
        if let Some(number) = frames.acknowledged {
            let connection = &mut self.end(opened.from).connection;
            connection.acknowledged(level, number, opened.received.phase)?;
        }
        match opened.packet_type {
            PacketType::ZeroRtt => answer.say("zero-rtt", opened.from.name()),
            PacketType::OneRtt => self.take_update(opened, frames, answer)?,
            _ => {}
        }
        if frames.is_handshake_done {
            self.client.connection.confirm_handshake();
            self.server.connection.confirm_handshake();
        }
        Ok(())
    }

    /// Takes what a 1-RTT packet says of key updates, its peer's and the other's.
    fn take_update(&mut self, opened: &Opened, frames: &Frames, answer: &mut Answer) -> Result {
        let from = opened.from;
        if from == Peer::Client {
            if let Some(secret) = self.client_traffic.take() {
                let server = &mut self.server.connection;
                server.install_sender(Level::OneRtt, secret)?;
            }
        }
        if let Some(update) = opened.update {
            self.end(from).unacknowledged = Some(opened.received.number);
            let what = match update {
                PeerUpdate::Initiated => "followed",
                PeerUpdate::Answered => "answered",
            };
            answer.say(what, from.name());
        }
        let other = self.end(from.other());
        if let (Some(first), Some(number)) = (other.unacknowledged, frames.acknowledged) {
            if number >= first {
                other.unacknowledged = None;
                answer.say("settled", from.other().name());
            }
        }
        Ok(())
    }

    /// Drops the keys that are not needed after a packet (RFC 9001 section 4.9).
    fn discard(&mut self, opened: &Opened, frames: &Frames, answer: &mut Answer) -> Result {
        match (opened.from, opened.packet_type) {
            (Peer::Client, PacketType::Handshake) => {
                self.client.connection.discard(Level::Initial);
                self.server.connection.discard(Level::Initial);
            }
            (Peer::Client, PacketType::OneRtt) => self.client.connection.discard_zero_rtt(),
            _ => {}
        }
        if frames.is_handshake_done {
            for peer in [Peer::Client, Peer::Server] {
                self.end(peer).end_handshake(peer, answer)?;
            }
        }
        Ok(())
    }
}

impl End {
    fn new() -> Self {
        End {
            connection: Connection::new(FixedBit::Greased),
            id_len: 0,
            unacknowledged: None,
            first_handshake: None,
        }
    }

    /// Finds the parts of the packet that begins at byte `at` of a datagram, and keeps the peer's first Handshake packet.
    fn packet_at(&mut self, from: Peer, datagram: &[u8], at: usize, id: &[u8]) -> Option<Packet> {
        let parts = packet_at(datagram, at, self.id_len, FixedBit::Greased).ok()?;
        if parts.packet_type == PacketType::Handshake && self.first_handshake.is_none() {
            self.first_handshake = Some(Kept {
                from,
                bytes: datagram[at..parts.end].to_vec(),
                id: id.to_vec(),
            });
        }
        Some(parts)
    }

    /// Drops the Handshake keys, and receives the peer's first Handshake packet again, which has to be ignored.
    fn end_handshake(&mut self, peer: Peer, answer: &mut Answer) -> Result {
        self.connection.discard(Level::Handshake);
        let Some(Kept { mut bytes, id, .. }) = self.first_handshake.take() else {
            return Ok(());
        };
        let step = self.connection.receive(&mut bytes, 0, self.id_len, &id)?;
        if step.incoming != Incoming::Ignored {
            return Err("a Handshake packet isn't ignored after its keys were dropped".into());
        }
        answer.say("ended", peer.name());
        Ok(())
    }
}

/// The level of a type of packets with keys.
fn level_of(packet_type: PacketType) -> Level {
    match packet_type {
        PacketType::Initial => Level::Initial,
        PacketType::Handshake => Level::Handshake,
        _ => Level::OneRtt,
    }
}
