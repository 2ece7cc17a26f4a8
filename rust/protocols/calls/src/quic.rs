//! The calls on two connections of QUIC, a client's and a server's.

use crate::shared::{Calls, Result, Words, change_bytes, draw, say_bytes, say_outcome, secret_of};
use key_derivation::Secret;
use key_derivation::quic::{QuicSecret, Version};
use quic_packets::connection::{Connection, Level};
use quic_packets::{
    FixedBit, HeaderError, HeaderKey, LongHeader, LongType, PacketKey, Sender, ShortHeader,
};
use std::fmt::Write;
use std::ops::Range;

const TAG_LEN: usize = 16;
const MAX_HEADER_LEN: usize = 64;
const FIXED_BIT: u8 = 0x40;
/// The end of the packet numbers.
const NUMBERS_END: u64 = 1 << 62;

/// A connection, and the packets that it has sent.
struct End<const W: usize> {
    id: [u8; 4],
    connection: Connection<W>,
    sent: Vec<Vec<u8>>,
}

/// A client and a server.
pub struct QuicList<const W: usize> {
    client: End<W>,
    server: End<W>,
}

impl<const W: usize> Calls for QuicList<W> {
    fn answer(&mut self, words: &mut Words<'_>, answer: &mut String) -> Result<()> {
        let call = words.next();
        let is_client = words.is_next("client");
        match call {
            "receive" => self.receive(is_client, words, answer),
            "forge" => self.forge(is_client, words, answer),
            "raw" => self.end(is_client).send_raw(words, answer),
            "send" | "close" => {
                let id = self.end(!is_client).id;
                let is_close = call == "close";
                self.end(is_client).send(id, is_close, words, answer)
            }
            _ => self.end(is_client).change(call, words, answer),
        }
    }
}

impl<const W: usize> QuicList<W> {
    /// The two connections before any call. The words of each end are its limit on packets, that on failures and its fixed bit.
    pub fn new(words: &mut Words<'_>) -> Result<Self> {
        Ok(QuicList {
            client: End::new([1, 2, 3, 4], words)?,
            server: End::new([5, 6, 7, 8], words)?,
        })
    }

    fn end(&mut self, is_client: bool) -> &mut End<W> {
        if is_client {
            &mut self.client
        } else {
            &mut self.server
        }
    }

    /// Appends a packet to those that this end has sent, with any first byte, number and payload, protected by the keys of a
    /// secret after some updates.
    fn forge(&mut self, is_client: bool, words: &mut Words<'_>, answer: &mut String) -> Result<()> {
        let id = self.end(!is_client).id;
        let packet_type = words.next();
        let version = version_of(words.next())?;
        let first = quic_secret(version, words)?;
        let same = Secret::new(first.suite(), first.as_slice())?;
        let updates = words.number()?;
        let secret = (0..updates).fold(QuicSecret::new(version, same), |secret, _| secret.next());
        let mask = words.len()? as u8;
        let level = level_of(packet_type)?;
        let number = number_of(self.end(is_client).connection.sender(level), words)?;
        let number_len = words.len()?;
        let payload = words.drawn()?;
        let made = packet_of(packet_type, version, id, number_len, &payload);
        let Ok((mut packet, place)) = made else {
            answer.push_str("no header");
            return Ok(());
        };
        let bytes = number.to_be_bytes();
        packet[place.clone()].copy_from_slice(&bytes[8 - number_len..]);
        packet[0] = (packet[0] | (number_len - 1) as u8) ^ mask;
        let sealed = PacketKey::from_secret(&secret).seal(number, &mut packet, place.end);
        say_outcome(answer, "Seal", &sealed)?;
        if sealed.is_ok() {
            let masked = HeaderKey::from_secret(&first).protect(&mut packet, place.start);
            answer.push(' ');
            say_outcome(answer, "MaskError", &masked)?;
        }
        say_bytes(answer, &packet)?;
        self.end(is_client).sent.push(packet);
        Ok(())
    }

    /// Receives a datagram of packets that the other end has sent, changed or not.
    fn receive(
        &mut self,
        is_client: bool,
        words: &mut Words<'_>,
        answer: &mut String,
    ) -> Result<()> {
        let other = self.end(!is_client);
        let mut datagram = Vec::new();
        for _ in 0..words.number()? {
            let back = words.len()?;
            if back < other.sent.len() {
                datagram.extend_from_slice(&other.sent[other.sent.len() - 1 - back]);
            }
        }
        let id_len = words.len()?;
        change_bytes(&mut datagram, words.next(), words)?;
        self.end(is_client).receive(&mut datagram, id_len, answer)
    }
}

impl<const W: usize> End<W> {
    fn new(id: [u8; 4], words: &mut Words<'_>) -> Result<Self> {
        let (limit, failures) = (words.number()?, words.number()?);
        let connection = Connection::new(fixed_bit_of(words.next()));
        Ok(End {
            id,
            connection: connection.with_limit(limit).with_max_failures(failures),
            sent: Vec::new(),
        })
    }

    /// Makes a call that handles no packet.
    fn change(&mut self, call: &str, words: &mut Words<'_>, answer: &mut String) -> Result<()> {
        let connection = &mut self.connection;
        match call {
            "set-peer-fixed-bit" => {
                connection.set_peer_fixed_bit(fixed_bit_of(words.next()));
                self.say_all(answer)
            }
            "confirm" => {
                connection.confirm_handshake();
                self.say_all(answer)
            }
            "forget" => {
                connection.forget_previous();
                self.say_all(answer)
            }
            "discard-zero-rtt" => {
                connection.discard_zero_rtt();
                self.say_all(answer)
            }
            "discard" => {
                connection.discard(level_of(words.next())?);
                self.say_all(answer)
            }
            "update" => {
                say_outcome(answer, "KeyError", &connection.initiate_update())?;
                self.say_level(Level::OneRtt, answer)
            }
            "install-sender" | "install-receiver" => self.install(call, words, answer),
            "skip" | "acknowledge" => self.number(call, words, answer),
            _ => Err("an unknown call".into()),
        }
    }

    fn install(&mut self, call: &str, words: &mut Words<'_>, answer: &mut String) -> Result<()> {
        let packet_type = words.next();
        let level = level_of(packet_type)?;
        let version = version_of(words.next())?;
        let secret = quic_secret(version, words)?;
        let connection = &mut self.connection;
        let installed = match (call, packet_type) {
            ("install-sender", _) => connection.install_sender(level, secret),
            (_, "zero-rtt") => connection.install_zero_rtt_receiver(secret),
            _ => connection.install_receiver(level, secret),
        };
        say_outcome(answer, "KeyError", &installed)?;
        self.say_level(level, answer)
    }

    /// Skips numbers, or records an acknowledgment.
    fn number(&mut self, call: &str, words: &mut Words<'_>, answer: &mut String) -> Result<()> {
        let level = level_of(words.next())?;
        let number = number_of(self.connection.sender(level), words)?;
        let done = if call == "skip" {
            self.connection.skip_to(level, number)
        } else {
            let phase = self.connection.sender(level).is_some_and(Sender::phase);
            let phase = phase != words.is_next("other");
            self.connection.acknowledged(level, number, phase)
        };
        say_outcome(answer, "NumberError", &done)?;
        self.say_level(level, answer)
    }

    /// Sends a packet to the end with this ID.
    fn send(
        &mut self,
        id: [u8; 4],
        is_close: bool,
        words: &mut Words<'_>,
        answer: &mut String,
    ) -> Result<()> {
        let packet_type = words.next();
        let level = level_of(packet_type)?;
        let version = version_of(words.next())?;
        let number_len = match (words.len()?, self.connection.sender(level)) {
            (0, Some(sender)) => sender.next_number_len().unwrap_or(4),
            (len, _) => len.max(1),
        };
        let is_greased = words.is_next("0");
        let payload = words.drawn()?;
        let made = packet_of(packet_type, version, id, number_len, &payload);
        say_outcome(answer, "HeaderError", &made)?;
        let Ok((mut packet, place)) = made else {
            return Ok(());
        };
        if is_greased {
            packet[0] &= !FIXED_BIT;
        }
        answer.push(' ');
        self.send_packet(level, is_close, packet, place, answer)
    }

    /// Sends bytes that may be no packet.
    fn send_raw(&mut self, words: &mut Words<'_>, answer: &mut String) -> Result<()> {
        let level = level_of(words.next())?;
        let number = words.len()?..words.len()?;
        let front = words.bytes()?;
        let mut packet = words.drawn()?;
        for (to, from) in packet.iter_mut().zip(front) {
            *to = from;
        }
        self.send_packet(level, false, packet, number, answer)
    }

    fn send_packet(
        &mut self,
        level: Level,
        is_close: bool,
        mut packet: Vec<u8>,
        number: Range<usize>,
        answer: &mut String,
    ) -> Result<()> {
        let sent = if is_close {
            self.connection.send_close(level, &mut packet, number)
        } else {
            self.connection.send(level, &mut packet, number)
        };
        say_outcome(answer, "SendError", &sent)?;
        say_bytes(answer, &packet)?;
        if let Ok(sent) = sent {
            write!(answer, " {sent:?}")?;
            self.sent.push(packet);
        }
        self.say_level(level, answer)
    }

    /// Receives the packets of a datagram, one after another.
    fn receive(&mut self, datagram: &mut [u8], id_len: usize, answer: &mut String) -> Result<()> {
        let mut at = 0;
        while at < datagram.len() {
            let step = self.connection.receive(datagram, at, id_len, &self.id);
            say_outcome(answer, "ReceiveError", &step)?;
            let Ok(step) = step else {
                break;
            };
            write!(answer, " {step:?} ")?;
            at = step.next;
        }
        say_bytes(answer, datagram)?;
        self.say_all(answer)
    }

    fn say_all(&self, answer: &mut String) -> Result<()> {
        let connection = &self.connection;
        write!(
            answer,
            " failures {} peer {:?}",
            connection.failures(),
            connection.peer_fixed_bit()
        )?;
        self.say_level(Level::Initial, answer)?;
        self.say_level(Level::Handshake, answer)?;
        self.say_level(Level::OneRtt, answer)
    }

    /// Appends what can be read of a level.
    fn say_level(&self, level: Level, answer: &mut String) -> Result<()> {
        write!(answer, " | {level:?}")?;
        if let Some(sender) = self.connection.sender(level) {
            say_sender(sender, answer)?;
        }
        for range in self.connection.space(level).ranges() {
            write!(answer, " {range:?}")?;
        }
        Ok(())
    }
}

fn say_sender(sender: &Sender, answer: &mut String) -> Result<()> {
    write!(
        answer,
        " {:?} next {} in {:?} after {:?}",
        sender.version(),
        sender.next_number(),
        sender.next_number_len(),
        sender.largest_acknowledged()
    )?;
    write!(
        answer,
        " sealed {} of {} left {} phase {} from {} update {}",
        sender.sealed(),
        sender.limit(),
        sender.remaining(),
        sender.phase(),
        sender.first_of_phase(),
        sender.can_update()
    )?;
    Ok(())
}

fn fixed_bit_of(word: &str) -> FixedBit {
    if word == "greased" {
        FixedBit::Greased
    } else {
        FixedBit::Required
    }
}

fn version_of(word: &str) -> Result<Version> {
    match word {
        "1" => Ok(Version::One),
        "2" => Ok(Version::Two),
        _ => Err("version 1 or 2".into()),
    }
}

/// The level of a type of packets.
fn level_of(packet_type: &str) -> Result<Level> {
    match packet_type {
        "initial" => Ok(Level::Initial),
        "handshake" => Ok(Level::Handshake),
        "zero-rtt" | "one-rtt" => Ok(Level::OneRtt),
        _ => Err("an unknown type of packets".into()),
    }
}

/// A secret that is given by a seed: that of a client's or a server's Initial packets, or one of a suite.
fn quic_secret(version: Version, words: &mut Words<'_>) -> Result<QuicSecret> {
    let suite = words.next();
    let seed = words.number()?;
    let secret = match suite {
        "client" => QuicSecret::client_initial(version, &draw(8, seed))?,
        "server" => QuicSecret::server_initial(version, &draw(8, seed))?,
        _ => QuicSecret::new(version, secret_of(suite, seed)?),
    };
    Ok(secret)
}

/// A packet number: above or below the next one, or below the end.
fn number_of(sender: Option<&Sender>, words: &mut Words<'_>) -> Result<u64> {
    let next = sender.map_or(0, Sender::next_number);
    let way = words.next();
    let by = words.number()?;
    match way {
        "above" => Ok(next.wrapping_add(by)),
        "below" => Ok(next.saturating_sub(by)),
        "end" => Ok(NUMBERS_END.wrapping_sub(by)),
        _ => Err("above, below or end".into()),
    }
}

/// A packet before it is sent, and the place of its number.
fn packet_of(
    packet_type: &str,
    version: Version,
    id: [u8; 4],
    number_len: usize,
    payload: &[u8],
) -> std::result::Result<(Vec<u8>, Range<usize>), HeaderError> {
    let mut packet = vec![0; MAX_HEADER_LEN];
    let long = |packet_type| LongHeader {
        version,
        packet_type,
        destination_id: &id,
        source_id: &[9],
        number_len,
        payload_len: payload.len(),
    };
    let short = ShortHeader {
        destination_id: &id,
        phase: false,
        number_len,
    };
    let number = match packet_type {
        "initial" => long(LongType::Initial { token: &[7; 3] }).write(&mut packet),
        "zero-rtt" => long(LongType::ZeroRtt).write(&mut packet),
        "handshake" => long(LongType::Handshake).write(&mut packet),
        _ => short.write(&mut packet),
    }?;
    packet.truncate(number.end);
    packet.extend_from_slice(payload);
    packet.extend_from_slice(&[0; TAG_LEN]);
    Ok((packet, number))
}
