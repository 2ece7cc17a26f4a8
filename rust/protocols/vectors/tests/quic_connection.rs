//! Connections of QUIC: a handshake, key updates over a network that loses, repeats, delays, changes and cuts packets, the
//! limits of keys and failures, and what is refused.

use std::ops::Range;

use key_derivation::Secret;
use quic_packets::connection::{Connection, Incoming, Level, PeerUpdate, SentPacket, Step};
use quic_packets::{
    FixedBit, HeaderKey, KeyError, LongHeader, LongType, NumberError, PacketKey, PacketType,
    QuicSecret, ReceiveError, SendError, Sender, ShortHeader, TAG_LEN, Version,
};
use vectors::drawn::Drawn;

/// The connection ID of both ends.
const ID: [u8; 8] = [4; 8];

/// The secrets of the client's 0-RTT packets, and of the packets of both ends.
const EARLY: [u8; 32] = [1; 32];
const CLIENT_HANDSHAKE: [u8; 32] = [2; 32];
const SERVER_HANDSHAKE: [u8; 32] = [3; 32];
const CLIENT: [u8; 32] = [4; 32];
const SERVER: [u8; 32] = [5; 32];

fn secret(bytes: [u8; 32]) -> QuicSecret {
    QuicSecret::new(Version::One, Secret::aes_128_gcm(bytes))
}

fn level_of(packet_type: PacketType) -> Level {
    match packet_type {
        PacketType::Initial => Level::Initial,
        PacketType::Handshake => Level::Handshake,
        _ => Level::OneRtt,
    }
}

/// Returns a packet before it is sent, and the room for its number of four bytes.
fn unsent(packet_type: PacketType, payload: &[u8]) -> (Vec<u8>, Range<usize>) {
    let mut packet = vec![0; 40];
    let long = |packet_type| LongHeader {
        version: Version::One,
        packet_type,
        destination_id: &ID,
        source_id: &[],
        number_len: 4,
        payload_len: payload.len(),
    };
    let number = match packet_type {
        PacketType::Initial => long(LongType::Initial { token: &[] }).write(&mut packet),
        PacketType::ZeroRtt => long(LongType::ZeroRtt).write(&mut packet),
        PacketType::Handshake => long(LongType::Handshake).write(&mut packet),
        _ => {
            let header = ShortHeader {
                destination_id: &ID,
                phase: false,
                number_len: 4,
            };
            header.write(&mut packet)
        }
    };
    let number = number.expect("a header that fits");
    packet.truncate(number.end);
    packet.extend(payload);
    packet.extend([0; TAG_LEN]);
    (packet, number)
}

const PING: [u8; 4] = [1; 4];

fn sent<const W: usize>(
    end: &mut Connection<W>,
    packet_type: PacketType,
    payload: &[u8],
) -> Vec<u8> {
    let (mut packet, number) = unsent(packet_type, payload);
    let outcome = end.send(level_of(packet_type), &mut packet, number);
    outcome.expect("keys and a number");
    packet
}

/// What becomes of a packet.
#[derive(Clone, Copy, PartialEq, Debug)]
enum Fate {
    Received,
    Updated(PeerUpdate),
    NoKeys,
    Dropped(ReceiveError),
    Ignored,
    Closes(ReceiveError),
}

fn received<const W: usize>(end: &mut Connection<W>, datagram: &mut [u8]) -> Fate {
    match end
        .receive(datagram, 0, ID.len(), &ID)
        .map(|it| it.incoming)
    {
        Ok(Incoming::Packet(_, _, None)) => Fate::Received,
        Ok(Incoming::Packet(_, _, Some(update))) => Fate::Updated(update),
        Ok(Incoming::NoKeys(_)) => Fate::NoKeys,
        Ok(Incoming::Dropped(error)) => Fate::Dropped(error),
        Ok(Incoming::Ignored) => Fate::Ignored,
        Err(error) => Fate::Closes(error),
    }
}

/// An end with the keys of Handshake and 1-RTT packets, whose keys seal four packets, and which takes two failures.
fn established<const W: usize>(own: [u8; 32], peer: [u8; 32]) -> Connection<W> {
    let mut end = Connection::new(FixedBit::Required)
        .with_limit(4)
        .with_max_failures(2);
    for level in [Level::Handshake, Level::OneRtt] {
        assert_eq!(end.install_sender(level, secret(own)), Ok(()));
        assert_eq!(end.install_receiver(level, secret(peer)), Ok(()));
    }
    end
}

fn client() -> Connection<2> {
    established(CLIENT, SERVER)
}

fn server() -> Connection<2> {
    established(SERVER, CLIENT)
}

/// Receives the packets of a datagram, and returns their types and payloads.
fn received_all(end: &mut Connection<2>, mut datagram: Vec<u8>) -> Vec<(PacketType, u8)> {
    let (mut at, mut found) = (0, Vec::new());
    while at < datagram.len() {
        let step = end.receive(&mut datagram, at, ID.len(), &ID);
        let Ok(Step {
            next,
            incoming: Incoming::Packet(packet_type, packet, None),
        }) = step
        else {
            panic!("{step:?}")
        };
        found.push((packet_type, datagram[packet.payload.start]));
        at = next;
    }
    found
}

/// Installs the secrets of a level, of this end and of its peer.
fn install(end: &mut Connection<2>, level: Level, own: QuicSecret, peer: QuicSecret) {
    assert_eq!(end.install_sender(level, own), Ok(()));
    assert_eq!(end.install_receiver(level, peer), Ok(()));
}

/// A client and a server with the keys of Initial packets (RFC 9001 section 5.2).
fn begun() -> [Connection<2>; 2] {
    let client = || QuicSecret::client_initial(Version::One, &ID).expect("8 bytes");
    let server = || QuicSecret::server_initial(Version::One, &ID).expect("8 bytes");
    let mut ends = [0; 2].map(|_| Connection::new(FixedBit::Required));
    install(&mut ends[0], Level::Initial, client(), server());
    install(&mut ends[1], Level::Initial, server(), client());
    ends
}

/// Sends a datagram with a packet of each of these types, all of which are received.
fn fly(from: &mut Connection<2>, to: &mut Connection<2>, types: &[PacketType]) {
    let packets: Vec<_> = types.iter().map(|it| sent(from, *it, &PING)).collect();
    let wanted: Vec<_> = types.iter().map(|it| (*it, PING[0])).collect();
    assert_eq!(received_all(to, packets.concat()), wanted);
}

/// A handshake with 0-RTT packets (RFC 9001 section 4.1): each datagram has the packets of several levels. The numbers of the
/// client's 0-RTT packets go on.
#[test]
fn handshake() {
    use PacketType::{Handshake, Initial, OneRtt};
    let [mut client, mut server] = begun();
    assert_eq!(client.install_sender(Level::OneRtt, secret(EARLY)), Ok(()));
    let mut early = sent(&mut client, PacketType::ZeroRtt, &PING);
    assert_eq!(received(&mut server, &mut early), Fate::NoKeys);
    fly(&mut client, &mut server, &[Initial]);
    assert_eq!(server.install_zero_rtt_receiver(secret(EARLY)), Ok(()));
    assert_eq!(received(&mut server, &mut early), Fate::Received);

    let [of_client, of_server] = [CLIENT_HANDSHAKE, SERVER_HANDSHAKE];
    install(
        &mut server,
        Level::Handshake,
        secret(of_server),
        secret(of_client),
    );
    install(
        &mut client,
        Level::Handshake,
        secret(of_client),
        secret(of_server),
    );
    assert_eq!(server.install_sender(Level::OneRtt, secret(SERVER)), Ok(()));
    install(&mut client, Level::OneRtt, secret(CLIENT), secret(SERVER));
    fly(&mut server, &mut client, &[Initial, Handshake, OneRtt]);
    assert_eq!(
        server.install_receiver(Level::OneRtt, secret(CLIENT)),
        Ok(())
    );
    fly(&mut client, &mut server, &[Handshake, OneRtt]);
    assert!(server.space(Level::OneRtt).ranges().eq(Some(0..2)));
}

/// RFC 9001 section 4.9: packets whose keys are dropped are ignored, and no keys can be installed for them. The numbers stay.
#[test]
fn dropped_keys() {
    let mut end = server();
    let mut late = sent(&mut client(), PacketType::Handshake, &PING);
    assert_eq!(received(&mut end, &mut late.clone()), Fate::Received);
    let mut early = sent(&mut client(), PacketType::ZeroRtt, &PING);
    assert_eq!(received(&mut end, &mut early), Fate::NoKeys);
    end.discard_zero_rtt();
    for level in [Level::Initial, Level::Handshake] {
        end.discard(level);
        assert!(end.sender(level).is_none());
        let discarded = Err(KeyError::Discarded);
        assert_eq!(end.install_sender(level, secret(SERVER)), discarded);
        assert_eq!(end.install_receiver(level, secret(CLIENT)), discarded);
        assert_eq!(end.install_zero_rtt_receiver(secret(EARLY)), discarded);
    }
    for packet in [&mut late, &mut early] {
        assert_eq!(received(&mut end, packet), Fate::Ignored);
        *packet.last_mut().expect("a tag") ^= 1;
        assert_eq!(received(&mut end, packet), Fate::Ignored);
    }
    assert_eq!(end.failures(), 0);
    assert_eq!(end.space(Level::Handshake).largest(), Some(0));
}

/// A packet on its way.
struct Flying {
    number: u64,
    /// The number of key updates of its sender before it.
    phase: u64,
    payload: Vec<u8>,
    packet: Vec<u8>,
}

/// An end, its packets on their way, and what a plain model says that it has.
struct Modeled {
    end: Connection<2>,
    flying: Vec<Flying>,
    /// The number of its key updates.
    phase: u64,
    /// The phase of the peer's packets that its current key opens, and whether it has the keys before and after it.
    opens: u64,
    has_previous: bool,
    has_next: bool,
    came: Vec<u64>,
    failures: u64,
    /// How often a packet was received, refused as a duplicate and refused as not authentic, and an update was told.
    counts: [u32; 4],
}

impl Modeled {
    fn new(own: [u8; 32], peer: [u8; 32]) -> Self {
        let mut end = Connection::new(FixedBit::Required);
        assert_eq!(end.install_sender(Level::OneRtt, secret(own)), Ok(()));
        assert_eq!(end.install_receiver(Level::OneRtt, secret(peer)), Ok(()));
        end.confirm_handshake();
        Modeled {
            end,
            flying: Vec::new(),
            phase: 0,
            opens: 0,
            has_previous: false,
            has_next: true,
            came: Vec::new(),
            failures: 0,
            counts: [0; 4],
        }
    }

    fn send(&mut self, drawn: &mut Drawn) {
        let len = 1 + drawn.below(30);
        let payload = drawn.bytes(len);
        let (mut packet, number) = unsent(PacketType::OneRtt, &payload);
        let outcome = self.end.send(Level::OneRtt, &mut packet, number);
        let number = outcome.expect("keys and a number").number;
        self.has_next = true;
        self.flying.push(Flying {
            number,
            phase: self.phase,
            payload,
            packet,
        });
    }

    /// What the model expects of an unchanged packet. The window has 128 numbers.
    fn expected(&self, flying: &Flying) -> Fate {
        let largest = self.came.iter().max().copied().unwrap_or(0);
        let opens = flying.phase == self.opens
            || flying.phase + 1 == self.opens && self.has_previous
            || flying.phase == self.opens + 1 && self.has_next;
        if !opens {
            Fate::Dropped(ReceiveError::Refused)
        } else if self.came.contains(&flying.number) || flying.number + 128 <= largest {
            Fate::Dropped(ReceiveError::Duplicate)
        } else if flying.phase <= self.opens {
            Fate::Received
        } else if self.phase == flying.phase {
            Fate::Updated(PeerUpdate::Answered)
        } else {
            Fate::Updated(PeerUpdate::Initiated)
        }
    }

    /// Receives a packet that the network has left as it was.
    fn receive(&mut self, flying: &Flying) {
        let expected = self.expected(flying);
        let mut datagram = flying.packet.clone();
        assert_eq!(
            received(&mut self.end, &mut datagram),
            expected,
            "{}",
            flying.number
        );
        match expected {
            Fate::Dropped(ReceiveError::Refused) => {
                assert_eq!(datagram, flying.packet);
                self.failures += 1;
                self.counts[2] += 1;
            }
            Fate::Dropped(_) => self.counts[1] += 1,
            _ => {
                assert_eq!(datagram[13..][..flying.payload.len()], flying.payload);
                self.came.push(flying.number);
                self.counts[0] += 1;
            }
        }
        if let Fate::Updated(_) = expected {
            self.opens = flying.phase;
            (self.has_previous, self.has_next) = (true, false);
            self.phase = self.phase.max(flying.phase);
            self.counts[3] += 1;
        }
        self.check();
    }

    /// Receives a packet that the network has changed or cut.
    fn receive_changed(&mut self, mut packet: Vec<u8>, drawn: &mut Drawn) {
        if drawn.below(2) == 0 {
            let bit = 8 * 9 + drawn.below(8 * (packet.len() - 9));
            packet[bit / 8] ^= 1 << (bit % 8);
        } else {
            packet.truncate(drawn.below(packet.len()));
        }
        let before = packet.clone();
        let fate = received(&mut self.end, &mut packet);
        match fate {
            Fate::Dropped(ReceiveError::Refused) => self.failures += 1,
            // A packet is cut before its sample (RFC 9001 section 5.4.2), or before its number.
            Fate::Dropped(ReceiveError::NoSample) => assert!(packet.len() < 29),
            Fate::Ignored => assert!(packet.len() < 9),
            _ => panic!("{fate:?}"),
        }
        assert_eq!(packet, before);
        self.check();
    }

    fn check(&self) {
        assert_eq!(self.end.failures(), self.failures);
        let sender = self.end.sender(Level::OneRtt).expect("keys");
        assert_eq!(sender.phase(), self.phase % 2 == 1);
        let largest = self.came.iter().max().copied();
        assert_eq!(self.end.space(Level::OneRtt).largest(), largest);
    }
}

/// Tells `from` which packets have come to its peer, and initiates a key update. It is refused if none of the current phase has
/// come (RFC 9001 section 6.1). An update that the peer hasn't answered is left alone.
fn update(from: &mut Modeled, peer: &Modeled) {
    if from.phase != from.opens {
        return;
    }
    let phase = from.phase % 2 == 1;
    for number in &peer.came {
        assert_eq!(from.end.acknowledged(Level::OneRtt, *number, phase), Ok(()));
    }
    let first = from
        .end
        .sender(Level::OneRtt)
        .map_or(0, Sender::first_of_phase);
    let is_acknowledged = peer.came.iter().any(|number| *number >= first);
    if from.phase > 0 && !is_acknowledged {
        assert_eq!(
            from.end.initiate_update(),
            Err(KeyError::PhaseUnacknowledged)
        );
        return;
    }
    assert_eq!(from.end.initiate_update(), Ok(()));
    from.phase += 1;
    from.has_previous = false;
}

#[test]
fn network_that_loses_repeats_delays_changes_and_cuts() {
    let drawn = &mut Drawn::new(31);
    let mut ends = [Modeled::new(CLIENT, SERVER), Modeled::new(SERVER, CLIENT)];
    for _ in 0..20_000 {
        let [one, other] = &mut ends;
        match drawn.below(20) {
            0..8 => one.send(drawn),
            8..17 if !one.flying.is_empty() => {
                let at = match drawn.below(4) {
                    0 => drawn.below(one.flying.len()),
                    _ => one.flying.len() - 1,
                };
                match drawn.below(8) {
                    0 => drop(one.flying.remove(at)),
                    1 => other.receive_changed(one.flying[at].packet.clone(), drawn),
                    2 => other.receive(&one.flying[at]),
                    _ => other.receive(&one.flying.remove(at)),
                }
            }
            17 => update(one, other),
            18 if drawn.below(8) == 0 => {
                one.end.forget_previous();
                one.has_previous = false;
            }
            _ => {}
        }
        ends.rotate_left(drawn.below(2));
    }
    for end in &ends {
        assert!(
            end.counts.iter().all(|count| *count > 50),
            "{:?}",
            end.counts
        );
    }
}

/// An authentic packet of the client. `Connection` doesn't send those that close a connection.
fn authentic(packet_type: PacketType, bits: u8, number: u8, payload: &[u8]) -> Vec<u8> {
    let (mut packet, room) = unsent(packet_type, payload);
    packet[0] |= bits;
    packet[room.end - 1] = number;
    let keys = if bits == KEY_PHASE {
        secret(CLIENT).next()
    } else {
        secret(CLIENT)
    };
    let sealed = PacketKey::from_secret(&keys).seal(number.into(), &mut packet, room.end);
    assert_eq!(sealed, Ok(()));
    let masked = HeaderKey::from_secret(&secret(CLIENT)).protect(&mut packet, room.start);
    assert_eq!(masked, Ok(()));
    packet
}

const KEY_PHASE: u8 = 0x04;

/// Authentic packets that close a connection which has received the 1-RTT packet 5 (RFC 9000 sections 12.4, 17.2 and 17.3.1,
/// RFC 9001 section 6.4). The connection is then as it was.
#[test]
fn authentic_packets_that_close() {
    use ReceiveError::{KeyUpdate, NoFrames, ReservedBits};
    for (packet_type, bits, number, payload, error) in [
        (PacketType::OneRtt, 0x08, 6, &PING[..], ReservedBits),
        (PacketType::OneRtt, 0x10, 6, &PING, ReservedBits),
        (PacketType::Handshake, 0x0c, 6, &PING, ReservedBits),
        (PacketType::OneRtt, 0, 6, &[], NoFrames),
        (PacketType::OneRtt, KEY_PHASE, 4, &PING, KeyUpdate),
    ] {
        let mut end = server();
        let mut fifth = authentic(PacketType::OneRtt, 0, 5, &PING);
        assert_eq!(received(&mut end, &mut fifth), Fate::Received);
        for _ in 0..2 {
            let mut packet = authentic(packet_type, bits, number, payload);
            assert_eq!(received(&mut end, &mut packet), Fate::Closes(error));
        }
        let phase = |end: &Connection<2>| end.sender(Level::OneRtt).map(Sender::phase);
        assert_eq!((end.failures(), phase(&end)), (0, Some(false)));
        let mut right = authentic(packet_type, 0, number, &PING);
        assert_eq!(received(&mut end, &mut right), Fate::Received);
        let mut update = authentic(PacketType::OneRtt, KEY_PHASE, 7, &PING);
        assert_eq!(
            received(&mut end, &mut update),
            Fate::Updated(PeerUpdate::Initiated)
        );
        assert_eq!(phase(&end), Some(true));
    }
}

/// At the limit of failures, a connection receives nothing, and still sends.
#[test]
fn limit_of_failures() {
    let mut end = server();
    let mut forged = sent(&mut client(), PacketType::OneRtt, &PING);
    *forged.last_mut().expect("a tag") ^= 1;
    for count in 1..=2 {
        assert_eq!(
            received(&mut end, &mut forged),
            Fate::Dropped(ReceiveError::Refused)
        );
        assert_eq!(end.failures(), count);
    }
    let mut packet = sent(&mut client(), PacketType::OneRtt, &PING);
    for datagram in [&mut packet[..], &mut forged, &mut []] {
        let fate = received(&mut end, datagram);
        assert_eq!(fate, Fate::Closes(ReceiveError::TooManyFailures));
    }
    assert_eq!(end.failures(), 2);
    sent(&mut end, PacketType::OneRtt, &PING);
}

/// Sends until the key is used up, and returns the number of packets and the last one that a key update followed.
fn sent_until_used_up(end: &mut Connection<2>) -> (usize, Option<u64>) {
    let mut last = None;
    for count in 0..20 {
        let (mut packet, number) = unsent(PacketType::OneRtt, &PING);
        let before = packet.clone();
        match end.send(Level::OneRtt, &mut packet, number) {
            Ok(sent) => last = sent.keys_updated.then_some(sent.number).or(last),
            Err(error) => {
                assert_eq!((error, packet), (SendError::KeyUsedUp, before));
                return (count, last);
            }
        }
    }
    panic!("no key is used up")
}

/// A key of four packets (RFC 9001 section 6.6). Before the handshake is confirmed, the last one is kept for the packet that
/// closes the connection.
#[test]
fn last_packets_of_a_key() {
    let mut end = server();
    assert_eq!(sent_until_used_up(&mut end), (3, None));
    let (mut packet, number) = unsent(PacketType::OneRtt, &PING);
    let closed = end.send_close(Level::OneRtt, &mut packet, number.clone());
    assert_eq!(
        closed,
        Ok(SentPacket {
            number: 3,
            keys_updated: false
        })
    );
    let closed = end.send_close(Level::OneRtt, &mut packet, number);
    assert_eq!(closed, Err(SendError::KeyUsedUp));

    let mut end = server();
    end.confirm_handshake();
    assert_eq!(sent_until_used_up(&mut end), (6, Some(2)));
    assert_eq!(end.initiate_update(), Err(KeyError::PhaseUnacknowledged));
    for (number, phase, outcome) in [
        (5, false, Err(NumberError::UpdateUnanswered)),
        (6, true, Err(NumberError::NeverSent)),
        (5, true, Ok(())),
    ] {
        assert_eq!(end.acknowledged(Level::OneRtt, number, phase), outcome);
    }
    assert_eq!(sent_until_used_up(&mut end), (4, Some(6)));
}

#[test]
fn ends_without_keys_neither_send_nor_update() {
    let mut end = Connection::<2>::new(FixedBit::Required);
    for packet_type in [
        PacketType::Initial,
        PacketType::Handshake,
        PacketType::OneRtt,
    ] {
        let level = level_of(packet_type);
        let (mut packet, number) = unsent(packet_type, &PING);
        let before = packet.clone();
        assert_eq!(
            end.send(level, &mut packet, number.clone()),
            Err(SendError::NoKeys)
        );
        assert_eq!(
            end.send_close(level, &mut packet, number),
            Err(SendError::NoKeys)
        );
        assert_eq!(packet, before);
        assert_eq!(end.acknowledged(level, 0, false), Err(NumberError::NoKeys));
        assert_eq!(end.skip_to(level, 1), Err(NumberError::NoKeys));
        assert_eq!(received(&mut end, &mut packet), Fate::NoKeys);
        assert!(end.sender(level).is_none());
    }
    end.confirm_handshake();
    assert_eq!(end.initiate_update(), Err(KeyError::HandshakeUnconfirmed));
}

#[test]
fn skipped_numbers() {
    let mut end = server();
    for (number, outcome) in [
        (7, Ok(())),
        (6, Err(NumberError::NumberUsed)),
        ((1 << 62) + 1, Err(NumberError::NumbersEnded)),
    ] {
        assert_eq!(end.skip_to(Level::OneRtt, number), outcome);
    }
    sent(&mut end, PacketType::OneRtt, &PING);
    for (number, outcome) in [(6, Err(NumberError::NeverSent)), (7, Ok(()))] {
        assert_eq!(end.acknowledged(Level::OneRtt, number, false), outcome);
    }
}

/// RFC 9287 section 3: a fixed bit of 0 is sent once the peer allows it, and received by an end that does.
#[test]
fn fixed_bits() {
    for packet_type in [PacketType::Handshake, PacketType::OneRtt] {
        let mut from = client();
        let (mut packet, number) = unsent(packet_type, &PING);
        packet[0] &= 0xbf;
        let level = level_of(packet_type);
        let refused = from.send(level, &mut packet, number.clone());
        assert_eq!(refused, Err(SendError::NoFixedBit));
        from.set_peer_fixed_bit(FixedBit::Greased);
        assert!(from.send(level, &mut packet, number).is_ok());
        assert_eq!(received(&mut server(), &mut packet), Fate::Ignored);
        let mut greased = Connection::<2>::new(FixedBit::Greased);
        assert_eq!(greased.install_receiver(level, secret(CLIENT)), Ok(()));
        assert_eq!(received(&mut greased, &mut packet), Fate::Received);
    }
}

/// Packet 0 after packet 200: a window of 4 words has it, and one of 2 doesn't.
#[test]
fn windows_of_connections() {
    let mut from = client();
    let mut late = sent(&mut from, PacketType::OneRtt, &PING);
    assert_eq!(from.skip_to(Level::OneRtt, 200), Ok(()));
    let packet = sent(&mut from, PacketType::OneRtt, &PING);
    let (mut narrow, mut wide) = (server(), established::<4>(SERVER, CLIENT));
    assert_eq!(received(&mut narrow, &mut packet.clone()), Fate::Received);
    assert_eq!(received(&mut wide, &mut packet.clone()), Fate::Received);
    let duplicate = Fate::Dropped(ReceiveError::Duplicate);
    assert_eq!(received(&mut narrow, &mut late.clone()), duplicate);
    assert_eq!(received(&mut wide, &mut late), Fate::Received);
    assert!(narrow.space(Level::OneRtt).ranges().eq(Some(200..201)));
    assert!(wide.space(Level::OneRtt).ranges().eq([200..201, 0..1]));
}

#[test]
fn packets_for_another_id_are_ignored() {
    let mut packet = sent(&mut client(), PacketType::Handshake, &PING);
    let before = packet.clone();
    let mut end = server();
    let step = end.receive(&mut packet, 0, ID.len(), &[8; 8]);
    let wanted = Step {
        next: packet.len(),
        incoming: Incoming::Ignored,
    };
    assert_eq!((step, &packet), (Ok(wanted), &before));
    assert_eq!(received(&mut end, &mut packet), Fate::Received);
}
