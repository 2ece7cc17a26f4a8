//! Senders, receivers and keys of QUIC: key updates, limits, skipped numbers, and what is refused with nothing changed.

use std::error::Error;
use std::ops::Range;

use deerlapse::aead::Tag;
use deerlapse_protocols_vectors::quic::End;
use key_derivation::Secret;
use quic_packets::{
    DatagramError, Failures, FixedBit, HeaderError, HeaderKey, KeyError, Keys, MaskError,
    NumberError, Packet, PacketKey, PacketType, QuicSecret, ReceiveError, Receiver, RetryError,
    SendError, Sender, Space, Suite, Version, algorithm, header_algorithm,
};

/// The largest packet number (RFC 9000 section 12.3).
const LAST: u64 = (1 << 62) - 1;

/// The IV and the header key of `sent`.
const IV: [u8; 12] = [5; 12];
const HEADER_KEY: [u8; 16] = [9; 16];

/// The first byte of a short header with a packet number of two bytes, in the first key phase and in the second.
const FIRST: u8 = 0x41;
const SECOND: u8 = 0x45;

/// Keys of AES-128-GCM.
fn keys(key: &[u8]) -> Keys<'_> {
    Keys {
        version: Version::One,
        key,
        iv: IV,
        header_key: &HEADER_KEY,
    }
}

/// A receiver with a key of this byte.
fn receiver(key: u8) -> Receiver {
    Receiver::new(Suite::Aes128Gcm, keys(&[key; 16])).expect("keys of their lengths")
}

/// A secret of version 1.
fn secret() -> QuicSecret {
    QuicSecret::new(Version::One, Secret::aes_128_gcm([1; 32]))
}

/// A packet of an ID of 8 bytes, a number of two bytes and this payload, under a key of this byte. The first byte may have bits
/// that
/// `Sender` doesn't set.
fn sent(key: u8, first: u8, number: u16, payload: &[u8]) -> Vec<u8> {
    let mut packet = [
        &[first][..],
        &[7; 8],
        &number.to_be_bytes(),
        payload,
        &[0; 16],
    ]
    .concat();
    let key = PacketKey::new(algorithm(Suite::Aes128Gcm), &[key; 16], IV).expect("16 bytes");
    assert_eq!(key.seal(number.into(), &mut packet, 11), Ok(()));
    let key = HeaderKey::new(header_algorithm(Suite::Aes128Gcm), &HEADER_KEY).expect("16 bytes");
    assert_eq!(key.protect(&mut packet, 9), Ok(()));
    packet
}

/// The parts of such a packet, whatever its form.
fn parts_of(packet: &[u8]) -> Packet {
    Packet {
        start: 0,
        packet_type: PacketType::OneRtt,
        version: None,
        destination_id: 1..9,
        source_id: 1..1,
        token: 1..1,
        number_at: Some(9),
        end: packet.len(),
    }
}

/// What happens at a receiver. A packet is given by the byte of its key, its first byte and its number.
#[derive(Clone, Copy)]
enum Arrival {
    Received(u8, u8, u16),
    Refused(u8, u8, u16, ReceiveError),
    /// The key of the next phase is set.
    NextKey(u8),
    ForgetPrevious,
    /// Another receiver continues in the same space, as that of 1-RTT packets after that of 0-RTT packets.
    OtherKey(u8),
}

impl Arrival {
    fn happens(self, end: &mut End) {
        let mut receive = |key, first, number| {
            let mut packet = sent(key, first, number, &[7; 13]);
            let parts = parts_of(&packet);
            let outcome = end.receive(&mut packet, &parts);
            outcome.map(|it| (it.number, packet[it.payload].to_vec()))
        };
        match self {
            Arrival::Received(key, first, number) => {
                let wanted = Ok((number.into(), vec![7; 13]));
                assert_eq!(receive(key, first, number), wanted);
            }
            Arrival::Refused(key, first, number, error) => {
                assert_eq!(receive(key, first, number), Err(error), "{number}");
            }
            Arrival::NextKey(key) => {
                assert_eq!(end.receiver.set_next_with(&[key; 16], IV), Ok(()));
            }
            Arrival::ForgetPrevious => end.receiver.forget_previous(),
            Arrival::OtherKey(key) => end.receiver = receiver(key),
        }
    }
}

use Arrival::{ForgetPrevious, NextKey, OtherKey, Received as Comes, Refused as Fails};
use ReceiveError::{Duplicate, KeyUpdate, NoFrames, Refused, ReservedBits, TooManyFailures};

/// Each number is received once, and none that is 128 or more below the largest.
const EACH_NUMBER_ONCE: [Arrival; 12] = [
    Comes(1, FIRST, 0),
    Comes(1, FIRST, 2),
    Comes(1, FIRST, 1),
    Comes(1, FIRST, 300),
    Comes(1, FIRST, 173),
    Comes(1, FIRST, 299),
    Fails(1, FIRST, 0, Duplicate),
    Fails(1, FIRST, 2, Duplicate),
    Fails(1, FIRST, 300, Duplicate),
    Fails(1, FIRST, 173, Duplicate),
    Fails(1, FIRST, 299, Duplicate),
    Fails(1, FIRST, 172, Duplicate),
];

/// Two key updates with late packets of the phase before. A packet is refused if the receiver doesn't have its key.
const PHASES: [Arrival; 13] = [
    Comes(1, FIRST, 5),
    Fails(2, SECOND, 6, Refused),
    NextKey(2),
    Fails(2, SECOND, 4, KeyUpdate),
    Comes(2, SECOND, 8),
    Comes(1, FIRST, 6),
    Comes(2, SECOND, 7),
    NextKey(3),
    Comes(1, FIRST, 4),
    Comes(3, FIRST, 9),
    Fails(1, FIRST, 3, Refused),
    ForgetPrevious,
    Fails(2, SECOND, 2, Refused),
];

/// Packets under earlier keys than those of a lower number (RFC 9001 section 6.4): under the next, the current and the previous
/// keys, also once the previous key is dropped, and after late packets of theirs.
const EARLIER_KEYS: [Arrival; 20] = [
    Comes(1, FIRST, 10),
    NextKey(2),
    Fails(2, SECOND, 9, KeyUpdate),
    Comes(2, SECOND, 20),
    Fails(2, SECOND, 9, KeyUpdate),
    Comes(2, SECOND, 19),
    Comes(1, FIRST, 8),
    Comes(2, SECOND, 11),
    Fails(1, FIRST, 15, Refused),
    Comes(1, FIRST, 9),
    Fails(1, FIRST, 10, Duplicate),
    Comes(2, SECOND, 14),
    NextKey(3),
    Fails(3, FIRST, 12, KeyUpdate),
    Comes(3, FIRST, 30),
    Fails(2, SECOND, 7, KeyUpdate),
    Comes(2, SECOND, 25),
    ForgetPrevious,
    Fails(3, FIRST, 24, KeyUpdate),
    Comes(3, FIRST, 26),
];

/// A late packet of the previous key raises the highest number of that key.
const LATE_PACKETS: [Arrival; 5] = [
    NextKey(2),
    Comes(2, SECOND, 20),
    Comes(1, FIRST, 15),
    Fails(2, SECOND, 14, KeyUpdate),
    Comes(2, SECOND, 16),
];

/// 0-RTT and 1-RTT packets have different keys and share one space.
const ONE_SPACE: [Arrival; 4] = [
    Comes(1, 0xd1, 0),
    OtherKey(2),
    Fails(2, FIRST, 0, Duplicate),
    Comes(2, FIRST, 1),
];

/// Reserved bits of short and of long headers.
const RESERVED_BITS: [Arrival; 5] = [
    Fails(1, FIRST | 0x08, 3, ReservedBits),
    Fails(1, FIRST | 0x10, 3, ReservedBits),
    Fails(1, 0xc5, 3, ReservedBits),
    Fails(1, 0xc9, 3, ReservedBits),
    Comes(1, 0xd1, 3),
];

/// At the limit of two failures, every packet is refused, and none is counted.
const FAILURES: [Arrival; 5] = [
    Fails(2, FIRST, 0, Refused),
    Comes(1, FIRST, 0),
    Fails(2, FIRST, 1, Refused),
    Fails(1, FIRST, 1, TooManyFailures),
    Fails(2, FIRST, 1, TooManyFailures),
];

#[test]
fn receivers_take_packets_in_turn() {
    for (arrivals, limit, failures) in [
        (&EACH_NUMBER_ONCE[..], u64::MAX, 0),
        (&PHASES, u64::MAX, 3),
        (&EARLIER_KEYS, u64::MAX, 1),
        (&LATE_PACKETS, u64::MAX, 0),
        (&ONE_SPACE, u64::MAX, 0),
        (&RESERVED_BITS, u64::MAX, 0),
        (&FAILURES, 2, 2),
    ] {
        let mut end = End::new(receiver(1));
        end.failures = Failures::new().with_limit(limit);
        for arrival in arrivals {
            arrival.happens(&mut end);
        }
        assert_eq!(end.failures.count(), failures);
        assert_eq!(end.failures.is_at_limit(), limit == failures);
    }
}

/// A start, the position of the number and an end of a packet in a datagram, and the error. Nothing is counted before the
/// packet is opened, and nothing changes.
#[test]
fn refused_parts_change_nothing() {
    let packet = sent(1, FIRST, 3, &[7; 13]);
    let mut datagram = [&[6; 2][..], &packet, &[6; 2]].concat();
    let before = datagram.clone();
    let mut end = End::new(receiver(1));
    for (start, number_at, to, error, failures) in [
        (2, Some(11), 45, ReceiveError::PastEnd, 0),
        (2, None, 42, ReceiveError::NoNumber, 0),
        (2, Some(2), 42, ReceiveError::NumberAtFirstByte, 0),
        (2, Some(1), 42, ReceiveError::NumberAtFirstByte, 0),
        (2, Some(23), 42, ReceiveError::NoSample, 0),
        (2, Some(11), 41, ReceiveError::Refused, 1),
        (2, Some(11), 43, ReceiveError::Refused, 2),
    ] {
        let parts = Packet {
            start,
            number_at,
            end: to,
            ..parts_of(&packet)
        };
        assert_eq!(end.receive(&mut datagram, &parts), Err(error));
        assert_eq!((&datagram, end.failures.count()), (&before, failures));
    }
    let parts = Packet {
        start: 2,
        number_at: Some(11),
        end: 42,
        ..parts_of(&packet)
    };
    let received = end.receive(&mut datagram, &parts).expect("the right parts");
    assert_eq!(received.payload, 13..26);
    assert_eq!(
        (&datagram[..2], &datagram[42..]),
        (&[6; 2][..], &[6; 2][..])
    );
}

#[test]
fn empty_payloads_are_refused() {
    let mut packet = [&[0x43][..], &[7; 8], &[0, 0, 0, 5], &[0; 16]].concat();
    let key = PacketKey::new(algorithm(Suite::Aes128Gcm), &[1; 16], IV).expect("16 bytes");
    assert_eq!(key.seal(5, &mut packet, 13), Ok(()));
    let key = HeaderKey::new(header_algorithm(Suite::Aes128Gcm), &HEADER_KEY).expect("16 bytes");
    assert_eq!(key.protect(&mut packet, 9), Ok(()));
    let mut end = End::new(receiver(1));
    for _ in 0..2 {
        let parts = parts_of(&packet);
        assert_eq!(end.receive(&mut packet.clone(), &parts), Err(NoFrames));
    }
    assert_eq!((end.failures.count(), end.space.largest()), (0, None));
}

/// A window of 64 words has 4,096 numbers.
#[test]
fn widest_window() {
    let (mut receiver, mut space, mut failures) =
        (receiver(1), Space::<64>::new(), Failures::new());
    for (number, is_new) in [
        (0, true),
        (4095, true),
        (0, false),
        (4096, true),
        (0, false),
        (1, true),
        (4160, true),
        (65, true),
        (65, false),
        (64, false),
    ] {
        assert_eq!(space.is_new(number.into()), is_new);
        let mut packet = sent(1, FIRST, number, &[7; 13]);
        let parts = parts_of(&packet);
        let outcome = receiver.receive(&mut space, &mut failures, &mut packet, &parts);
        assert_eq!(
            outcome.map(|it| it.number),
            if is_new {
                Ok(number.into())
            } else {
                Err(Duplicate)
            }
        );
    }
    assert!(space.ranges().eq([4160..4161, 4095..4097, 65..66]));
}

/// A short header, a payload and room for the tag.
const UNSENT: [u8; 24] = {
    let mut packet = [0; 24];
    packet[0] = 0x40;
    packet
};

fn sender(first: u64) -> Sender {
    Sender::new(Suite::Aes128Gcm, keys(&[1; 16]), first).expect("keys of their lengths")
}

/// What a sender has.
fn state(sender: &Sender) -> (u64, u64, u64, bool, u64, Option<u64>, Option<usize>) {
    (
        sender.next_number(),
        sender.sealed(),
        sender.remaining(),
        sender.phase(),
        sender.first_of_phase(),
        sender.largest_acknowledged(),
        sender.next_number_len(),
    )
}

/// Asserts that a packet isn't sent, and that it and the sender are unchanged.
#[track_caller]
fn isnt_sent(sender: &mut Sender, packet: &[u8], number: Range<usize>, error: SendError) {
    let (mut buffer, before) = (packet.to_vec(), state(sender));
    assert_eq!(
        sender.send(&mut buffer, number, FixedBit::Required),
        Err(error)
    );
    assert_eq!((&buffer[..], state(sender)), (packet, before));
}

/// The first byte and the version of a packet, the room for its number, and the error.
#[test]
fn refused_packets_change_nothing() {
    let mut sender = sender(0);
    #[expect(clippy::reversed_empty_ranges)]
    for (first, version, number, error) in [
        (0x40, 0, 8..9, SendError::TooShort),
        (0x40, 0, 0..1, SendError::NumberAtFirstByte),
        (0x40, 0, 5..6, SendError::NoSample),
        (0x40, 0, 1..6, SendError::NumberLength),
        (0x40, 0, 2..1, SendError::NumberLength),
        (0xf0, 1, 1..2, SendError::NoProtection),
        (0xc0, 0, 1..2, SendError::NoProtection),
        (0xa0, 2, 4..5, SendError::OtherVersion),
        (0x00, 0, 1..2, SendError::NoFixedBit),
        (0xa0, 1, 4..5, SendError::NoFixedBit),
        (0x40, 0, 4..8, SendError::EmptyPayload),
    ] {
        let mut packet = UNSENT;
        packet[0] = first;
        packet[4] = version;
        isnt_sent(&mut sender, &packet, number, error);
    }
    let mut greased = UNSENT;
    greased[0] = 0;
    assert_eq!(sender.send(&mut greased, 4..5, FixedBit::Greased), Ok(0));
    assert_eq!(greased[0] & 0x40, 0);
}

#[test]
fn numbers_of_a_sender_end() {
    let mut sender = sender(1 << 31);
    isnt_sent(&mut sender, &UNSENT, 1..2, SendError::NumberTooFar);
    for (number, outcome) in [
        ((1 << 31) - 1, Err(NumberError::NumberUsed)),
        (LAST + 2, Err(NumberError::NumbersEnded)),
        (LAST + 1, Ok(())),
    ] {
        let before = state(&sender);
        assert_eq!(sender.skip_to(number), outcome);
        assert_eq!(state(&sender) == before, outcome.is_err());
    }
    isnt_sent(&mut sender, &UNSENT, 1..2, SendError::NumbersEnded);
    let secret = secret();
    assert_eq!(
        Sender::from_secret(secret, LAST + 2).err(),
        Some(KeyError::NumbersEnded)
    );
}

/// What happens at a sender. A key has one byte over and over.
#[derive(Clone, Copy)]
enum Event {
    /// A packet is sent, which this key opens and which has this key phase.
    Sent(u8, bool),
    UsedUp,
    Confirmed,
    Skipped(u64),
    /// The peer acknowledges a number in a packet of the sender's phase.
    Acknowledged(u64, Result<(), NumberError>),
    /// The peer acknowledges a number in a packet of this phase.
    AcknowledgedIn(u64, bool, Result<(), NumberError>),
    /// The first number of the phase, and the number of packets that can still be sent.
    Stands(u64, u64),
    /// An update to a key of this byte and length is initiated.
    Initiated(u8, usize, Result<(), KeyError>),
    Followed(u8, usize, Result<(), KeyError>),
}

impl Event {
    fn happens(self, sender: &mut Sender) {
        let before = state(sender);
        let is_error = match self {
            Event::Sent(key, phase) => return is_sent(sender, key, phase),
            Event::UsedUp => return isnt_sent(sender, &UNSENT, 1..2, SendError::KeyUsedUp),
            Event::Confirmed => return sender.confirm_handshake(),
            Event::Skipped(number) => return assert_eq!(sender.skip_to(number), Ok(())),
            Event::Stands(first, remaining) => {
                return assert_eq!(
                    (sender.first_of_phase(), sender.remaining()),
                    (first, remaining)
                );
            }
            Event::Acknowledged(number, outcome) => {
                assert_eq!(sender.acknowledged(number), outcome, "{number}");
                outcome.is_err()
            }
            Event::AcknowledgedIn(number, phase, outcome) => {
                assert_eq!(sender.acknowledged_in(number, phase), outcome, "{number}");
                outcome.is_err()
            }
            Event::Initiated(key, len, outcome) => {
                assert_eq!(sender.initiate_update_with(&vec![key; len], IV), outcome);
                outcome.is_err()
            }
            Event::Followed(key, len, outcome) => {
                assert_eq!(sender.follow_update_with(&vec![key; len], IV), outcome);
                outcome.is_err()
            }
        };
        assert!(!is_error || state(sender) == before);
    }
}

/// Sends a packet, and asserts that a key of this byte opens it.
#[track_caller]
fn is_sent(sender: &mut Sender, key: u8, phase: bool) {
    let mut packet = UNSENT;
    let number = sender
        .send(&mut packet, 1..2, FixedBit::Required)
        .expect("a number");
    let header_key = HeaderKey::new(header_algorithm(Suite::Aes128Gcm), &HEADER_KEY);
    assert_eq!(
        header_key.expect("16 bytes").unprotect(&mut packet, 1),
        Ok(1)
    );
    assert_eq!(packet[..2], [if phase { 0x44 } else { 0x40 }, number as u8]);
    let key = PacketKey::new(algorithm(Suite::Aes128Gcm), &[key; 16], IV).expect("16 bytes");
    assert_eq!(key.open(number, &mut packet, 2), Ok(6));
    assert_eq!(packet[2..8], UNSENT[2..8]);
}

use Event::{
    Acknowledged, AcknowledgedIn, Confirmed, Followed, Initiated, Sent, Skipped, Stands, UsedUp,
};
use KeyError::{HandshakeUnconfirmed, KeyLength, PhaseUnacknowledged};
use NumberError::{NeverSent, UpdateUnanswered};

/// At most two packets under each key. The limit begins anew at a key update, and the numbers go on.
const LIMITS_AND_UPDATES: [Event; 17] = [
    Sent(1, false),
    Sent(1, false),
    UsedUp,
    Initiated(2, 16, Err(HandshakeUnconfirmed)),
    Confirmed,
    Initiated(2, 17, Err(KeyLength)),
    Initiated(2, 16, Ok(())),
    Sent(2, true),
    Acknowledged(1, Ok(())),
    Acknowledged(3, Err(NeverSent)),
    Acknowledged(1 << 61, Err(NeverSent)),
    Initiated(3, 16, Err(PhaseUnacknowledged)),
    Acknowledged(2, Ok(())),
    Initiated(3, 16, Ok(())),
    Followed(4, 15, Err(KeyLength)),
    Followed(4, 16, Ok(())),
    Sent(4, true),
];

/// A phase whose first packet comes after a skip, one with a skip after its packet, and one with two skips before its packet
/// and one after it that leaves no number unused.
const SKIPS: [Event; 27] = [
    Confirmed,
    Initiated(2, 16, Ok(())),
    Skipped(50),
    Acknowledged(0, Err(NeverSent)),
    Acknowledged(49, Err(NeverSent)),
    Initiated(3, 16, Err(PhaseUnacknowledged)),
    Sent(2, true),
    Acknowledged(49, Err(NeverSent)),
    Acknowledged(51, Err(NeverSent)),
    Initiated(3, 16, Err(PhaseUnacknowledged)),
    Acknowledged(50, Ok(())),
    Initiated(3, 16, Ok(())),
    Sent(3, false),
    Skipped(60),
    Acknowledged(52, Err(NeverSent)),
    Acknowledged(59, Err(NeverSent)),
    Initiated(4, 16, Err(PhaseUnacknowledged)),
    Acknowledged(51, Ok(())),
    Initiated(4, 16, Ok(())),
    Skipped(70),
    Skipped(80),
    Acknowledged(69, Err(NeverSent)),
    Acknowledged(70, Err(NeverSent)),
    Sent(4, true),
    Skipped(81),
    Acknowledged(80, Ok(())),
    Initiated(5, 16, Ok(())),
];

/// Acknowledgments in packets of each phase. Under older keys, only a number of an earlier phase is acknowledged.
const OLDER_KEYS: [Event; 18] = [
    Stands(0, 9),
    Sent(1, false),
    AcknowledgedIn(0, false, Ok(())),
    AcknowledgedIn(1, true, Err(NeverSent)),
    Confirmed,
    Initiated(2, 16, Ok(())),
    Stands(1, 9),
    Sent(2, true),
    Skipped(5),
    Sent(2, true),
    Stands(1, 7),
    AcknowledgedIn(0, false, Ok(())),
    AcknowledgedIn(1, false, Err(UpdateUnanswered)),
    AcknowledgedIn(5, false, Err(UpdateUnanswered)),
    AcknowledgedIn(4, false, Err(NeverSent)),
    AcknowledgedIn(6, false, Err(NeverSent)),
    Initiated(3, 16, Err(PhaseUnacknowledged)),
    AcknowledgedIn(5, true, Ok(())),
];

#[test]
fn senders_update_keys_and_skip_numbers() {
    for (first, limit, events) in [
        (0, 2, &LIMITS_AND_UPDATES[..]),
        (0, 99, &SKIPS),
        (0, 9, &OLDER_KEYS),
        (LAST - 2, 9, &[Stands(LAST - 2, 3)]),
    ] {
        let mut sender = sender(first).with_limit(limit);
        assert_eq!(sender.limit(), limit);
        for event in events {
            event.happens(&mut sender);
        }
    }
}

/// Eight ranges of skipped numbers are kept. A ninth forgets the lowest one, whose numbers are then acknowledged as if they
/// were sent, but allow no key update.
#[test]
fn ranges_of_skipped_numbers() {
    let mut sender = sender(0);
    sender.confirm_handshake();
    for number in (1..6).step_by(2) {
        assert_eq!(sender.skip_to(number), Ok(()));
        is_sent(&mut sender, 1, false);
    }
    assert_eq!(sender.follow_update_with(&[2; 16], IV), Ok(()));
    for number in (7..16).step_by(2) {
        assert_eq!(sender.skip_to(number), Ok(()));
        is_sent(&mut sender, 2, true);
    }
    for number in (0..16).step_by(2) {
        assert_eq!(sender.acknowledged(number), Err(NeverSent));
    }
    for number in (17..32).step_by(2) {
        assert_eq!(sender.skip_to(number), Ok(()));
        is_sent(&mut sender, 2, true);
    }
    for number in (0..16).step_by(2) {
        assert_eq!(sender.acknowledged(number), Ok(()));
    }
    for number in (16..32).step_by(2) {
        assert_eq!(sender.acknowledged(number), Err(NeverSent));
    }
    assert_eq!(
        sender.initiate_update_with(&[3; 16], IV),
        Err(PhaseUnacknowledged)
    );
    assert_eq!(sender.acknowledged(15), Ok(()));
    assert_eq!(sender.initiate_update_with(&[3; 16], IV), Ok(()));
}

/// The numbers, the largest acknowledged one and the limit go on from 0-RTT to 1-RTT packets.
#[test]
fn numbers_go_on_under_installed_keys() {
    let install = |sender: &mut Sender, header_key: &[u8]| {
        let keys = Keys {
            header_key,
            key: &[5; 32],
            ..keys(&[])
        };
        sender.install_keys(Suite::Aes256Gcm, keys)
    };
    let mut sender = sender(1 << 40).with_limit(1);
    assert_eq!(sender.next_number_len(), None);
    assert_eq!(sender.acknowledged((1 << 40) - 1), Ok(()));
    assert_eq!(sender.acknowledged(5), Ok(()));
    is_sent(&mut sender, 1, false);
    let before = state(&sender);
    assert_eq!(install(&mut sender, &[6; 16]), Err(KeyLength));
    assert_eq!(state(&sender), before);
    assert_eq!(install(&mut sender, &[6; 32]), Ok(()));
    let number = (1 << 40) + 1;
    let acknowledged = Some((1 << 40) - 1);
    assert_eq!(
        state(&sender),
        (number, 0, 1, false, number, acknowledged, Some(1))
    );
    assert_eq!(
        sender.send(&mut { UNSENT }, 1..2, FixedBit::Required),
        Ok(number)
    );
    isnt_sent(&mut sender, &UNSENT, 1..2, SendError::KeyUsedUp);
}

/// A sender and a receiver of a secret take no keys of the caller's, and those of the caller's keys derive none.
#[test]
fn keys_are_of_a_secret_or_of_the_caller() {
    let mut of_secret = Sender::from_secret(secret(), 0).expect("a number");
    let mut of_keys = sender(0);
    of_secret.confirm_handshake();
    of_keys.confirm_handshake();
    let before = (state(&of_secret), state(&of_keys));
    for outcome in [
        of_secret.initiate_update_with(&[1; 16], IV),
        of_secret.follow_update_with(&[1; 16], IV),
        of_secret.install_keys(Suite::Aes128Gcm, keys(&[1; 16])),
        Receiver::from_secret(secret()).set_next_with(&[1; 16], IV),
    ] {
        assert_eq!(outcome, Err(KeyError::KeysDerived));
    }
    for outcome in [
        of_keys.initiate_update(),
        of_keys.follow_update(),
        of_keys.install_secret(secret()),
        receiver(1).set_next(),
    ] {
        assert_eq!(outcome, Err(KeyError::NoSecret));
    }
    assert_eq!((state(&of_secret), state(&of_keys)), before);
    is_sent(&mut of_keys, 1, false);
}

#[test]
fn keys_of_other_lengths_are_refused() {
    for (suite, right) in [(Suite::Aes128Gcm, 16), (Suite::Aes256Gcm, 32)] {
        for len in 0..40 {
            let error = (len != right).then_some(KeyLength);
            let key = vec![1; len];
            assert_eq!(PacketKey::new(algorithm(suite), &key, IV).err(), error);
            assert_eq!(HeaderKey::new(header_algorithm(suite), &key).err(), error);
            let keys = Keys {
                header_key: &vec![1; right],
                ..keys(&key)
            };
            assert_eq!(Sender::new(suite, keys, 0).err(), error);
            assert_eq!(Receiver::new(suite, keys).err(), error);
        }
    }
    assert_eq!(receiver(1).set_next_with(&[1; 32], IV), Err(KeyLength));
}

/// The key of the calls that are refused.
fn packet_key() -> PacketKey {
    PacketKey::new(algorithm(Suite::Aes128Gcm), &[1; 16], IV).expect("16 bytes")
}

#[test]
fn refused_openings_change_nothing() {
    use ReceiveError::{NumbersEnded, OutputLength, TooShort};
    let (key, header, tag) = (packet_key(), [7; 4], Tag::from([7; 16]));
    let mut bytes = [7; 24];
    for (number, error) in [(LAST, Refused), (LAST + 1, NumbersEnded)] {
        assert_eq!(key.open(number, &mut bytes, 4), Err(error));
        assert_eq!(key.open_payload(number, &header, &mut bytes), Err(error));
        let opened = key.open_separate_tag(number, &header, &mut bytes, tag);
        assert_eq!(opened, Err(error));
        let opened = key.open_to(number, &header, &[7; 40], &mut bytes);
        assert_eq!(opened, Err(error));
    }
    assert_eq!(key.open(0, &mut bytes, 9), Err(TooShort));
    assert_eq!(
        key.open_payload(0, &header, &mut bytes[..15]),
        Err(TooShort)
    );
    let opened = key.open_to(0, &header, &[7; 39], &mut bytes);
    assert_eq!(opened, Err(OutputLength));
    assert_eq!(bytes, [7; 24]);
}

#[test]
fn refused_sealings_change_nothing() {
    use SendError::{NumbersEnded, OutputLength, TooShort};
    let (key, header) = (packet_key(), [7; 4]);
    let mut bytes = [7; 24];
    assert_eq!(key.seal(LAST + 1, &mut bytes, 4), Err(NumbersEnded));
    let sealed = key.seal_to(LAST + 1, &header, &[7; 8], &mut bytes);
    assert_eq!(sealed, Err(NumbersEnded));
    let sealed = key.seal_separate_tag(LAST + 1, &header, &mut bytes);
    assert_eq!(sealed.err(), Some(NumbersEnded));
    assert_eq!(key.seal(0, &mut bytes, 9), Err(TooShort));
    let sealed = key.seal_to(0, &header, &[7; 9], &mut bytes);
    assert_eq!(sealed, Err(OutputLength));
    assert_eq!(bytes, [7; 24]);
    assert_eq!(key.seal(LAST, &mut bytes, 4), Ok(()));
}

#[test]
fn refused_calls_of_a_header_key_change_nothing() {
    let key = HeaderKey::new(header_algorithm(Suite::Aes128Gcm), &HEADER_KEY).expect("16 bytes");
    let (mut first, mut number, mut packet) = (0xc3, [9; 5], [7; 40]);
    for (sample, len, error) in [
        (15, 4, MaskError::NoSample),
        (17, 5, MaskError::NoSample),
        (16, 5, MaskError::NumberLength),
    ] {
        let (sample, number) = (vec![7; sample], &mut number[..len]);
        assert_eq!(
            key.encrypt_in_place(&sample, &mut first, number),
            Err(error)
        );
        assert_eq!(
            key.decrypt_in_place(&sample, &mut first, number),
            Err(error)
        );
    }
    for (number_at, error) in [(0, MaskError::NumberAtFirstByte), (21, MaskError::NoSample)] {
        assert_eq!(key.protect(&mut packet, number_at), Err(error));
        assert_eq!(key.unprotect(&mut packet, number_at), Err(error));
    }
    assert_eq!((first, number, packet), (0xc3, [9; 5], [7; 40]));
    assert_eq!(key.protect(&mut packet, 20), Ok(()));
}

/// RFC 9000 section 20.1 and RFC 9001 section 6.6: the codes of the errors that close a connection. The others have none.
#[test]
fn codes_of_errors() {
    use ReceiveError as R;
    for (error, code) in [
        (R::ReservedBits, Some(0x0a)),
        (R::NoFrames, Some(0x0a)),
        (R::KeyUpdate, Some(0x0e)),
        (R::TooManyFailures, Some(0x0f)),
        (R::PastEnd, None),
        (R::NoNumber, None),
        (R::NumberAtFirstByte, None),
        (R::NoSample, None),
        (R::TooShort, None),
        (R::TooLong, None),
        (R::OtherVersion, None),
        (R::NumbersEnded, None),
        (R::OutputLength, None),
        (R::Refused, None),
        (R::Duplicate, None),
    ] {
        assert_eq!(error.code(), code);
    }
    for (error, code) in [
        (NeverSent, Some(0x0a)),
        (UpdateUnanswered, Some(0x0e)),
        (NumberError::NumberUsed, None),
        (NumberError::NumbersEnded, None),
        (NumberError::NoKeys, None),
    ] {
        assert_eq!(error.code(), code);
    }
}

#[test]
fn errors_say_what_is_wrong() {
    let errors: [(&dyn Error, &str); 8] = [
        (&KeyError::KeysDerived, "the keys derive from a secret"),
        (&NeverSent, "a packet that was not sent was acknowledged"),
        (&SendError::EmptyPayload, "the packet has no payload"),
        (&ReceiveError::Refused, "the packet is not authentic"),
        (
            &MaskError::NumberLength,
            "the packet number has more than 4 bytes",
        ),
        (
            &DatagramError::NoFixedBit { end: 9 },
            "the fixed bit of the packet is 0",
        ),
        (
            &HeaderError::NoRoom,
            "the buffer is shorter than the header",
        ),
        (
            &RetryError::IdTooLong,
            "a connection ID has at most 20 bytes",
        ),
    ];
    for (error, text) in errors {
        assert_eq!(error.to_string(), text);
    }
}
