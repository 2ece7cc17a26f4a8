//! Packet numbers, headers and datagrams of QUIC.

use quic_packets::numbers::{decode, number_len, truncated};
use quic_packets::{
    DatagramError, FixedBit, HeaderError, LongHeader, LongType, PacketType, ShortHeader, Version,
    packet_at,
};
use vectors::hex;

/// The largest packet number (RFC 9000 section 12.3).
const LAST: u64 = (1 << 62) - 1;

/// A packet number, the largest one that is acknowledged, and the length of its encoding. The first two are of RFC 9000 section
/// A.2.
const LENGTHS: [(u64, Option<u64>, Option<usize>); 16] = [
    (0x00ac_5c02, Some(0x00ab_e8b3), Some(2)),
    (0x00ac_e8fe, Some(0x00ab_e8b3), Some(3)),
    (0, None, Some(1)),
    (126, None, Some(1)),
    (127, None, Some(2)),
    (127, Some(0), Some(1)),
    (128, Some(0), Some(2)),
    (0x7fff, Some(0), Some(2)),
    (0x8000, Some(0), Some(3)),
    (0x007f_ffff, Some(0), Some(3)),
    (0x0080_0000, Some(0), Some(4)),
    (0x7fff_ffff, Some(0), Some(4)),
    (0x8000_0000, Some(0), None),
    (7, Some(7), None),
    (LAST, Some(LAST - 1), Some(1)),
    (LAST + 1, Some(LAST), None),
];

/// The largest number that was received, a truncated number, its length, and the number. The first is of RFC 9000 section A.3.
const DECODED: [(Option<u64>, u64, usize, u64); 9] = [
    (Some(0xa82f_30ea), 0x9b32, 2, 0xa82f_9b32),
    (Some(0x01ff), 0x80, 1, 0x0280),
    (Some(0x01ff), 0x81, 1, 0x0181),
    (None, 0, 1, 0),
    (None, 0xff, 1, 0xff),
    (Some(0), 0x8000_0001, 4, 0x8000_0001),
    (Some(LAST - 1), 0xff, 1, LAST),
    (Some(LAST), 0, 1, LAST - 0xff),
    (Some(LAST), 0x00ff_ffff, 3, LAST),
];

#[test]
fn numbers_by_rfc_9000() {
    for (number, acknowledged, len) in LENGTHS {
        assert_eq!(number_len(number, acknowledged), len, "{number}");
        if let Some(len) = len {
            let mask = (1 << (8 * len)) - 1;
            assert_eq!(decode(acknowledged, number & mask, len), number);
        }
    }
    for (largest, low, len, number) in DECODED {
        assert_eq!(decode(largest, low, len), number);
    }
    let packet = [0x43, 0x12, 0x34, 0x56, 0x78];
    for (len, low) in [(1, 0x12), (2, 0x1234), (3, 0x0012_3456), (4, 0x1234_5678)] {
        assert_eq!(truncated(&packet, 1, len), low);
    }
}

/// A type of a long header, and the first bytes up to the connection IDs in each version (RFC 9000 section 17.2, RFC 9369
/// section 3.2), with a number of two bytes.
const TYPES: [(PacketType, Option<LongType<'static>>, u8, u8); 4] = [
    (
        PacketType::Initial,
        Some(LongType::Initial { token: &[9; 70] }),
        0xc1,
        0xd1,
    ),
    (PacketType::ZeroRtt, Some(LongType::ZeroRtt), 0xd1, 0xe1),
    (PacketType::Handshake, Some(LongType::Handshake), 0xe1, 0xf1),
    (PacketType::Retry, None, 0xf1, 0xc1),
];

/// Each type in each version, with IDs of each length.
#[test]
fn long_headers_are_read_as_they_are_written() {
    let id: [u8; 20] = std::array::from_fn(|i| i as u8);
    for (packet_type, written, of_one, of_two) in TYPES {
        for (version, first) in [(Version::One, of_one), (Version::Two, of_two)] {
            let mut buffer = [&[first][..], &version.number().to_be_bytes(), &[0; 200]].concat();
            let found = packet_at(&buffer, 0, 0, FixedBit::Required).expect("a packet");
            assert_eq!(found.packet_type, packet_type);
            let Some(packet_type) = written else { continue };
            for len in 0..=20 {
                let header = LongHeader {
                    version,
                    packet_type,
                    destination_id: &id[..len],
                    source_id: &id[len..],
                    number_len: 2,
                    payload_len: 30,
                };
                let number = header.write(&mut buffer).expect("a header that fits");
                assert_eq!(buffer[0], first);
                let found = packet_at(&buffer, 0, 0, FixedBit::Required).expect("a packet");
                assert_eq!(found.version, Some(version.number()));
                assert_eq!(buffer[found.destination_id], id[..len]);
                assert_eq!(buffer[found.source_id], id[len..]);
                assert_eq!(found.number_at, Some(number.start));
                assert_eq!((number.len(), found.end), (2, number.end + 30 + 16));
                let token = matches!(packet_type, LongType::Initial { .. });
                assert_eq!(found.token.len(), if token { 70 } else { 0 });
            }
        }
    }
}

/// A header whose IDs have these lengths.
fn long(
    packet_type: LongType<'_>,
    ids: (usize, usize),
    number_len: usize,
    payload_len: usize,
) -> LongHeader<'_> {
    const ID: [u8; 21] = [7; 21];
    LongHeader {
        version: Version::One,
        packet_type,
        destination_id: &ID[..ids.0],
        source_id: &ID[..ids.1],
        number_len,
        payload_len,
    }
}

const INITIAL: LongType<'static> = LongType::Initial { token: &[] };

/// Integers of RFC 9000 section A.1, and the limits of section 16: the length of a token and its encoding.
#[test]
fn tokens_of_long_headers() {
    for (len, encoded) in [
        (37, "25"),
        (63, "3f"),
        (64, "4040"),
        (15_293, "7bbd"),
        (16_383, "7fff"),
        (16_384, "80004000"),
    ] {
        let token = vec![9; len];
        let mut buffer = vec![0xaa; len + 20];
        let header = long(LongType::Initial { token: &token }, (0, 0), 1, 20);
        let wanted = [
            &hex::bytes("c0000000010000")[..],
            &hex::bytes(encoded),
            &token,
            &[0x40, 0x25],
        ]
        .concat();
        assert_eq!(
            header.write(&mut buffer),
            Ok(wanted.len()..wanted.len() + 1)
        );
        assert!(buffer.starts_with(&wanted));
        assert!(buffer[wanted.len()..].iter().all(|byte| *byte == 0xaa));
    }
}

/// Lengths of a number and a payload, and the encoding of Length: in two bytes up to 16,383, and in four from there on.
#[test]
fn lengths_of_long_headers() {
    for (number_len, payload_len, encoded) in [
        (3, 16_364, "7fff"),
        (1, 16_367, "80004000"),
        (1, (1 << 30) - 18, "bfffffff"),
    ] {
        let mut buffer = [0xaa; 20];
        let header = long(LongType::Handshake, (0, 0), number_len, payload_len);
        let wanted = [hex::bytes("e0000000010000"), hex::bytes(encoded)].concat();
        let at = wanted.len();
        assert_eq!(header.write(&mut buffer), Ok(at..at + number_len));
        assert_eq!(buffer[1..at], wanted[1..]);
        assert!(buffer[at..].iter().all(|byte| *byte == 0xaa));
    }
}

#[test]
fn short_headers() {
    for (destination_id, phase, number_len, wanted) in
        [(&[7, 8, 9][..], false, 1, "40070809"), (&[], true, 4, "47")]
    {
        let mut buffer = [0xaa; 20];
        let header = ShortHeader {
            destination_id,
            phase,
            number_len,
        };
        let at = wanted.len() / 2;
        assert_eq!(header.write(&mut buffer), Ok(at..at + number_len));
        assert_eq!(hex::text(&buffer[..at]), wanted);
        assert_eq!(buffer[at..], [0xaa; 20][at..]);
    }
}

#[test]
fn refused_headers_write_nothing() {
    use HeaderError::{IdTooLong, NoRoom, NumberLength, TooLong};
    let mut buffer = [0xaa; 40];
    for (header, len, error) in [
        (long(INITIAL, (21, 0), 0, usize::MAX), 0, NumberLength),
        (long(INITIAL, (0, 0), 5, 4), 40, NumberLength),
        (long(INITIAL, (21, 0), 1, usize::MAX), 0, IdTooLong),
        (long(INITIAL, (0, 21), 1, 4), 40, IdTooLong),
        (long(INITIAL, (0, 0), 1, (1 << 30) - 17), 0, TooLong),
        (long(INITIAL, (0, 0), 1, usize::MAX), 40, TooLong),
        (long(INITIAL, (0, 0), 1, 4), 10, NoRoom),
        (long(LongType::Handshake, (0, 0), 4, 4), 12, NoRoom),
    ] {
        assert_eq!(header.write(&mut buffer[..len]), Err(error));
    }
    for (id_len, number_len, len, error) in [
        (21, 0, 0, NumberLength),
        (0, 5, 40, NumberLength),
        (21, 1, 0, IdTooLong),
        (20, 4, 24, NoRoom),
    ] {
        let header = ShortHeader {
            destination_id: &[7; 21][..id_len],
            phase: false,
            number_len,
        };
        assert_eq!(header.write(&mut buffer[..len]), Err(error));
    }
    assert_eq!(buffer, [0xaa; 40]);
}

/// Headers without a number (RFC 8999 section 5.1, RFC 9000 section 17.2.1), and the Retry packet of RFC 9001 section A.4.
#[test]
fn packets_without_a_number() {
    let negotiation = hex::bytes("8000000000010902080800000001");
    let mut other = hex::bytes("c00a1a2a3a15");
    other.extend([7; 21]);
    other.extend([0, 1, 2]);
    let retry =
        hex::bytes("ff000000010008f067a5502a4262b5746f6b656e04a265ba2eff4d829058fb3f0f2496ba");
    for (datagram, packet_type, ids, token) in [
        (
            &negotiation,
            PacketType::VersionNegotiation,
            (6..7, 8..10),
            10..10,
        ),
        (&other, PacketType::OtherVersion, (6..27, 28..28), 28..28),
        (&retry, PacketType::Retry, (6..6, 7..15), 15..20),
    ] {
        let found = packet_at(datagram, 0, 0, FixedBit::Required).expect("a packet");
        assert_eq!((found.packet_type, found.number_at), (packet_type, None));
        assert_eq!((found.destination_id, found.source_id), ids);
        assert_eq!((found.token, found.end), (token, datagram.len()));
    }
}

/// A packet after another one in its datagram. A length is encoded in each way (RFC 9000 section 16).
#[test]
fn datagrams_of_two_packets() {
    for length in ["25", "4025", "80000025", "c000000000000025"] {
        let mut datagram = [hex::bytes("e0000000010000"), hex::bytes(length)].concat();
        let number_at = datagram.len();
        datagram.extend([0; 37]);
        let end = datagram.len();
        for len in 0..end {
            let cut = packet_at(&datagram[..len], 0, 0, FixedBit::Required);
            assert_eq!(cut, Err(DatagramError::Cut));
        }
        datagram.extend([0x40; 30]);
        let first = packet_at(&datagram, 0, 4, FixedBit::Required).expect("a packet");
        assert_eq!((first.number_at, first.end), (Some(number_at), end));
        let second = packet_at(&datagram, end, 4, FixedBit::Required).expect("a packet");
        assert_eq!(
            (second.packet_type, second.destination_id),
            (PacketType::OneRtt, end + 1..end + 5)
        );
        assert_eq!((second.number_at, second.end), (Some(end + 5), end + 30));
    }
}

#[test]
fn refused_datagrams() {
    for (datagram, id_len, error) in [
        ("40", 1, DatagramError::Cut),
        ("c00000000115", 0, DatagramError::IdTooLong),
        ("c000000001010915", 0, DatagramError::IdTooLong),
        ("d06b3343cf15", 0, DatagramError::IdTooLong),
        ("0f0000", 0, DatagramError::NoFixedBit { end: 3 }),
        (
            "8000000001000001000000",
            0,
            DatagramError::NoFixedBit { end: 10 },
        ),
        ("b06b3343cf000000", 0, DatagramError::NoFixedBit { end: 8 }),
    ] {
        let datagram = hex::bytes(datagram);
        let found = packet_at(&datagram, 0, id_len, FixedBit::Required);
        assert_eq!(found, Err(error));
        if let DatagramError::NoFixedBit { end } = error {
            let greased = packet_at(&datagram, 0, id_len, FixedBit::Greased);
            assert_eq!(greased.map(|it| it.end), Ok(end));
        }
    }
}
