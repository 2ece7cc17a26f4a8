//! Packets of RFC 9001, RFC 9369 and another implementation: sealed and opened by each call, sent and received.

use std::ops::Range;

use deerlapse_protocols_vectors::quic::End;
use key_derivation::Secret;
use quic_packets::{
    FixedBit, HeaderKey, KeyError, Keys, LongHeader, LongType, Packet, PacketKey, PacketType,
    QuicSecret, ReceiveError, Receiver, RetryError, SendError, Sender, Suite, Version, algorithm,
    is_genuine_retry, packet_at, retry_tag,
};
use vectors::hex;

/// RFC 9001 and RFC 9369 appendix A: the destination connection ID of the client's first packet.
const CLIENT_ID: [u8; 8] = [0x83, 0x94, 0xc8, 0xf0, 0x3e, 0x51, 0x57, 0x08];

/// RFC 9001 and RFC 9369 appendix A: the connection ID that the server chooses.
const SERVER_ID: [u8; 8] = [0xf0, 0x67, 0xa5, 0x50, 0x2a, 0x42, 0x62, 0xb5];

/// An Initial packet of an appendix.
struct Vector {
    version: Version,
    is_client: bool,
    number_at: usize,
    number: u64,
    header: Vec<u8>,
    payload: Vec<u8>,
    protected: Vec<u8>,
}

impl Vector {
    /// Reads a line of `crates/aead_vectors`: a name, three keys, the position of the number, the number, the length of the
    /// payload, the header, the frames without the zeros that pad them, and the protected packet.
    fn new(version: Version, is_client: bool, name: &str) -> Self {
        let line = [
            include_str!("../../../../crates/aead_vectors/src/rfc_9001.rt"),
            include_str!("../../../../crates/aead_vectors/src/rfc_9369.rt"),
        ]
        .into_iter()
        .flat_map(|source| source.split('"'))
        .find(|text| text.starts_with(name))
        .expect("the line of the packet");
        let words: Vec<_> = line.split(' ').collect();
        let number = |at: usize| words[at].parse::<usize>().expect("a number");
        let mut payload = hex::bytes(words[8]);
        payload.resize(number(6), 0);
        Vector {
            version,
            is_client,
            number_at: number(4),
            number: number(5) as u64,
            header: hex::bytes(words[7]),
            payload,
            protected: hex::bytes(words[9]),
        }
    }

    /// The packets of RFC 9001 sections A.2 and A.3 and of RFC 9369 sections A.2 and A.3.
    fn all() -> [Self; 4] {
        [
            Vector::new(Version::One, true, "rfc_9001_a_2"),
            Vector::new(Version::One, false, "rfc_9001_a_3"),
            Vector::new(Version::Two, true, "rfc_9369_a_2"),
            Vector::new(Version::Two, false, "rfc_9369_a_3"),
        ]
    }

    fn secret(&self) -> QuicSecret {
        let initial = if self.is_client {
            QuicSecret::client_initial
        } else {
            QuicSecret::server_initial
        };
        initial(self.version, &CLIENT_ID).expect("8 bytes")
    }

    /// The header, the payload and room for the tag.
    fn unsent(&self) -> Vec<u8> {
        [&self.header[..], &self.payload, &[0; 16]].concat()
    }

    fn number_range(&self) -> Range<usize> {
        self.number_at..self.header.len()
    }
}

/// Asserts that each call of a key seals a vector's packet, whose header isn't masked, and opens it.
fn by_each_call(vector: &Vector, sealed: &[u8]) {
    let key = PacketKey::from_secret(&vector.secret());
    let (number, header, payload) = (vector.number, &vector.header[..], &vector.payload[..]);
    let (len, ciphertext) = (payload.len(), &sealed[header.len()..]);

    let mut packet = vector.unsent();
    assert_eq!(key.seal(number, &mut packet, header.len()), Ok(()));
    assert_eq!(packet, sealed);
    assert_eq!(key.open(number, &mut packet, header.len()), Ok(len));
    assert_eq!(packet[header.len()..][..len], *payload);

    let mut buffer = payload.to_vec();
    let tag = key.seal_separate_tag(number, header, &mut buffer);
    let tag = tag.expect("lengths that fit");
    assert_eq!([&buffer, tag.as_ref()].concat(), ciphertext);
    assert_eq!(
        key.open_separate_tag(number, header, &mut buffer, tag),
        Ok(())
    );
    assert_eq!(buffer, payload);

    let mut out = vec![0; len + 16];
    assert_eq!(key.seal_to(number, header, payload, &mut out), Ok(()));
    assert_eq!(out, ciphertext);
    assert_eq!(key.open_payload(number, header, &mut out), Ok(len));
    assert_eq!(out[..len], *payload);
    let mut out = vec![0; len];
    assert_eq!(key.open_to(number, header, ciphertext, &mut out), Ok(()));
    assert_eq!(out, payload);
}

#[test]
fn initial_packets_by_keys() {
    for vector in Vector::all() {
        let (number_at, header) = (vector.number_at, &vector.header);
        let header_key = HeaderKey::from_secret(&vector.secret());
        let mut packet = vector.protected.clone();
        let number_len = header_key.unprotect(&mut packet, number_at);
        assert_eq!(number_len, Ok(header.len() - number_at));
        assert!(packet.starts_with(header));
        by_each_call(&vector, &packet);
        assert_eq!(header_key.protect(&mut packet, number_at), Ok(()));
        assert_eq!(packet, vector.protected);

        let sample = &vector.protected[number_at + 4..number_at + 20];
        let mut masked = header.clone();
        let (front, number) = masked.split_at_mut(number_at);
        let outcome = header_key.encrypt_in_place(sample, &mut front[0], number);
        assert_eq!(outcome, Ok(()));
        assert!(vector.protected.starts_with(&masked));
        let (front, number) = masked.split_at_mut(number_at);
        let outcome = header_key.decrypt_in_place(sample, &mut front[0], number);
        assert_eq!(outcome, Ok(()));
        assert_eq!(masked, *header);
    }
}

#[test]
fn initial_packets_by_senders_and_receivers() {
    for vector in Vector::all() {
        let mut packet = vector.unsent();
        let mut sender = Sender::from_secret(vector.secret(), vector.number).expect("a number");
        let sent = sender.send(&mut packet, vector.number_range(), FixedBit::Required);
        assert_eq!(sent, Ok(vector.number));
        assert_eq!(packet, vector.protected);

        let mut end = End::new(Receiver::from_secret(vector.secret()));
        let received = end.receive_whole(&mut packet, 0).expect("its keys");
        assert_eq!((received.number, received.phase), (vector.number, false));
        assert!(packet.starts_with(&vector.header));
        assert_eq!(packet[received.payload], vector.payload);
    }
}

#[test]
fn headers_of_initial_packets() {
    for vector in Vector::all() {
        let (destination_id, source_id, ids) = if vector.is_client {
            (&CLIENT_ID[..], &[][..], (6..14, 15..15))
        } else {
            (&[][..], &SERVER_ID[..], (6..6, 7..15))
        };
        let header = LongHeader {
            version: vector.version,
            packet_type: LongType::Initial { token: &[] },
            destination_id,
            source_id,
            number_len: vector.number_range().len(),
            payload_len: vector.payload.len(),
        };
        let mut buffer = [0; 40];
        assert_eq!(header.write(&mut buffer), Ok(vector.number_range()));
        assert_eq!(
            buffer[..vector.number_at],
            vector.header[..vector.number_at]
        );
        let parts = packet_at(&vector.protected, 0, 0, FixedBit::Required);
        let wanted = Packet {
            start: 0,
            packet_type: PacketType::Initial,
            version: Some(vector.version.number()),
            destination_id: ids.0,
            source_id: ids.1,
            token: 16..16,
            number_at: Some(18),
            end: vector.protected.len(),
        };
        assert_eq!(parts, Ok(wanted));
    }
}

#[test]
fn packets_of_another_version_change_nothing() {
    let vector = Vector::new(Version::Two, true, "rfc_9369_a_2");
    let secret = || QuicSecret::client_initial(Version::One, &CLIENT_ID).expect("8 bytes");
    let mut sender = Sender::from_secret(secret(), 2).expect("a number");
    let mut packet = vector.unsent();
    let sent = sender.send(&mut packet, vector.number_range(), FixedBit::Required);
    assert_eq!(sent, Err(SendError::OtherVersion));
    assert_eq!((packet, sender.next_number()), (vector.unsent(), 2));

    let mut end = End::new(Receiver::from_secret(secret()));
    let mut datagram = vector.protected.clone();
    assert_eq!(
        end.receive_whole(&mut datagram, 0),
        Err(ReceiveError::OtherVersion)
    );
    assert_eq!((datagram, end.failures.count()), (vector.protected, 0));
}

/// RFC 9001 section A.4 and RFC 9369 section A.4.
const RETRIES: [(Version, &str); 2] = [
    (
        Version::One,
        "ff000000010008f067a5502a4262b5746f6b656e04a265ba2eff4d829058fb3f0f2496ba",
    ),
    (
        Version::Two,
        "cf6b3343cf0008f067a5502a4262b5746f6b656ec8646ce8bfe33952d955543665dcc7b6",
    ),
];

#[test]
fn retry_packets_by_rfc_9001_and_9369() {
    for (version, packet) in RETRIES {
        let packet = hex::bytes(packet);
        for cut in 0..=20 {
            let (header, rest) = packet.split_at(cut);
            let (token, tag) = rest.split_at(20 - cut);
            let made = retry_tag(version, &CLIENT_ID, header, token);
            assert_eq!(made.expect("a short packet").as_ref(), tag);
            for of in [Version::One, Version::Two] {
                let is_genuine = is_genuine_retry(of, &CLIENT_ID, header, rest);
                assert_eq!(is_genuine, of == version);
            }
        }
    }
}

#[test]
fn changed_retry_packets() {
    for (version, packet) in RETRIES {
        let mut packet = hex::bytes(packet);
        let is_genuine = |id: &[u8], packet: &[u8], cut| {
            is_genuine_retry(version, id, &packet[..cut], &packet[cut..])
        };
        for bit in 0..8 * packet.len() {
            packet[bit / 8] ^= 1 << (bit % 8);
            assert!(!is_genuine(&CLIENT_ID, &packet, 15));
            packet[bit / 8] ^= 1 << (bit % 8);
        }
        assert!(!is_genuine(&SERVER_ID, &packet, 15));
        assert!(!is_genuine(&[0; 21], &packet, 15));
        assert!(!is_genuine(&CLIENT_ID, &packet, 21));
        let made = retry_tag(version, &[0; 21], &packet, &[]);
        assert_eq!(made.err(), Some(RetryError::IdTooLong));
    }
}

/// By python's `cryptography`: the tag of a packet with the header of RFC 9001 section A.4 and a token of 5,000 bytes.
#[test]
fn retry_packet_with_long_token() {
    let header = &hex::bytes(RETRIES[0].1)[..15];
    let tag = retry_tag(Version::One, &CLIENT_ID, header, &[0x5a; 5000]);
    let wanted = hex::bytes("56db1fa7fdbdb1394104f199e6ee998b");
    assert_eq!(tag.expect("5,015 bytes").as_ref(), wanted);
}

/// The largest packet number (RFC 9000 section 12.3).
const LAST: u64 = (1 << 62) - 1;

/// The bytes of the keys of `tools/quic-packets`.
fn counted<const N: usize>(first: u8) -> [u8; N] {
    std::array::from_fn(|i| first + i as u8)
}

/// A packet by python's `cryptography`, which `tools/quic-packets` prints: the version, the suite, the number, the largest one
/// that is acknowledged, the key phase, the header, how much of it comes before the number, the length of the payload, whose
/// byte i is i, and the protected packet.
type Foreign = (
    Version,
    Suite,
    (u64, Option<u64>),
    bool,
    (&'static str, usize),
    u8,
    &'static str,
);

const FOREIGN: [Foreign; 7] = [
    (
        Version::One,
        Suite::Aes128Gcm,
        (0, None),
        false,
        ("c000000001088394c8f03e5157080000403900", 18),
        40,
        "c400000001088394c8f03e51570800004039c01a634ca6df07befd93375d1b8ac725e320996aec86bccb4dec76ab8ca0efe9ec9add7007af3d01b6c458be6bdd1b1e44c00521c9378d85b2",
    ),
    (
        Version::One,
        Suite::Aes256Gcm,
        (300, None),
        false,
        ("e100000001040a0b0c0d02fefd4033012c", 15),
        33,
        "ec00000001040a0b0c0d02fefd40335a381388c3d1415b71c159e4a87f011abf3b8c8280affc3f59c23ef151e43f7d52a7df9fa8dbb05bfb15ca415a8be30b32d505",
    ),
    (
        Version::One,
        Suite::Aes128Gcm,
        (0x7e, None),
        false,
        ("608394c8f03e5157087e", 9),
        3,
        "7c8394c8f03e515708be951bd949102890c0b04cc96844df46b1238287",
    ),
    (
        Version::One,
        Suite::Aes256Gcm,
        (0x00ac_5c02, Some(0x00ab_e8b3)),
        true,
        ("658394c8f03e5157085c02", 9),
        2,
        "7e8394c8f03e5157088b96502a906296a7f5bcf11f4ed88ee589a17abf",
    ),
    (
        Version::One,
        Suite::Aes256Gcm,
        (0x00ac_e8fe, Some(0x00ab_e8b3)),
        true,
        ("668394c8f03e515708ace8fe", 9),
        100,
        "758394c8f03e515708e739d5058e075b88986ff722be8bc853b3c1016f9f5463c7732162460d29d9a7c40b7d90c1bb1e8edd9e1f36090d59b4a4f4f93ccfe114dfa13be6f211e979b1b555e29ec33ad87e561bedf40b16a4a59f2e47337cab9bff83a064993e4683ed17dd8d64a3119ca0f1d224dc8838cdbe639d9ecc4a4fed",
    ),
    (
        Version::One,
        Suite::Aes128Gcm,
        (LAST, Some(LAST - 0x0080_0000)),
        false,
        ("638394c8f03e515708ffffffff", 9),
        1,
        "7f8394c8f03e515708ef1fe8d640a659e6183ab420552cde176b9fcacaf5",
    ),
    (
        Version::Two,
        Suite::Aes256Gcm,
        (300, None),
        false,
        ("f16b3343cf040a0b0c0d02fefd4033012c", 15),
        33,
        "fc6b3343cf040a0b0c0d02fefd40335a381388c3d1415b71c159e4a87f011abf3b8c8280affc3f59c23ef151e43f7d52a7df42e639435666c6786d12cf489637d25e",
    ),
];

/// Calls `with` with the keys of `tools/quic-packets` for a suite.
fn with_foreign_keys<R>(version: Version, suite: Suite, with: impl FnOnce(Keys<'_>) -> R) -> R {
    let len = algorithm(suite).key_len();
    let (key, header_key) = (counted::<32>(0), counted::<32>(200));
    with(Keys {
        version,
        key: &key[..len],
        iv: counted(100),
        header_key: &header_key[..len],
    })
}

#[test]
fn packets_of_another_implementation_are_sent() {
    for (version, suite, (number, acknowledged), phase, (header, at), len, wanted) in FOREIGN {
        let payload: Vec<u8> = (0..len).collect();
        let mut packet = [&hex::bytes(header)[..], &payload, &[0xff; 16]].concat();
        let end = header.len() / 2;
        // `send` writes the bits of the number, its length and the phase.
        packet[0] |= if packet[0] >= 0x80 { 0x0f } else { 0x1f };
        packet[at..end].fill(0xff);
        let mut sender = with_foreign_keys(version, suite, |keys| {
            let mut sender = Sender::new(suite, keys, number)?;
            if phase {
                sender.follow_update_with(keys.key, keys.iv)?;
            }
            Ok::<_, KeyError>(sender)
        })
        .expect("keys of their lengths");
        if let Some(acknowledged) = acknowledged {
            assert_eq!(sender.acknowledged(acknowledged), Ok(()));
        }
        assert_eq!(sender.next_number_len(), Some(end - at));
        let sent = sender.send(&mut packet, at..end, FixedBit::Required);
        assert_eq!(sent, Ok(number));
        assert_eq!(hex::text(&packet), wanted);
    }
}

/// Flips each bit of those packets whose numbers need no packet before them. None of these is received, and each is counted and
/// unchanged.
#[test]
fn packets_of_another_implementation_are_received_if_unchanged() {
    for (version, suite, (number, acknowledged), _, (header, at), _, packet) in FOREIGN {
        if acknowledged.is_some() {
            continue;
        }
        let mut packet = hex::bytes(packet);
        let receiver = with_foreign_keys(version, suite, |keys| Receiver::new(suite, keys));
        let mut end = End::new(receiver.expect("keys of their lengths"));
        let parts = packet_at(&packet, 0, at - 1, FixedBit::Required).expect("a packet");
        for bit in 0..8 * packet.len() {
            packet[bit / 8] ^= 1 << (bit % 8);
            let came = packet.clone();
            assert_eq!(end.receive(&mut packet, &parts), Err(ReceiveError::Refused));
            assert_eq!(packet, came);
            packet[bit / 8] ^= 1 << (bit % 8);
        }
        assert_eq!(end.failures.count(), 8 * packet.len() as u64);
        let received = end.receive(&mut packet, &parts).expect("a genuine packet");
        assert_eq!(received.number, number);
        assert!(packet.starts_with(&hex::bytes(header)));
    }
}

/// By `tools/quic-packets`: the packets of a secret of bytes 0, 1, .., one after each key update. They have the numbers 0 to 3
/// in one byte after the first byte, and a payload of six zeros.
const UPDATED: [(Version, Suite, [&str; 4]); 4] = [
    (
        Version::One,
        Suite::Aes128Gcm,
        [
            "4dde8a89b37534bcd0882006f0297b66723b054fa0f1d66e",
            "51f43ec4d3e8488df2ae539e98903e2efd17b00357aaa825",
            "53783e1cdcf1ed574d90c0d27219fb21a8420e5373dbc217",
            "446fc95f4c6f34da1e9861c75a527557bf194177f323bd2b",
        ],
    ),
    (
        Version::One,
        Suite::Aes256Gcm,
        [
            "492345c706c780ad4e1a2ce612dbd26cea2dc6924be224ce",
            "4f5b4f8e05645a58c6b7599092df50e6eee5448512834790",
            "49183aee17f4f0f99c8a899923c7735a3ee8fef4f4b07866",
            "504fed104ff849aefff8f5161b310c0d62a37bf06829be62",
        ],
    ),
    (
        Version::Two,
        Suite::Aes128Gcm,
        [
            "4224de7520121f868b2ca9326525b1bfbfde938d0832d4f3",
            "4421406f3743374d5d50e893c48c15c5ef4c9c682a63d11b",
            "4a8225f0a34c697bc992ae7e1a05b149f6a77748906a0b0a",
            "4deb2009a254919c6fa595250df1d7d607c078f186a8985c",
        ],
    ),
    (
        Version::Two,
        Suite::Aes256Gcm,
        [
            "4f909f1425aca5c6eb6794bec8101d99103874aaa5c593b5",
            "4ccd29e2a7557215eeb532f21ac3f21eaf6252d6b17f2c21",
            "54bfdf72195b01f863bb3f1006006ff5969d40b3aa80d11d",
            "46a3cba5ad78040917c8296fb99a2d38be8532c4e0888b8b",
        ],
    ),
];

/// The secret of `UPDATED`.
fn counted_secret(version: Version, suite: Suite) -> QuicSecret {
    let secret = match suite {
        Suite::Aes128Gcm => Secret::aes_128_gcm(counted(0)),
        Suite::Aes256Gcm => Secret::aes_256_gcm(counted(0)),
    };
    QuicSecret::new(version, secret)
}

/// The sender initiates the first and the third update, and follows the peer's between them.
#[test]
fn key_updates_of_another_implementation() {
    for (version, suite, packets) in UPDATED {
        let secret = || counted_secret(version, suite);
        let mut sender = Sender::from_secret(secret(), 0).expect("a number");
        let mut end = End::new(Receiver::from_secret(secret()));
        sender.confirm_handshake();
        for (number, wanted) in packets.into_iter().enumerate() {
            let mut packet = [&[0x40][..], &[0; 23]].concat();
            let sent = sender.send(&mut packet, 1..2, FixedBit::Required);
            assert_eq!(sent, Ok(number as u64));
            assert_eq!(hex::text(&packet), wanted);
            let received = end.receive_whole(&mut packet, 0).expect("a genuine packet");
            assert_eq!(
                (received.number, received.phase),
                (number as u64, number % 2 == 1)
            );
            assert_eq!(packet[received.payload], [0; 6]);
            assert_eq!(
                sender.acknowledged_in(received.number, received.phase),
                Ok(())
            );
            let updated = if number == 1 {
                sender.follow_update()
            } else {
                sender.initiate_update()
            };
            assert_eq!((updated, end.receiver.set_next()), (Ok(()), Ok(())));
        }
    }
}
