//! The Rust of `rust/protocols`.

use key_derivation::hkdf;
use quic_packets::{
    packet_at, Failures, FixedBit, PacketKey, QuicSecret, Receiver, Sender, Space, Version,
};
use records::connection::{Connection, Received};
use records::{ContentType, Reader, RecordKey, Writer};
use sealed_file::{FileKey, FileRandom};
use sha2::Sha256;
use std::fs::File;
use tls_messages::Stage;

use crate::{Side, ID_LEN, NUMBER_LEN, PACKET_HEADER_LEN, SECRET, TAG_LEN};

pub struct Plain;

/// A sender and the receiver of its packets.
pub struct Packets {
    sender: Sender,
    receiver: Receiver,
    space: Space<2>,
    failures: Failures,
}

/// A connection that sends, and the one that receives its records.
pub struct Records {
    sending: Connection<'static>,
    receiving: Connection<'static>,
    received: Received,
}

fn secret() -> key_derivation::Secret {
    key_derivation::Secret::aes_128_gcm(SECRET)
}

fn quic_secret() -> QuicSecret {
    QuicSecret::new(Version::One, secret())
}

fn connection(stage: Stage) -> Connection<'static> {
    let buffer = Vec::leak(vec![0; 64]);
    let (reader, writer) = (Reader::from_secret(secret()), Writer::from_secret(secret()));
    Connection::new(reader, writer, buffer, stage)
}

impl Side for Plain {
    type PacketKey = PacketKey;
    type RecordKey = RecordKey;
    type Packets = Packets;
    type Records = Records;

    fn packet_key() -> PacketKey {
        PacketKey::from_secret(&quic_secret())
    }

    fn seal_payload(key: &PacketKey, number: u64, header: &[u8], payload: &mut [u8]) {
        let (payload, tag) = payload.split_at_mut(payload.len() - TAG_LEN);
        let made = key.seal_separate_tag(number, header, payload);
        tag.copy_from_slice(made.expect("a short payload").as_ref());
    }

    fn open_payload(key: &PacketKey, number: u64, header: &[u8], payload: &mut [u8]) {
        key.open_payload(number, header, payload)
            .expect("a payload that was sealed");
    }

    fn packets() -> Packets {
        Packets {
            sender: Sender::from_secret(quic_secret(), 0).expect("the first number"),
            receiver: Receiver::from_secret(quic_secret()),
            space: Space::new(),
            failures: Failures::new(),
        }
    }

    fn send_packet(ends: &mut Packets, packet: &mut [u8]) {
        let number = PACKET_HEADER_LEN - NUMBER_LEN..PACKET_HEADER_LEN;
        ends.sender
            .send(packet, number, FixedBit::Required)
            .expect("a packet that may be sent");
    }

    fn receive_packet(ends: &mut Packets, packet: &mut [u8]) {
        let parts = packet_at(packet, 0, ID_LEN, FixedBit::Required).expect("a packet");
        ends.receiver
            .receive(&mut ends.space, &mut ends.failures, packet, &parts)
            .expect("a packet that was sent");
    }

    fn record_key() -> RecordKey {
        let secret = secret();
        let keys = secret.record_keys();
        let algorithm = quic_packets::algorithm(secret.suite());
        RecordKey::new(algorithm, keys.key.as_slice(), keys.iv).expect("a key of the right length")
    }

    fn seal_content(key: &RecordKey, number: u64, payload: &mut [u8]) {
        let len = payload.len() - 1 - TAG_LEN;
        key.seal_payload(number, ContentType::ApplicationData, payload, len, 0)
            .expect("a content that fits a record");
    }

    fn open_content(key: &RecordKey, number: u64, payload: &mut [u8]) {
        key.open_payload(number, payload)
            .expect("a payload that was sealed");
    }

    fn records() -> Records {
        Records {
            sending: connection(Stage::Client),
            receiving: connection(Stage::Server),
            received: Received::new(),
        }
    }

    fn send_record(ends: &mut Records, content: &[u8], record: &mut Vec<u8>) {
        record.clear();
        ends.sending
            .send(content, record)
            .expect("a content that may be sent");
    }

    fn receive_record(ends: &mut Records, record: &mut [u8], content: &mut Vec<u8>) {
        std::mem::swap(&mut ends.received.application_data, content);
        ends.received.application_data.clear();
        ends.receiving
            .receive(record, &mut ends.received)
            .expect("a record that was sent");
        std::mem::swap(&mut ends.received.application_data, content);
    }

    fn expand_label(secret: &[u8; 32], label: &[u8]) -> [u8; 32] {
        let mut out = [0; 32];
        hkdf::expand_label::<Sha256>(secret, label, &[], &mut out).expect("a short label");
        out
    }
}

/// Seals or opens a file.
pub fn run_on_files(direction: &str, key: &[u8], input: &mut File, output: &mut File) {
    let key = FileKey::new(key).expect("a key of the right length");
    let done = match direction {
        "seal" => {
            let mut source = File::open("/dev/urandom").expect("random bytes");
            let random = FileRandom::draw(&mut source).expect("random bytes");
            sealed_file::seal(&key, random, input, output)
        }
        _ => sealed_file::open(&key, input, output),
    };
    done.expect("a file that was sealed, or may be");
}
