//! Makes the calls of a row of `bench/plain-protocols` by the Rust of `rust/protocols` or by the assembly of `dist/`:
//! plain-protocols -c SIDE CALLS ROW, or plain-protocols -f LEVEL seal|open KEY IN OUT
//!
//! SIDE is `assembly` or, like LEVEL, the name of a level of `simd`, by which the Rust then computes. ROW is a row of the table.
//! What the calls made is printed, so that the sides can be compared. With a row that isn't known, the status is 3. With `-f`, the
//! Rust seals or opens a file.

#![deny(unsafe_code)]

#[allow(unsafe_code)]
mod assembly;
mod plain;

use std::fs::File;
use std::hint::black_box;
use std::process::ExitCode;

const TAG_LEN: usize = 16;
/// The destination ID of a packet.
const ID_LEN: usize = 8;
const NUMBER_LEN: usize = 4;
const PACKET_HEADER_LEN: usize = 1 + ID_LEN + NUMBER_LEN;
const RECORD_HEADER_LEN: usize = 5;
/// The secret of all keys, which isn't one.
const SECRET: [u8; 32] = [7; 32];
const LABEL: &[u8] = b"traffic upd";

/// The calls of a side. What is never refused here returns no `Result`.
trait Side {
    /// The key of a packet's payload.
    type PacketKey;
    type RecordKey;
    /// Both ends of a connection of QUIC, which sends one way.
    type Packets;
    /// Both ends of a connection of TLS, which sends one way.
    type Records;

    fn packet_key() -> Self::PacketKey;
    /// Seals the payload, which is followed by room for the tag.
    fn seal_payload(key: &Self::PacketKey, number: u64, header: &[u8], payload: &mut [u8]);
    fn open_payload(key: &Self::PacketKey, number: u64, header: &[u8], payload: &mut [u8]);

    fn packets() -> Self::Packets;
    /// Sends a packet, whose first byte and ID are written.
    fn send_packet(ends: &mut Self::Packets, packet: &mut [u8]);
    fn receive_packet(ends: &mut Self::Packets, packet: &mut [u8]);

    fn record_key() -> Self::RecordKey;
    /// Seals a content, which is followed by room for the type and the tag.
    fn seal_content(key: &Self::RecordKey, number: u64, payload: &mut [u8]);
    fn open_content(key: &Self::RecordKey, number: u64, payload: &mut [u8]);

    fn records() -> Self::Records;
    /// Sends a content in one record, which is then in `record`.
    fn send_record(ends: &mut Self::Records, content: &[u8], record: &mut Vec<u8>);
    /// Receives a record, whose content is then in `content`.
    fn receive_record(ends: &mut Self::Records, record: &mut [u8], content: &mut Vec<u8>);

    fn expand_label(secret: &[u8; 32], label: &[u8]) -> [u8; 32];
}

fn seal_payloads<S: Side>(calls: u64, len: usize) -> Vec<u8> {
    let (key, header) = (S::packet_key(), [1; PACKET_HEADER_LEN]);
    let mut payload = vec![1; len + TAG_LEN];
    for number in 0..calls {
        S::seal_payload(&key, black_box(number), &header, &mut payload);
        S::open_payload(&key, black_box(number), &header, &mut payload);
    }
    S::seal_payload(&key, calls, &header, &mut payload);
    payload
}

fn send_packets<S: Side>(calls: u64, len: usize) -> Vec<u8> {
    let mut ends = S::packets();
    let mut packet = vec![1; PACKET_HEADER_LEN + len + TAG_LEN];
    for _ in 0..calls {
        packet[0] = 0x40;
        S::send_packet(&mut ends, black_box(&mut packet));
        S::receive_packet(&mut ends, black_box(&mut packet));
    }
    packet[0] = 0x40;
    S::send_packet(&mut ends, &mut packet);
    packet
}

fn seal_contents<S: Side>(calls: u64, len: usize) -> Vec<u8> {
    let key = S::record_key();
    let mut payload = vec![1; len + 1 + TAG_LEN];
    for number in 0..calls {
        S::seal_content(&key, black_box(number), &mut payload);
        S::open_content(&key, black_box(number), &mut payload);
    }
    S::seal_content(&key, calls, &mut payload);
    payload
}

fn send_records<S: Side>(calls: u64, len: usize) -> Vec<u8> {
    let mut ends = S::records();
    let content = vec![1; len];
    let (mut record, mut received) = (Vec::new(), Vec::new());
    for _ in 0..calls {
        S::send_record(&mut ends, black_box(&content), &mut record);
        S::receive_record(&mut ends, black_box(&mut record), &mut received);
    }
    assert!(calls == 0 || received == content);
    S::send_record(&mut ends, &content, &mut record);
    record
}

fn expand_labels<S: Side>(calls: u64) -> Vec<u8> {
    let expand = |secret: [u8; 32], _| S::expand_label(black_box(&secret), black_box(LABEL));
    (0..calls).fold(SECRET, expand).to_vec()
}

/// Makes the calls of a row, and returns what they made, if there is such a row.
fn run<S: Side>(calls: u64, row: &str) -> Option<Vec<u8>> {
    let (what, len) = row.rsplit_once(", ")?;
    let len = len.strip_suffix(" bytes")?.parse().ok()?;
    match what {
        "a packet's payload, sealed and opened" => Some(seal_payloads::<S>(calls, len)),
        "a packet, sent and received" => Some(send_packets::<S>(calls, len)),
        "a record's payload, sealed and opened" => Some(seal_contents::<S>(calls, len)),
        "a record, sent and received" => Some(send_records::<S>(calls, len)),
        "HKDF-Expand-Label, SHA-256" => Some(expand_labels::<S>(calls)),
        _ => None,
    }
}

/// Has the Rust compute by a level at most.
fn set_level(level: &str) {
    let at = simd::levels().iter().position(|it| *it == level);
    simd::at_most(1 + at.expect("a level that the processor has"));
}

fn run_on_files(direction: &str, key: &str, input: &str, output: &str) {
    let key = std::fs::read(key).expect("a file with a key");
    let mut input = File::open(input).expect("a file to read");
    let mut output = File::create(output).expect("a file to write");
    plain::run_on_files(direction, &key, &mut input, &mut output);
}

fn main() -> ExitCode {
    let words: Vec<String> = std::env::args().collect();
    let words: Vec<&str> = words.iter().map(String::as_str).collect();
    let (side, calls, row) = match words[..] {
        [_, "-c", side, calls, row] => (side, calls.parse().expect("a number of calls"), row),
        [_, "-f", level, direction, key, input, output] => {
            set_level(level);
            run_on_files(direction, key, input, output);
            return ExitCode::SUCCESS;
        }
        _ => return ExitCode::from(2),
    };
    let made = if side == "assembly" {
        run::<assembly::Assembly>(calls, row)
    } else {
        set_level(side);
        run::<plain::Plain>(calls, row)
    };
    let Some(made) = made else {
        return ExitCode::from(3);
    };
    println!("{made:02x?}");
    ExitCode::SUCCESS
}
