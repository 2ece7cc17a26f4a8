//! The assembly of `dist/`, by the declarations of `bindings/rust`. No other module has `unsafe` code. What the library has no
//! call for is written here: the mask is put onto a header, and the header of a record is made.
//!
//! # Safety
//!
//! In each call, a pointer with a length is that of a slice, arrays and keys are passed by reference, and what the call writes is
//! borrowed for it alone. A key is one that the library initialized.

use crate::{Side, NUMBER_LEN, PACKET_HEADER_LEN, RECORD_HEADER_LEN, SECRET, TAG_LEN};

#[allow(dead_code)] // not each call is made here
#[path = "../../../bindings/rust/src/ffi.rs"]
mod ffi;

const NUMBER_AT: usize = PACKET_HEADER_LEN - NUMBER_LEN;
const SAMPLE_AT: usize = NUMBER_AT + 4;
/// The bits of the first byte of a short header that are masked (RFC 9001 section 5.4.1).
const MASKED_BITS: u8 = 0x1f;
const APPLICATION_DATA: u8 = 23;
const VERSION_1: u32 = 1;

pub struct Assembly;

/// The keys of a direction, and the numbers of the next packets.
pub struct Packets {
    key: ffi::QuicKey,
    header_key: ffi::QuicHeaderKey,
    sent: u64,
    received: u64,
}

/// The key of a direction, and the numbers of the next records.
pub struct Records {
    key: ffi::RecordKey,
    sent: u64,
    received: u64,
}

/// Puts the mask of a packet onto its header, or takes it away.
fn mask(key: &ffi::QuicHeaderKey, packet: &mut [u8]) {
    let (header, payload) = packet.split_at_mut(SAMPLE_AT);
    let sample = payload.first_chunk().expect("a sample");
    let mut mask = [0; 5];
    // SAFETY: as said at the top.
    let is_made = unsafe { ffi::quic_header_key_mask(key, sample, &mut mask) };
    assert!(is_made);
    header[0] ^= mask[0] & MASKED_BITS;
    for (byte, of_mask) in header[NUMBER_AT..].iter_mut().zip(&mask[1..]) {
        *byte ^= of_mask;
    }
}

impl Side for Assembly {
    type PacketKey = ffi::QuicKey;
    type RecordKey = ffi::RecordKey;
    type Packets = Packets;
    type Records = Records;

    fn packet_key() -> ffi::QuicKey {
        let mut key = ffi::QuicKey { words: [0; 401] };
        // SAFETY: as said at the top.
        let is_made = unsafe {
            ffi::quic_key_from_secret(&mut key, VERSION_1, SECRET.as_ptr(), SECRET.len())
        };
        assert!(is_made);
        key
    }

    fn seal_payload(key: &ffi::QuicKey, number: u64, header: &[u8], payload: &mut [u8]) {
        let (payload, tag) = payload.split_last_chunk_mut().expect("room for the tag");
        let (at, len) = (payload.as_mut_ptr(), payload.len());
        // SAFETY: as said at the top.
        let is_sealed =
            unsafe { ffi::quic_key_seal(key, number, header.as_ptr(), header.len(), at, len, tag) };
        assert!(is_sealed);
    }

    fn open_payload(key: &ffi::QuicKey, number: u64, header: &[u8], payload: &mut [u8]) {
        let (at, len, mut opened) = (payload.as_mut_ptr(), payload.len(), 0);
        let (header, header_len) = (header.as_ptr(), header.len());
        // SAFETY: as said at the top.
        let is_opened =
            unsafe { ffi::quic_key_open(key, number, header, header_len, at, len, &mut opened) };
        assert!(is_opened);
    }

    fn packets() -> Packets {
        let mut header_key = ffi::QuicHeaderKey { words: [0; 31] };
        let (secret, len) = (SECRET.as_ptr(), SECRET.len());
        // SAFETY: as said at the top.
        let is_made =
            unsafe { ffi::quic_header_key_from_secret(&mut header_key, VERSION_1, secret, len) };
        assert!(is_made);
        Packets {
            key: Self::packet_key(),
            header_key,
            sent: 0,
            received: 0,
        }
    }

    fn send_packet(ends: &mut Packets, packet: &mut [u8]) {
        packet[0] |= NUMBER_LEN as u8 - 1;
        let number = ends.sent as u32;
        packet[NUMBER_AT..PACKET_HEADER_LEN].copy_from_slice(&number.to_be_bytes());
        let (header, payload) = packet.split_at_mut(PACKET_HEADER_LEN);
        Self::seal_payload(&ends.key, ends.sent, header, payload);
        mask(&ends.header_key, packet);
        ends.sent += 1;
    }

    fn receive_packet(ends: &mut Packets, packet: &mut [u8]) {
        mask(&ends.header_key, packet);
        let number = packet[NUMBER_AT..PACKET_HEADER_LEN].try_into();
        let number = u64::from(u32::from_be_bytes(number.expect("4 bytes")));
        assert_eq!(number, ends.received);
        let (header, payload) = packet.split_at_mut(PACKET_HEADER_LEN);
        Self::open_payload(&ends.key, number, header, payload);
        ends.received += 1;
    }

    fn record_key() -> ffi::RecordKey {
        let mut key = ffi::RecordKey { words: [0; 401] };
        // SAFETY: as said at the top.
        let is_made =
            unsafe { ffi::record_key_from_secret(&mut key, SECRET.as_ptr(), SECRET.len()) };
        assert!(is_made);
        key
    }

    fn seal_content(key: &ffi::RecordKey, number: u64, payload: &mut [u8]) {
        let (at, len) = (payload.as_mut_ptr(), payload.len());
        let content_len = len - 1 - TAG_LEN;
        // SAFETY: as said at the top.
        let is_sealed =
            unsafe { ffi::record_key_seal(key, number, APPLICATION_DATA, at, len, content_len) };
        assert!(is_sealed);
    }

    fn open_content(key: &ffi::RecordKey, number: u64, payload: &mut [u8]) {
        let (mut content_type, mut content_len) = (0, 0);
        let (at, len) = (payload.as_mut_ptr(), payload.len());
        // SAFETY: as said at the top.
        let is_opened = unsafe {
            ffi::record_key_open(key, number, at, len, &mut content_type, &mut content_len)
        };
        assert!(is_opened && content_type == APPLICATION_DATA);
    }

    fn records() -> Records {
        Records {
            key: Self::record_key(),
            sent: 0,
            received: 0,
        }
    }

    fn send_record(ends: &mut Records, content: &[u8], record: &mut Vec<u8>) {
        let [high, low] = (content.len() as u16 + 1 + TAG_LEN as u16).to_be_bytes();
        record.clear();
        record.extend_from_slice(&[APPLICATION_DATA, 3, 3, high, low]);
        record.extend_from_slice(content);
        record.extend_from_slice(&[0; 1 + TAG_LEN]);
        Self::seal_content(&ends.key, ends.sent, &mut record[RECORD_HEADER_LEN..]);
        ends.sent += 1;
    }

    fn receive_record(ends: &mut Records, record: &mut [u8], content: &mut Vec<u8>) {
        let (header, payload) = record.split_at_mut(RECORD_HEADER_LEN);
        let announced = usize::from(header[3]) << 8 | usize::from(header[4]);
        assert!(header[..3] == [APPLICATION_DATA, 3, 3] && announced == payload.len());
        Self::open_content(&ends.key, ends.received, payload);
        content.clear();
        content.extend_from_slice(&payload[..payload.len() - 1 - TAG_LEN]);
        ends.received += 1;
    }

    fn expand_label(secret: &[u8; 32], label: &[u8]) -> [u8; 32] {
        let mut out = [0; 32];
        let (secret, label, label_len) = (secret.as_ptr(), label.as_ptr(), label.len());
        let to = out.as_mut_ptr();
        // SAFETY: as said at the top.
        let is_made =
            unsafe { ffi::hkdf_expand_label(secret, 32, label, label_len, secret, 0, to, 32) };
        assert!(is_made);
        out
    }
}
