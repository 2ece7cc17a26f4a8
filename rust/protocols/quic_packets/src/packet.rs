// Written by tools/rust from crates/quic_packets/src/packet.rt. Don't edit.
//! The length of a packet's payload, and the end of the packet numbers, which sealing and opening both check.

use aead_ciphers::aead::MAX_TAG_LEN;

/// The end of the packet numbers: each is below 2^62 (RFC 9000 section 12.3).
pub(crate) const NUMBERS_END: u64 = 1 << 62;

/// Returns the length of the payload in bytes, which lies between the header and the tag, or `None` if the packet is shorter
/// than its header and a tag.
// ensures some { IsSome result ↔ (header_len + tag_len ≤ length packet.now) }
// ensures len { IfSome result (λ n. n ≡ length packet.now - tag_len - header_len) }
pub(crate) fn payload_len(packet: &[u8], header_len: usize) -> Option<usize> {
    if packet.len() < MAX_TAG_LEN || packet.len() - MAX_TAG_LEN < header_len {
        return None;
    }
    Some(packet.len() - MAX_TAG_LEN - header_len)
}
