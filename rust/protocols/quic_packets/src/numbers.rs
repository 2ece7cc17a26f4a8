// Written by tools/rust from crates/quic_packets/src/numbers.rt. Don't edit.
//! The encoding of packet numbers in 1 to 4 bytes (RFC 9000 section 17.1, appendices A.2 and A.3).

use crate::packet::NUMBERS_END;

/// Returns the length of a packet number's encoding in bytes, from 1 to 4 (RFC 9000 section 17.1, appendix A.2).
///
/// `largest_acknowledged` is the largest number of the same space that the peer has acknowledged. The result is the fewest
/// bytes that represent more than twice as many numbers as may then be unacknowledged.
///
/// Returns `None` if 4 bytes are too few, if `number` is not above `largest_acknowledged`, or if `number` is 2^62 or more.
///
/// <details><summary>Contract</summary>
///
/// ```text
/// ensures encodable { IsSome result ↔ (IsNumber number × IsAbove number largest_acknowledged
///     × Represents 4 (unacknowledged number largest_acknowledged)) }
/// ensures represents { IfSome result (λ n. Represents n (unacknowledged number largest_acknowledged)) }
/// ensures fewest { IfSome result (λ n. (k : ℕ) → 0 < k
///     → Represents k (unacknowledged number largest_acknowledged) → n ≤ k) }
/// ensures few { IfSome result (λ n. (0 < n) × (n ≤ 4)) }
/// ```
///
/// Definitions: [`IsNumber`](crate::specs::packet#IsNumber), [`IsAbove`](crate::specs::numbers#IsAbove),
/// [`Represents`](crate::specs::numbers#Represents), [`unacknowledged`](crate::specs::numbers#unacknowledged).
///
/// </details>
pub fn number_len(number: u64, largest_acknowledged: Option<u64>) -> Option<usize> {
    if number >= NUMBERS_END {
        return None;
    }
    let unacknowledged = match largest_acknowledged {
        None => number + 1,
        Some(largest) if largest < number => number - largest,
        Some(_) => return None,
    };
    let range = 2 * unacknowledged;
    if range < 1 << 8 {
        Some(1)
    } else if range < 1 << 16 {
        Some(2)
    } else if range < 1 << 24 {
        Some(3)
    } else if range < 1 << 32 {
        Some(4)
    } else {
        None
    }
}

/// Decodes the packet number of a received packet (RFC 9000 section 17.1, appendix A.3).
///
/// `truncated` is the number in the `len` bytes of the header, and `largest_received` the largest number of the same space that
/// was received in an authentic packet. The result is the number with these low bits that is nearest to the expected one,
/// `largest_received + 1`, and the greater of two that are equally near.
///
/// <details><summary>Contract</summary>
///
/// ```text
/// requires len { (0 < len) × (len ≤ 4) }
/// requires truncated { truncated < 2 ^ (8 * len) }
/// ensures { IsDecoded (expected largest_received) truncated len result }
/// ```
///
/// Definitions: [`IsDecoded`](crate::specs::numbers#IsDecoded), [`expected`](crate::specs::numbers#expected).
///
/// </details>
pub fn decode(largest_received: Option<u64>, truncated: u64, len: usize) -> u64 {
    let expected = match largest_received {
        None => 0,
        Some(largest) if largest < NUMBERS_END - 1 => largest + 1,
        Some(_) => NUMBERS_END - 1,
    };
    nearest(expected, truncated, len)
}

/// Returns the truncated packet number of an unmasked header: the `len` bytes of the packet from `number_at` on, in network
/// byte order.
///
/// It reads four bytes, whatever the length, because the length in a received header is not authenticated before the packet is
/// opened (RFC 9001 section 9.5).
///
/// <details><summary>Contract</summary>
///
/// ```text
/// requires within { number_at + 4 ≤ length packet.now }
/// requires len { (0 < len) × (len ≤ 4) }
/// ensures is { result ≡ number_from_digits 256 (slice_range packet.now number_at (number_at + len)) }
/// ensures fits { result < 2 ^ (8 * len) }
/// ```
///
/// </details>
pub fn truncated(packet: &[u8], number_at: usize, len: usize) -> u64 {
    let four = u32::from_be_bytes([
        packet[number_at],
        packet[number_at + 1],
        packet[number_at + 2],
        packet[number_at + 3],
    ]);
    u64::from(four >> (32 - 8 * len))
}

/// Returns the packet number with these low bits that is nearest to the expected one, and the greater of two that are equally
/// near.
///
/// It does not branch, because the bits and their length are not authenticated yet (RFC 9001 section 9.5).
// requires expected { IsNumber expected }
// requires len { (0 < len) × (len ≤ 4) }
// requires truncated { truncated < 2 ^ (8 * len) }
// ensures { IsDecoded expected truncated len result }
fn nearest(expected: u64, truncated: u64, len: usize) -> u64 {
    let window: u64 = 1 << (8 * len);
    let lowest = (expected + 1)
        .saturating_sub(window / 2)
        .min(NUMBERS_END - window);
    lowest + ((truncated + (NUMBERS_END - lowest)) & (window - 1))
}
