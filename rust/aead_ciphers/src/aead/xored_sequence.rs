// Written by tools/rust from crates/aead_ciphers/src/aead/xored_sequence.rt. Don't edit.
//! The nonce sequence of TLS 1.3 and QUIC: an IV XORed with a counter.

use crate::aead::{NONCE_LEN, Nonce, NonceSequence, Unspecified};
use aead_ciphers_base::bb;

/// A sequence of 12-byte nonces: an IV of 12 bytes, XORed with a number, which counts up. The number is in 8 big-endian
/// bytes after four zero bytes (RFC 8446 section 5.3: the sequence number of a record; RFC 9001 section 5.3: the number
/// of a packet). It cannot be cloned. ring has no such type.
///
/// # Examples
///
/// The nonce of RFC 9001 appendix A.5:
///
/// ```
/// use deerlapse::aead::{NonceSequence, Unspecified, XoredSequence, nonce_of};
///
/// let iv = [0xe0, 0x45, 0x9b, 0x34, 0x74, 0xbd, 0xd0, 0xe4, 0x4a, 0x41, 0xc1, 0x44];
/// let nonce = [0xe0, 0x45, 0x9b, 0x34, 0x74, 0xbd, 0xd0, 0xe4, 0x6d, 0x41, 0x7e, 0xb0];
///
/// let mut sequence = XoredSequence::new(iv, 654360564, 654360565)?;
/// assert_eq!(sequence.advance()?.as_ref(), &nonce);
/// assert!(sequence.advance().is_err());
/// assert_eq!(nonce_of(&iv, 654360564).as_ref(), &nonce);
/// # Ok::<(), Unspecified>(())
/// ```
///
/// <details><summary>Model</summary>
///
/// ```text
/// ghost Value = { Counting };
/// ghost view = { λ s. record { fixed = s.iv; first = s.first; count = s.count; used = s.used } };
/// ghost invariant = { λ s. (s.used ≤ s.count) × (s.first + s.count ≤ 2 ^ 64) × (length s.iv ≡ 12) };
/// ```
///
/// Definitions: [`Counting`](crate::specs::counting#Counting).
///
/// </details>
pub struct XoredSequence {
    iv: [u8; NONCE_LEN],
    first: u64,
    count: u64,
    used: u64,
}

impl XoredSequence {
    /// Creates a sequence of the nonces whose numbers count up from `first` and are less than `limit`. The last
    /// argument of [`CounterSequence::new`](crate::aead::CounterSequence::new) is a count instead of a limit.
    ///
    /// It is the caller's responsibility that none of them seals another message under the same key. After a restart,
    /// take a new key, or a `first` above all numbers that were used.
    ///
    /// # Errors
    ///
    /// Fails with `Unspecified` if `first` is greater than `limit`.
    ///
    /// <details><summary>Contract</summary>
    ///
    /// ```text
    /// ensures accepted { IsOk result ↔ (first ≤ limit) }
    /// ensures made { IfOk result (λ sequence. sequence
    ///     ≡ record { fixed = iv; first = first; count = limit - first; used = 0 }) }
    /// ```
    ///
    /// </details>
    pub fn new(iv: [u8; NONCE_LEN], first: u64, limit: u64) -> Result<Self, Unspecified> {
        if first > limit {
            return Err(Unspecified);
        }
        Ok(XoredSequence {
            iv,
            first,
            count: limit - first,
            used: 0,
        })
    }
}

/// Returns the nonce of `number` under `iv` (RFC 9001 section 5.3), for a receiver that reads the number from a packet.
/// ring has no such function.
///
/// <details><summary>Contract</summary>
///
/// ```text
/// ensures { result ≡ xored_nonce iv.now number }
/// ```
///
/// Definitions: [`xored_nonce`](crate::specs::counting#xored_nonce).
///
/// </details>
pub fn nonce_of(iv: &[u8; NONCE_LEN], number: u64) -> Nonce {
    let mut bytes = [0; NONCE_LEN];
    bytes[4..].copy_from_slice(&number.to_be_bytes());
    bb::xor_assign_at_start(&mut bytes, iv);
    Nonce::assume_unique_for_key(bytes)
}

/// <details><summary>Ghost items</summary>
///
/// ```text
/// ghost spent = { spent_nonces xored_nonce };
/// ghost is_closed = { is_used_up };
/// ghost origin = { origin_of };
/// ghost gives = { λ s t. (s.used < s.count) × (t ≡ record s { used = s.used + 1 }) };
/// ghost refuses = { λ s t. (s.count ≤ s.used) × (t ≡ s) };
/// ghost is_next = { λ s nonce. nonce ≡ next_nonce xored_nonce s };
/// ```
///
/// Definitions: [`spent_nonces`](crate::specs::counting#spent_nonces),
/// [`xored_nonce`](crate::specs::counting#xored_nonce), [`is_used_up`](crate::specs::counting#is_used_up),
/// [`origin_of`](crate::specs::counting#origin_of), [`next_nonce`](crate::specs::counting#next_nonce).
///
/// </details>
impl NonceSequence for XoredSequence {
    fn advance(&mut self) -> Result<Nonce, Unspecified> {
        if self.used >= self.count {
            return Err(Unspecified);
        }
        let nonce = nonce_of(&self.iv, self.first + self.used);
        self.used += 1;
        Ok(nonce)
    }
}
