// Written by tools/rust from crates/aead_ciphers/src/aead/counter_sequence.rt. Don't edit.
//! The nonce sequence of a fixed prefix and a counter.

use crate::aead::{NONCE_LEN, Nonce, NonceSequence, Unspecified};

/// A sequence of 12-byte nonces: a prefix of 4 bytes, which is the same in all of them, followed by a number in 8
/// big-endian bytes, which counts up (the fixed field and the invocation field of SP 800-38D section 8.2.1). It cannot
/// be cloned. ring has no such type.
///
/// # Examples
///
/// ```
/// use deerlapse::aead::{CounterSequence, NonceSequence, Unspecified};
///
/// let mut sequence = CounterSequence::new([1, 2, 3, 4], 0x05060708090a0bff, 2)?;
/// assert_eq!(sequence.advance()?.as_ref(), &[1, 2, 3, 4, 5, 6, 7, 8, 9, 10, 11, 255]);
/// assert_eq!(sequence.advance()?.as_ref(), &[1, 2, 3, 4, 5, 6, 7, 8, 9, 10, 12, 0]);
/// assert!(sequence.advance().is_err());
/// # Ok::<(), Unspecified>(())
/// ```
///
/// <details><summary>Model</summary>
///
/// ```text
/// ghost Value = { Counting };
/// ghost view = { λ s. record { fixed = s.prefix; first = s.first; count = s.count; used = s.used } };
/// ghost invariant = { λ s. (s.used ≤ s.count) × (s.first + s.count ≤ 2 ^ 64) };
/// ```
///
/// Definitions: [`Counting`](crate::specs::counting#Counting).
///
/// </details>
pub struct CounterSequence {
    prefix: [u8; 4],
    first: u64,
    count: u64,
    used: u64,
}

impl CounterSequence {
    /// Creates a sequence of `count` nonces, whose numbers count up from `first`. The last argument of
    /// [`XoredSequence::new`](crate::aead::XoredSequence::new) is a limit instead of a count.
    ///
    /// It is the caller's responsibility that none of them seals another message under the same key. After a restart,
    /// take a new key, or a `first` above all numbers that were used.
    ///
    /// # Errors
    ///
    /// Fails with `Unspecified` if `first + count` is greater than 2^64.
    ///
    /// <details><summary>Contract</summary>
    ///
    /// ```text
    /// ensures accepted { IsOk result ↔ (first + count ≤ 2 ^ 64) }
    /// ensures made { IfOk result (λ sequence. sequence
    ///     ≡ record { fixed = prefix; first = first; count = count; used = 0 }) }
    /// ```
    ///
    /// </details>
    pub fn new(prefix: [u8; 4], first: u64, count: u64) -> Result<Self, Unspecified> {
        if count > 0 && first > u64::MAX - (count - 1) {
            return Err(Unspecified);
        }
        Ok(CounterSequence {
            prefix,
            first,
            count,
            used: 0,
        })
    }
}

/// Returns the nonce of `prefix` and `number`.
// ensures { result ≡ prefixed_nonce prefix.now number }
fn prefixed(prefix: &[u8; 4], number: u64) -> Nonce {
    let mut bytes = [0; NONCE_LEN];
    bytes[..4].copy_from_slice(prefix);
    bytes[4..].copy_from_slice(&number.to_be_bytes());
    Nonce::assume_unique_for_key(bytes)
}

/// <details><summary>Ghost items</summary>
///
/// ```text
/// ghost spent = { spent_nonces prefixed_nonce };
/// ghost is_closed = { is_used_up };
/// ghost origin = { origin_of };
/// ghost gives = { λ s t. (s.used < s.count) × (t ≡ record s { used = s.used + 1 }) };
/// ghost refuses = { λ s t. (s.count ≤ s.used) × (t ≡ s) };
/// ghost is_next = { λ s nonce. nonce ≡ next_nonce prefixed_nonce s };
/// ```
///
/// Definitions: [`spent_nonces`](crate::specs::counting#spent_nonces),
/// [`prefixed_nonce`](crate::specs::counting#prefixed_nonce), [`is_used_up`](crate::specs::counting#is_used_up),
/// [`origin_of`](crate::specs::counting#origin_of), [`next_nonce`](crate::specs::counting#next_nonce).
///
/// </details>
impl NonceSequence for CounterSequence {
    fn advance(&mut self) -> Result<Nonce, Unspecified> {
        if self.used >= self.count {
            return Err(Unspecified);
        }
        let nonce = prefixed(&self.prefix, self.first + self.used);
        self.used += 1;
        Ok(nonce)
    }
}
