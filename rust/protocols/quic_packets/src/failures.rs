// Written by tools/rust from crates/quic_packets/src/failures.rt. Don't edit.
//! The count of packets that have failed authentication (RFC 9001 section 6.6).

use crate::receive_error::ReceiveError;

/// The integrity limit of AES-GCM: the packets that may fail authentication, over all keys of a connection (RFC 9001 section
/// 6.6).
pub const INTEGRITY_LIMIT: u64 = 1 << 52;

/// The number of packets that have failed authentication, over all keys of a connection, and the limit of that number.
///
/// Once the limit is reached, every packet is rejected and the connection must be closed (RFC 9001 section 6.6).
///
/// <details><summary>Model</summary>
///
/// ```text
/// ghost Value = { Failures };
/// ghost view = { λ failures. record { count = failures.count; limit = failures.limit } };
/// ghost invariant = { λ failures. failures.limit ≤ 2 ^ 52 };
/// ```
///
/// Definitions: [`Failures`](crate::specs::failures#Failures).
///
/// </details>
pub struct Failures {
    count: u64,
    limit: u64,
}

impl Failures {
    /// Creates a count of 0 with the limit of AES-GCM: 2^52 packets.
    ///
    /// <details><summary>Contract</summary>
    ///
    /// ```text
    /// ensures { result ≡ record { count = 0; limit = 2 ^ 52 } }
    /// ```
    ///
    /// </details>
    pub fn new() -> Self {
        Failures {
            count: 0,
            limit: INTEGRITY_LIMIT,
        }
    }

    /// Lowers the limit to `limit`. A higher limit has no effect.
    ///
    /// <details><summary>Contract</summary>
    ///
    /// ```text
    /// ensures { result ≡ record self { limit = min self.limit limit } }
    /// ```
    ///
    /// </details>
    pub fn with_limit(mut self, limit: u64) -> Self {
        self.limit = self.limit.min(limit);
        self
    }

    /// Returns the number of packets that have failed authentication.
    ///
    /// <details><summary>Contract</summary>
    ///
    /// ```text
    /// ensures { result ≡ self.now.count }
    /// ```
    ///
    /// </details>
    pub fn count(&self) -> u64 {
        self.count
    }

    /// Returns whether the limit is reached. Every packet is then rejected.
    ///
    /// <details><summary>Contract</summary>
    ///
    /// ```text
    /// ensures { IsTrue result ↔ (self.now.limit ≤ self.now.count) }
    /// ```
    ///
    /// </details>
    pub fn is_at_limit(&self) -> bool {
        self.count >= self.limit
    }

    /// Counts one more failure if the error is `Refused`, that of a packet that isn't authentic.
    // requires { self.old.count < self.old.limit }
    // ensures failed { error ≡ ReceiveError.Refused → self.new ≡ record self.old { count = self.old.count + 1 } }
    // ensures others { error ≢ ReceiveError.Refused → self.new ≡ self.old }
    pub(crate) fn count_if_refused(&mut self, error: ReceiveError) {
        if let ReceiveError::Refused = error {
            self.count += 1;
        }
    }
}
