// Written by tools/rust from crates/aead_ciphers_wide/src/lanes.rt. Don't edit.
//! The trait `Lanes`, of words that consist of lanes of 64 bits, each of which is shifted by itself.

use aead_ciphers_base::aes::Plane;

/// A word of lanes of 64 bits.
pub trait Lanes: Plane {
    /// Returns the word all of whose lanes are `lane`.
    ///
    /// <details><summary>Contract</summary>
    ///
    /// ```text
    /// ensures { (j : ℕ) → j < Self.width / 64 → lane_of j (Self.number result) ≡ lane }
    /// ```
    ///
    /// Definitions: [`lane_of`](crate::specs::word#lane_of).
    ///
    /// </details>
    fn splat(lane: u64) -> Self;

    /// Shifts each lane to the left.
    ///
    /// <details><summary>Contract</summary>
    ///
    /// ```text
    /// requires { n < 64 }
    /// ensures { (j : ℕ) → j < Self.width / 64
    ///     → lane_of j (Self.number result) ≡ lane_of j (Self.number self) * 2 ^ n % 2 ^ 64 }
    /// ```
    ///
    /// Definitions: [`lane_of`](crate::specs::word#lane_of).
    ///
    /// </details>
    fn lanes_left(self, n: u32) -> Self;

    /// Shifts each lane to the right.
    ///
    /// <details><summary>Contract</summary>
    ///
    /// ```text
    /// requires { n < 64 }
    /// ensures { (j : ℕ) → j < Self.width / 64
    ///     → lane_of j (Self.number result) ≡ lane_of j (Self.number self) / 2 ^ n }
    /// ```
    ///
    /// Definitions: [`lane_of`](crate::specs::word#lane_of).
    ///
    /// </details>
    fn lanes_right(self, n: u32) -> Self;
}
