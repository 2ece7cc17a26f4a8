// Written by tools/rust from crates/aead_ciphers_base/src/aes/bit_sliced.rt. Don't edit.
//! The AES cipher (FIPS 197 section 5.1) on planes, and on four blocks at a time.

use super::pack::{pack, unpack};
use super::plane::Plane;
use super::round::{add_round_key, mix_columns, shift_rows};
use super::tower::sub_bytes;
use super::{Block, KeyRef};

/// A round key that eight planes hold, once in each of their blocks.
///
/// <details><summary>Ghost items</summary>
///
/// ```text
/// // The numbers of the planes.
/// ghost held: { Self → List ℕ };
/// ```
///
/// </details>
pub trait RoundKeyPlanes<P: Plane> {
    /// Returns the planes.
    ///
    /// <details><summary>Contract</summary>
    ///
    /// ```text
    /// ensures { map P.number result ≡ held self.now }
    /// ```
    ///
    /// </details>
    fn planes(&self) -> [P; 8];
}

/// <details><summary>Ghost items</summary>
///
/// ```text
/// ghost held = { λ key. key };
/// ```
///
/// </details>
impl RoundKeyPlanes<u64> for [u64; 8] {
    #[inline(always)]
    fn planes(&self) -> [u64; 8] {
        *self
    }
}

/// Applies AddRoundKey and the rounds before round `last` to each block (FIPS 197 section 5.1). In the contract, `w` is a key
/// schedule whose words the planes of the round keys hold in that block.
///
/// <details><summary>Contract</summary>
///
/// ```text
/// requires some { 1 ≤ last }
/// requires enough { last ≤ length round_keys.now }
/// ensures { (k : ℕ) → k < P.width / 16 → (w : List (List ℕ))
///     → ((j : ℕ) → j < last → HoldsRound P.place k w j (slice_index_or (map K.held round_keys.now) j []))
///     → block_at P.place (map P.number result) k
///     ≡ rounds w (block_at P.place (map P.number planes) k) (last - 1) }
/// ```
///
/// Definitions: [`HoldsRound`](crate::specs::planes#HoldsRound), [`block_at`](crate::specs::planes#block_at),
/// [`rounds`](crate::specs::aes#rounds).
///
/// </details>
#[inline(always)]
pub fn first_rounds<P: Plane, K: RoundKeyPlanes<P>>(
    planes: [P; 8],
    round_keys: &[K],
    last: usize,
) -> [P; 8] {
    let mut state = add_round_key(planes, round_keys[0].planes());
    for round in 1..last {
        state = add_round_key(
            mix_columns(shift_rows(sub_bytes(state))),
            round_keys[round].planes(),
        );
    }
    state
}

/// Applies the last round, which has no MixColumns, to each block (FIPS 197 section 5.1).
///
/// <details><summary>Contract</summary>
///
/// ```text
/// ensures { (k : ℕ) → k < P.width / 16 → (w : List (List ℕ)) (j : ℕ) → HoldsRound P.place k w j (K.held round_key.now)
///     → block_at P.place (map P.number result) k
///     ≡ add_round_key w j (shift_rows (sub_bytes (block_at P.place (map P.number planes) k))) }
/// ```
///
/// Definitions: [`HoldsRound`](crate::specs::planes#HoldsRound), [`block_at`](crate::specs::planes#block_at),
/// [`add_round_key`](crate::specs::aes#add_round_key), [`shift_rows`](crate::specs::aes#shift_rows),
/// [`sub_bytes`](crate::specs::aes#sub_bytes).
///
/// </details>
#[inline(always)]
pub fn last_round<P: Plane, K: RoundKeyPlanes<P>>(planes: [P; 8], round_key: &K) -> [P; 8] {
    add_round_key(shift_rows(sub_bytes(planes)), round_key.planes())
}

impl<'k> KeyRef<'k> {
    /// Encrypts each of four blocks (FIPS 197 section 5.1), in one pass over the planes. No `Work`
    /// counts them.
    ///
    /// <details><summary>Contract</summary>
    ///
    /// ```text
    /// ensures { (k : ℕ) → k < 4
    ///     → slice_index_or result k [] ≡ aes self.now (slice_index_or blocks k []) }
    /// ```
    ///
    /// Definitions: [`aes`](crate::specs::aes#aes).
    ///
    /// </details>
    #[inline(always)]
    pub fn encrypt_four(&self, blocks: [Block; 4]) -> [Block; 4] {
        let round_keys = self.round_keys;
        let last = self.rounds;
        let state = first_rounds(pack(blocks), round_keys, last);
        unpack(last_round(state, &round_keys[last]))
    }
}
