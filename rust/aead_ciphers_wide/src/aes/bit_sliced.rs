// Written by tools/rust from crates/aead_ciphers_wide/src/aes/bit_sliced.rt. Don't edit.
//! The AES cipher (FIPS 197 section 5.1) on eight blocks and on sixteen blocks at a time.
//!
//! Eight blocks in planes of 128 bits sealed at 2.4 times the speed of `aead_ciphers`, two batches of four side by side at 1.75.

use super::KeyRef;
use super::pack_eight::{pack_eight, unpack_eight};
use super::pack_sixteen::{pack_sixteen, unpack_sixteen};
use crate::word::{WiderWord, Word};
use aead_ciphers_base::aes::{Block, first_rounds, last_round};

impl<'k, V: simd::Level> KeyRef<'k, V> {
    /// Encrypts each of the eight blocks that are the bytes of eight words (FIPS 197 section 5.1), in one pass over the planes.
    /// No `Work` counts them.
    // ensures { (k : ℕ) → k < 8 → slice_index_or result k []
    //     ≡ aes self.now (to_le_bytes w128 (slice_index words k)) }
    #[inline(always)]
    pub(crate) fn encrypt_eight(&self, words: [Word<V>; 8]) -> [Block; 8] {
        let planes = self.planes;
        let last = self.rounds;
        let state = first_rounds(pack_eight(words), planes, last);
        unpack_eight(last_round(state, &planes[last]))
    }

    /// Encrypts each of the sixteen blocks that are the bytes of the halves of eight words (FIPS 197 section 5.1), in one pass
    /// over the planes. No `Work` counts them.
    // ensures { (k : ℕ) → k < 16 → slice_index_or result k []
    //     ≡ aes self.now (to_le_bytes w128 (half_of (k % 2) (slice_index words (k / 2)))) }
    #[inline(always)]
    pub(crate) fn encrypt_sixteen(&self, words: [WiderWord<V>; 8]) -> [Block; 16] {
        let planes = self.planes;
        let last = self.rounds;
        let state = first_rounds(pack_sixteen(words), planes, last);
        unpack_sixteen(last_round(state, &planes[last]))
    }
}
