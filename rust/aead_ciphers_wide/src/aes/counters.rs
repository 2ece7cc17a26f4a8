// Written by tools/rust from crates/aead_ciphers_wide/src/aes/counters.rt. Don't edit.
//! Counter blocks as the bytes of words, for many blocks at a time.

use crate::word::{WiderWord, Word};
use aead_ciphers_base::aes::{Block, Counter};
use simd::{u8x16, u32x4};

/// Returns the words whose bytes are the counter block and the next seven.
///
/// <details><summary>Contract</summary>
///
/// ```text
/// ensures { (nonce : List ℕ) (k : ℕ) → IsCounter counter.now nonce k → (i : ℕ) → i < 8
///     → IsCounter (to_le_bytes w128 (slice_index result i)) nonce (k + i) }
/// ```
///
/// Definitions: [`IsCounter`](aead_ciphers_base::specs::counter_mode#IsCounter).
///
/// </details>
#[inline(always)]
pub fn counters<V: simd::Level>(counter: &Counter) -> [Word<V>; 8] {
    let block = *counter.as_ref();
    let number = u32::from_be_bytes([block[12], block[13], block[14], block[15]]);
    [
        counter_more::<V>(block, number, 0),
        counter_more::<V>(block, number, 1),
        counter_more::<V>(block, number, 2),
        counter_more::<V>(block, number, 3),
        counter_more::<V>(block, number, 4),
        counter_more::<V>(block, number, 5),
        counter_more::<V>(block, number, 6),
        counter_more::<V>(block, number, 7),
    ]
}

/// Returns the counter block and the next fifteen, as the bytes of the halves of eight words.
///
/// <details><summary>Contract</summary>
///
/// ```text
/// ensures { (nonce : List ℕ) (k : ℕ) → IsCounter counter.now nonce k → (i : ℕ) → i < 16
///     → IsCounter (to_le_bytes w128 (half_of (i % 2) (slice_index result (i / 2)))) nonce (k + i) }
/// ```
///
/// Definitions: [`IsCounter`](aead_ciphers_base::specs::counter_mode#IsCounter),
/// [`half_of`](crate::specs::word#half_of).
///
/// </details>
#[inline(always)]
pub fn sixteen_counters<V: simd::Level>(counter: &Counter) -> [WiderWord<V>; 8] {
    let block = *counter.as_ref();
    let number = u32::from_be_bytes([block[12], block[13], block[14], block[15]]);
    [
        two_counters::<V>(block, number, 0, 1),
        two_counters::<V>(block, number, 2, 3),
        two_counters::<V>(block, number, 4, 5),
        two_counters::<V>(block, number, 6, 7),
        two_counters::<V>(block, number, 8, 9),
        two_counters::<V>(block, number, 10, 11),
        two_counters::<V>(block, number, 12, 13),
        two_counters::<V>(block, number, 14, 15),
    ]
}

/// Returns two counter blocks, `low` and `high` after `block`, as the bytes of the halves of one word.
// ensures low { to_le_bytes w128 (half_of 0 result) ≡ counter_block (take 12 block) (number + low) }
// ensures high { to_le_bytes w128 (half_of 1 result) ≡ counter_block (take 12 block) (number + high) }
#[inline(always)]
fn two_counters<V: simd::Level>(block: Block, number: u32, low: u32, high: u32) -> WiderWord<V> {
    WiderWord::<V>::new(
        counter_more::<V>(block, number, low),
        counter_more::<V>(block, number, high),
    )
}

/// Returns the counter block `more` after `block`, as the bytes of a word.
// ensures { to_le_bytes w128 result ≡ counter_block (take 12 block) (number + more) }
#[inline(always)]
fn counter_more<V: simd::Level>(block: Block, number: u32, more: u32) -> Word<V> {
    let numbers = (u32x4::splat(number) + u32x4::from_array([0, 0, 0, more])).to_le_bytes();
    Word::<V>::from_bytes(u8x16::<V>::from_array(block).shuffle(
        numbers,
        const { simd::Places::new([0, 1, 2, 3, 4, 5, 6, 7, 8, 9, 10, 11, 31, 30, 29, 28]) },
    ))
}
