// Written by tools/rust from crates/aead_ciphers/src/gcm/product.rt. Don't edit.
//! The product of two blocks (SP 800-38D section 6.3), by a table of the multiples of one of them.

use simd::u32x4;

/// The block R of SP 800-38D section 6.3: 11100001 followed by 120 zero bits.
const R: u128 = 0xe1 << 120;

/// Writes the products of `block` and u^0, .., u^127 (SP 800-38D section 6.3) to `table`, each computed by a shift of
/// the one before. Corresponding words of the products i, 32 + i, 64 + i and 96 + i are adjacent.
// ensures multiples { AreMultiples (to_be_bytes w128 block) table.new }
// ensures first { entry table.new 0 ≡ block }
pub(crate) fn write_multiples(table: &mut [u32; 512], block: u128) {
    let mut multiple = block;
    for k in 0..128 {
        let [first, second, third, fourth] = words(multiple).to_array();
        let place = 4 * (k % 32) + k / 32;
        table[place] = first;
        table[128 + place] = second;
        table[256 + place] = third;
        table[384 + place] = fourth;
        multiple = (multiple >> 1) ^ (R & 0u128.wrapping_sub(multiple & 1));
    }
}

/// Returns the product of `block` and the block whose multiples are in `table`: the sum of the multiples that
/// correspond to the one bits of `block`. The four words of `block` are processed in parallel, with one mask for four
/// multiples, which is twice as fast as numbers of 128 bits. Four steps in each turn of the loop would make sealing 2 to 3 %
/// faster, but need a second invariant.
// requires { AreMultiples (to_be_bytes w128 (entry table.now 0)) table.now }
// ensures { to_be_bytes w128 result
//     ≡ to_be_bytes w128 block • to_be_bytes w128 (entry table.now 0) }
pub(crate) fn product(table: &[u32; 512], block: u128) -> u128 {
    let mut bits = words(block);
    let mut first = u32x4::splat(0);
    let mut second = u32x4::splat(0);
    let mut third = u32x4::splat(0);
    let mut fourth = u32x4::splat(0);
    for i in 0..32 {
        first = add_chosen(first, bits, table_words(table, 4 * i));
        second = add_chosen(second, bits, table_words(table, 128 + 4 * i));
        third = add_chosen(third, bits, table_words(table, 256 + 4 * i));
        fourth = add_chosen(fourth, bits, table_words(table, 384 + 4 * i));
        bits = bits + bits;
    }
    number_of_words(
        first.reduce_xor(),
        second.reduce_xor(),
        third.reduce_xor(),
        fourth.reduce_xor(),
    )
}

/// Returns the four words of `block`, the most significant first.
// ensures { (j : ℕ) → j < 4 → slice_index result j ≡ block / 2 ^ (96 - 32 * j) % 2 ^ 32 }
#[inline(always)]
fn words(block: u128) -> u32x4 {
    u32x4::from_array([
        (block >> 96) as u32,
        ((block >> 64) & 0xffff_ffff) as u32,
        ((block >> 32) & 0xffff_ffff) as u32,
        (block & 0xffff_ffff) as u32,
    ])
}

/// Returns the block with these four words, the most significant first.
// ensures { result ≡ number_of_words (first ∷ second ∷ third ∷ fourth ∷ []) }
#[inline(always)]
fn number_of_words(first: u32, second: u32, third: u32, fourth: u32) -> u128 {
    (u128::from(first) << 96)
        | (u128::from(second) << 64)
        | (u128::from(third) << 32)
        | u128::from(fourth)
}

/// Returns the four words of `table` from index `at` on.
// requires { at + 4 ≤ 512 }
// ensures read { (j : ℕ) → j < 4 → slice_index result j ≡ slice_index table.now (at + j) }
// ensures fits { (j : ℕ) → j < 4 → slice_index result j < 2 ^ 32 }
#[inline(always)]
fn table_words(table: &[u32; 512], at: usize) -> u32x4 {
    u32x4::from_slice(&table[at..])
}

/// Adds to `sum` each word of `words` for which the highest bit of the same lane of `bits` is set.
// ensures { (j : ℕ) → j < 4
//     → slice_index result j ≡ (if slice_index bits j / 2 ^ 31 == 1
//     then bit_xor (slice_index sum j) (slice_index words j)
//     else slice_index sum j) }
#[inline(always)]
fn add_chosen(sum: u32x4, bits: u32x4, words: u32x4) -> u32x4 {
    let chosen = u32x4::splat(0) - (bits >> u32x4::splat(31));
    sum ^ (words & chosen)
}
