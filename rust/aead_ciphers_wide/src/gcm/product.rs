// Written by tools/rust from crates/aead_ciphers_wide/src/gcm/product.rt. Don't edit.
//! The product of two blocks (SP 800-38D section 6.3), by a table of products of one of them.
//!
//! A block is the sum of u^(8 i) times its bytes, and each byte is 16 n + m for two digits below 16. So the
//! product is a sum of 32 products, of which the table has 16 for each place of a digit. Its rows are in the
//! order of their bytes: a look-up in a row gives one byte of the products of all 16 digits at once. The rows'
//! bytes are added up from the last row on, moved by one place for each row.
//!
//! What was measured: two blocks, with a second table for the square of the subkey, take two thirds of the time of two products,
//! and about seven blocks regain the time of making that table. The rows of a table are interleaved from the multiples of the
//! subkey: four look-ups in them for each row took 2.2 times as long on x86-64-v2 and 1.6 times on x86-64-v3, and bytes moved
//! one by one 2.5 times as long as those look-ups. Doubling on vectors in place of `u128` gained 1 % of a key. On a `u128` in
//! scalar registers the reduction took 1.14 times as long. It is byte by byte: in two lanes of 64 bits it took more
//! instructions on ARM64, and as many on x86-64-v3.
//!
//! The products of two blocks are added up in two sums, one of the rows with even numbers and one of the rows with odd numbers,
//! so that a processor can work at both at the same time. The rows of the second block are looked up before those of the first,
//! because the first block can't be multiplied before the hash of what precedes it is known. By llvm-mca 14, the loop over pairs
//! takes 284 cycles on Cortex-A53 (with one sum: 337), 311 on Cortex-A55 (345) and 162 on Cortex-A72 (165), in 219 instructions
//! (217). On x86-64-v2 it takes 267 instructions (263) and 0.985 of the time. On Cortex-A72 a look-up of 16 bytes is three
//! operations, so that two blocks keep its two vector units busy for 150 cycles in any order.
//!
//! Also tried in C on ARM64, for two blocks and against one sum (210 instructions): four blocks at a time, with tables for four
//! powers, take 188 instructions and 0.90 of the cycles of Cortex-A72, but 1.03 of the instructions on x86-64-v2, and a key has
//! twice the memory and two more tables to make; three blocks take 197 instructions. Tables of the high digits alone, where the
//! sum of the low digits is shifted by four bits at the end, take 231, and shifts in lanes of 64 bits over two independent sums
//! 267. Reducing a sum only when rows of the next pair have been looked up takes 0.90 of the cycles of Cortex-A53, and 1.08 of
//! the time on x86-64, which has too few registers for it.

use crate::permute::look_up;
use crate::word::Word;
use simd::u8x16;

/// The block R of SP 800-38D section 6.3: 11100001 followed by 120 zero bits.
const R: u128 = 0xe1 << 120;

/// Returns the product of `block` and the block whose products are in `table`.
// requires { AreProducts (subkey table.now) table.now }
// ensures { result ≡ block • subkey table.now }
#[inline(always)]
pub(crate) fn product<V: simd::Level>(table: &[u8; 512], block: u8x16<V>) -> u8x16<V> {
    let (high, low) = digits(block);
    let mut first = u8x16::<V>::splat(0);
    let mut second = u8x16::<V>::splat(0);
    for half in 0..2 {
        for k in 8 * half..8 * half + 8 {
            let at = 16 * (15 - k);
            let (front, back) = moved_by_one(first, second);
            let bytes = looked_up(table, at, high, low);
            first = add(front, bytes);
            second = back;
        }
    }
    reduced(first, second)
}

/// Returns the product of `first` and the block H whose products are in `table`, added to `second`, times H. That is the
/// sum of `first` times H^2, whose products are in `squares`, and `second` times H: the two share the moves and the
/// reduction. The rows with even and those with odd numbers are added up apart, each sum moved by two places for a row, so that
/// neither waits for the other.
// requires { ArePowers table.now squares.now }
// ensures { result ≡ (first • subkey table.now ⊕ second) • subkey table.now }
#[inline(always)]
pub(crate) fn ghash_pair<V: simd::Level>(
    table: &[u8; 512],
    squares: &[u8; 512],
    first: u8x16<V>,
    second: u8x16<V>,
) -> u8x16<V> {
    let (first_high, first_low) = digits(first);
    let (second_high, second_low) = digits(second);
    let of_second = looked_up_rows(table, second_high, second_low);
    let mut even = u8x16::<V>::splat(0);
    let mut even_over = u8x16::<V>::splat(0);
    let mut odd = u8x16::<V>::splat(0);
    let mut odd_over = u8x16::<V>::splat(0);
    for k in 0..8 {
        let r = 14 - 2 * k;
        let (even_front, even_back) = moved_by_two(even, even_over);
        let even_first = looked_up(squares, 16 * r, first_high, first_low);
        let even_bytes = add(even_first, of_second[r]);
        even = add(even_front, even_bytes);
        even_over = even_back;
        let (odd_front, odd_back) = moved_by_two(odd, odd_over);
        let odd_first = looked_up(squares, 16 * (r + 1), first_high, first_low);
        let odd_bytes = add(odd_first, of_second[r + 1]);
        odd = add(odd_front, odd_bytes);
        odd_over = odd_back;
    }
    let (front, back) = moved_by_one(odd, odd_over);
    let sum = add(even, front);
    let over = add(even_over, back);
    reduced(sum, over)
}

/// Returns for each of the 16 rows of each half of `table` what `looked_up` returns. The last row is looked up first, as
/// `ghash_pair` looks up those of the other table: then more of the loads are of two vectors at once.
// requires high { (i : ℕ) → i < 16 → slice_index high i < 16 }
// requires low { (i : ℕ) → i < 16 → slice_index low i < 16 }
// ensures { (r : ℕ) → r < 16 → slice_index_or result r [] ≡ each_below 16 (λ i. bit_xor
//     (slice_index table.now (16 * r + slice_index high i)) (slice_index table.now (256 + 16 * r + slice_index low i))) }
#[inline(always)]
fn looked_up_rows<V: simd::Level>(
    table: &[u8; 512],
    high: u8x16<V>,
    low: u8x16<V>,
) -> [u8x16<V>; 16] {
    let mut rows = [u8x16::<V>::splat(0); 16];
    for k in 0..16 {
        let r = 15 - k;
        rows[r] = looked_up(table, 16 * r, high, low);
    }
    rows
}

/// Looks up the places `high` in the row of `table` from index `at` on, and `low` in the row from `256 + at` on, and returns the
/// sums of the bytes that it finds.
// requires at { at + 272 ≤ 512 }
// requires high { (i : ℕ) → i < 16 → slice_index high i < 16 }
// requires low { (i : ℕ) → i < 16 → slice_index low i < 16 }
// ensures { (i : ℕ) → i < 16 → slice_index result i
//     ≡ bit_xor (slice_index table.now (at + slice_index high i)) (slice_index table.now (256 + at + slice_index low i)) }
#[inline(always)]
fn looked_up<V: simd::Level>(
    table: &[u8; 512],
    at: usize,
    high: u8x16<V>,
    low: u8x16<V>,
) -> u8x16<V> {
    add(
        look_up(table_row::<V>(table, at).to_array(), high),
        look_up(table_row::<V>(table, 256 + at).to_array(), low),
    )
}

/// Returns the high and the low digit of each byte, in base 16.
// ensures high { (i : ℕ) → i < 16 → slice_index result.0 i ≡ slice_index bytes i / 16 }
// ensures low { (i : ℕ) → i < 16 → slice_index result.1 i ≡ slice_index bytes i % 16 }
#[inline(always)]
fn digits<V: simd::Level>(bytes: u8x16<V>) -> (u8x16<V>, u8x16<V>) {
    (bytes >> u8x16::<V>::splat(4), bytes & u8x16::<V>::splat(15))
}

/// Returns the 16 bytes of `table` from index `at` on.
// requires { at + 16 ≤ 512 }
// ensures { (n : ℕ) → n < 16 → slice_index result n ≡ slice_index table.now (at + n) }
#[inline(always)]
fn table_row<V: simd::Level>(table: &[u8; 512], at: usize) -> u8x16<V> {
    u8x16::<V>::from_slice(&table[at..])
}

/// Adds the bytes.
// ensures { result ≡ a ⊕ b }
#[inline(always)]
pub(crate) fn add<V: simd::Level>(a: u8x16<V>, b: u8x16<V>) -> u8x16<V> {
    a ^ b
}

/// Moves 32 bytes by one place. The last is lost.
// ensures first { result.0 ≡ 0 ∷ each_below 15 (λ i. slice_index first i) }
// ensures second { result.1 ≡ slice_index first 15 ∷ each_below 15 (λ i. slice_index second i) }
#[inline(always)]
fn moved_by_one<V: simd::Level>(first: u8x16<V>, second: u8x16<V>) -> (u8x16<V>, u8x16<V>) {
    (
        u8x16::<V>::splat(0).shuffle(
            first,
            const {
                simd::Places::new([
                    15, 16, 17, 18, 19, 20, 21, 22, 23, 24, 25, 26, 27, 28, 29, 30,
                ])
            },
        ),
        first.shuffle(
            second,
            const {
                simd::Places::new([
                    15, 16, 17, 18, 19, 20, 21, 22, 23, 24, 25, 26, 27, 28, 29, 30,
                ])
            },
        ),
    )
}

/// Moves 32 bytes by two places. The last two are lost.
// ensures first { result.0 ≡ 0 ∷ 0 ∷ each_below 14 (λ i. slice_index first i) }
// ensures second { result.1
//     ≡ slice_index first 14 ∷ slice_index first 15 ∷ each_below 14 (λ i. slice_index second i) }
#[inline(always)]
fn moved_by_two<V: simd::Level>(first: u8x16<V>, second: u8x16<V>) -> (u8x16<V>, u8x16<V>) {
    (
        u8x16::<V>::splat(0).shuffle(
            first,
            const {
                simd::Places::new([
                    14, 15, 16, 17, 18, 19, 20, 21, 22, 23, 24, 25, 26, 27, 28, 29,
                ])
            },
        ),
        first.shuffle(
            second,
            const {
                simd::Places::new([
                    14, 15, 16, 17, 18, 19, 20, 21, 22, 23, 24, 25, 26, 27, 28, 29,
                ])
            },
        ),
    )
}

/// Returns the sum of `first` and u^128 times `second`, that is, its sum with u^0, u, u^2 and u^7 times `second`, of which the
/// last byte is 0.
// requires { slice_index second 15 ≡ 0 }
// ensures { result ≡ first ⊕ u128_times second }
#[inline(always)]
fn reduced<V: simd::Level>(first: u8x16<V>, second: u8x16<V>) -> u8x16<V> {
    let (before, _) = moved_by_one(second, u8x16::<V>::splat(0));
    add(first, folded(second, before))
}

/// Returns the sum of each byte and of its shifts to the right by 1, 2 and 7 bits, into which the lowest bits of the byte at
/// its place in `before` come from above. Those of the shifts by 1 and 2 bits are added first, and shifted once.
// ensures { (i : ℕ) → i < 16 → slice_index result i ≡ folded_byte (slice_index before i) (slice_index bytes i) }
#[inline(always)]
fn folded<V: simd::Level>(bytes: u8x16<V>, before: u8x16<V>) -> u8x16<V> {
    let doubled = before << u8x16::<V>::splat(1);
    let by_two = ((before ^ doubled) << u8x16::<V>::splat(6)) ^ (bytes >> u8x16::<V>::splat(2));
    let by_seven = doubled ^ (bytes >> u8x16::<V>::splat(7));
    bytes ^ (bytes >> u8x16::<V>::splat(1)) ^ by_two ^ by_seven
}

/// Writes the products of `block` and each digit of a byte to `table`.
// ensures products { AreProducts (to_be_bytes w128 block) table.new }
// ensures subkey { subkey table.new ≡ to_be_bytes w128 block }
#[inline(always)]
pub(crate) fn write_products<V: simd::Level>(table: &mut [u8; 512], block: u128) {
    V::outlined(WriteProducts {
        table,
        block,
        level: core::marker::PhantomData::<V>,
    })
}

/// A call of `write_products`.
struct WriteProducts<'a, V: simd::Level> {
    table: &'a mut [u8; 512],
    block: u128,
    level: core::marker::PhantomData<V>,
}

impl<V: simd::Level> simd::Call for WriteProducts<'_, V> {
    type Output = ();

    #[inline(always)]
    fn call(self) {
        let WriteProducts { table, block, .. } = self;
        let multiples = blocks::<V>(multiples(block));
        write_half(
            table,
            0,
            multiples[0],
            multiples[1],
            multiples[2],
            multiples[3],
        );
        write_half(
            table,
            256,
            multiples[4],
            multiples[5],
            multiples[6],
            multiples[7],
        );
    }
}

/// Writes `row` to the 16 bytes of `table` from index `at` on.
// requires { at + 16 ≤ 512 }
// ensures { table.new ≡ put_chunk at table.old row }
#[inline(always)]
fn write_table_row<V: simd::Level>(table: &mut [u8; 512], at: usize, row: u8x16<V>) {
    row.copy_to_slice(&mut table[at..]);
}

/// Returns u^0, .., u^7 times `block`, each computed by a shift of the one before.
// ensures { (k : ℕ) → k < 8
//     → to_be_bytes w128 (slice_index result k) ≡ monomial_block k • to_be_bytes w128 block }
#[inline(always)]
fn multiples(block: u128) -> [u128; 8] {
    let mut multiples = [0; 8];
    let mut multiple = block;
    for k in 0..8 {
        multiples[k] = multiple;
        multiple = (multiple >> 1) ^ (R & 0u128.wrapping_sub(multiple & 1));
    }
    multiples
}

/// Returns the number, in a vector.
// ensures { result ≡ number }
#[inline(always)]
fn word_of<V: simd::Level>(number: u128) -> Word<V> {
    Word::<V>::new(
        (number & 0xffff_ffff_ffff_ffff) as u64,
        (number >> 64) as u64,
    )
}

/// Returns the bytes of `number`, the most significant first. They are exchanged in the number, not in the vector: there
/// the compiler would move them one by one.
// ensures { result ≡ to_be_bytes w128 number }
#[inline(always)]
fn bytes_of_number<V: simd::Level>(number: u128) -> u8x16<V> {
    word_of::<V>(number.swap_bytes()).bytes()
}

/// Returns the bytes of each number, the most significant first.
// ensures { (k : ℕ) → k < 8
//     → slice_index_or result k [] ≡ to_be_bytes w128 (slice_index numbers k) }
#[inline(always)]
fn blocks<V: simd::Level>(numbers: [u128; 8]) -> [u8x16<V>; 8] {
    let [n0, n1, n2, n3, n4, n5, n6, n7] = numbers;
    [
        bytes_of_number::<V>(n0),
        bytes_of_number::<V>(n1),
        bytes_of_number::<V>(n2),
        bytes_of_number::<V>(n3),
        bytes_of_number::<V>(n4),
        bytes_of_number::<V>(n5),
        bytes_of_number::<V>(n6),
        bytes_of_number::<V>(n7),
    ]
}

/// Writes a half of `table`, from index `at` on: row `r` has byte `r` of the sum of those of the blocks at which a digit has a
/// one, its highest bit first, for each digit.
// requires { at + 256 ≤ 512 }
// ensures written { (r n : ℕ) → r < 16 → n < 16 → slice_index table.new (at + (16 * r + n))
//     ≡ chosen_sum n 0 (slice_index a r ∷ slice_index b r ∷ slice_index c r ∷ slice_index d r ∷ []) }
// ensures others { (q : ℕ) → (q < at) ⊎ (at + 256 ≤ q) → slice_index table.new q ≡ slice_index table.old q }
#[inline(always)]
fn write_half<V: simd::Level>(
    table: &mut [u8; 512],
    at: usize,
    a: u8x16<V>,
    b: u8x16<V>,
    c: u8x16<V>,
    d: u8x16<V>,
) {
    let rows = rows(a, b, c, d);
    for r in 0..16 {
        write_table_row(table, at + 16 * r, rows[r]);
    }
}

/// Returns the rows of a half. A sum of four blocks is that of a sum of the first two, which the two higher bits of the digit
/// choose, and of a sum of the others.
// ensures { (r : ℕ) → r < 16 → slice_index_or result r []
//     ≡ each_below 16 (λ n. chosen_sum n 0 (slice_index a r ∷ slice_index b r ∷ slice_index c r ∷ slice_index d r ∷ [])) }
#[inline(always)]
fn rows<V: simd::Level>(a: u8x16<V>, b: u8x16<V>, c: u8x16<V>, d: u8x16<V>) -> [u8x16<V>; 16] {
    let [high0, high1, high2, high3] = sums_of_two(a, b);
    let [low0, low1, low2, low3] = sums_of_two(c, d);
    let [r0, r1, r2, r3] = four_rows(high0, low0);
    let [r4, r5, r6, r7] = four_rows(high1, low1);
    let [r8, r9, r10, r11] = four_rows(high2, low2);
    let [r12, r13, r14, r15] = four_rows(high3, low3);
    [
        r0, r1, r2, r3, r4, r5, r6, r7, r8, r9, r10, r11, r12, r13, r14, r15,
    ]
}

/// Returns the bytes of zeros, of `b`, of `a` and of their sum at each place in turn, four places in each vector.
// ensures { (k i : ℕ) → k < 4 → i < 16 → slice_index (slice_index_or result k []) i
//     ≡ chosen_of_two (i % 4) (slice_index a (4 * k + i / 4)) (slice_index b (4 * k + i / 4)) }
#[inline(always)]
fn sums_of_two<V: simd::Level>(a: u8x16<V>, b: u8x16<V>) -> [u8x16<V>; 4] {
    let (low_front, low_back) = interleaved(u8x16::<V>::splat(0), b);
    let (high_front, high_back) = interleaved(a, add(a, b));
    let (first, second) = interleaved_in_pairs(low_front, high_front);
    let (third, fourth) = interleaved_in_pairs(low_back, high_back);
    [first, second, third, fourth]
}

/// Returns the bytes of two vectors in turn: those of their first halves, and those of their second halves.
// ensures front { (i : ℕ) → i < 16 → slice_index result.0 i ≡ slice_index (if i % 2 == 0 then a else b) (i / 2) }
// ensures back { (i : ℕ) → i < 16 → slice_index result.1 i ≡ slice_index (if i % 2 == 0 then a else b) (8 + i / 2) }
#[inline(always)]
fn interleaved<V: simd::Level>(a: u8x16<V>, b: u8x16<V>) -> (u8x16<V>, u8x16<V>) {
    (
        a.shuffle(b, const { simd::Places::new([0, 16, 1, 17, 2, 18, 3, 19, 4, 20, 5, 21, 6, 22, 7, 23]) }),
        a.shuffle(
            b, const { simd::Places::new([8, 24, 9, 25, 10, 26, 11, 27, 12, 28, 13, 29, 14, 30, 15, 31]) }),
    )
}

/// Does the same as `interleaved`, with two bytes of each in turn.
// ensures front { (i : ℕ) → i < 16
//     → slice_index result.0 i ≡ slice_index (if i / 2 % 2 == 0 then a else b) (2 * (i / 4) + i % 2) }
// ensures back { (i : ℕ) → i < 16
//     → slice_index result.1 i ≡ slice_index (if i / 2 % 2 == 0 then a else b) (8 + (2 * (i / 4) + i % 2)) }
#[inline(always)]
fn interleaved_in_pairs<V: simd::Level>(a: u8x16<V>, b: u8x16<V>) -> (u8x16<V>, u8x16<V>) {
    (
        a.shuffle(b, const { simd::Places::new([0, 1, 16, 17, 2, 3, 18, 19, 4, 5, 20, 21, 6, 7, 22, 23]) }),
        a.shuffle(
            b, const { simd::Places::new([8, 9, 24, 25, 10, 11, 26, 27, 12, 13, 28, 29, 14, 15, 30, 31]) }),
    )
}

/// Returns four rows, each of the sums of a byte of `high` and a byte of `low`, of which each row has four: digit `n` has that of
/// `high` at its two higher bits, and that of `low` at its two lower.
// ensures { (j : ℕ) → j < 4 → slice_index_or result j []
//     ≡ each_below 16 (λ n. bit_xor (slice_index high (4 * j + n / 4)) (slice_index low (4 * j + n % 4))) }
#[inline(always)]
fn four_rows<V: simd::Level>(high: u8x16<V>, low: u8x16<V>) -> [u8x16<V>; 4] {
    [
        high.swizzle([0, 0, 0, 0, 1, 1, 1, 1, 2, 2, 2, 2, 3, 3, 3, 3])
            ^ low.swizzle([0, 1, 2, 3, 0, 1, 2, 3, 0, 1, 2, 3, 0, 1, 2, 3]),
        high.swizzle([4, 4, 4, 4, 5, 5, 5, 5, 6, 6, 6, 6, 7, 7, 7, 7])
            ^ low.swizzle([4, 5, 6, 7, 4, 5, 6, 7, 4, 5, 6, 7, 4, 5, 6, 7]),
        high.swizzle([8, 8, 8, 8, 9, 9, 9, 9, 10, 10, 10, 10, 11, 11, 11, 11])
            ^ low.swizzle([8, 9, 10, 11, 8, 9, 10, 11, 8, 9, 10, 11, 8, 9, 10, 11]),
        high.swizzle([
            12, 12, 12, 12, 13, 13, 13, 13, 14, 14, 14, 14, 15, 15, 15, 15,
        ]) ^ low.swizzle([
            12, 13, 14, 15, 12, 13, 14, 15, 12, 13, 14, 15, 12, 13, 14, 15,
        ]),
    ]
}
