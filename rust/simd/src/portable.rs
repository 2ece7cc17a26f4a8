//! Vectors as two numbers of 64 bits, for processors whose vectors this package has no code for.

use crate::level::{Call, Job, Level, Sealed, in_halves};

/// 128 bits: two numbers of 64, whose bytes are those of the vector, the least significant first. This holds on each processor,
/// whatever its order of bytes in memory is.
#[derive(Clone, Copy)]
pub struct Bytes([u64; 2]);

/// An operation on the numbers at each place.
#[inline(always)]
fn each_number(a: Bytes, b: Bytes, f: impl Fn(u64, u64) -> u64) -> Bytes {
    Bytes([f(a.0[0], b.0[0]), f(a.0[1], b.0[1])])
}

/// An operation on the words at each place.
#[inline(always)]
fn each_word(a: Bytes, b: Bytes, f: impl Fn(u32, u32) -> u32) -> Bytes {
    let (a, b) = (to_words(a), to_words(b));
    from_words([f(a[0], b[0]), f(a[1], b[1]), f(a[2], b[2]), f(a[3], b[3])])
}

/// XORs the bytes.
#[inline(always)]
pub fn xor(a: Bytes, b: Bytes) -> Bytes {
    each_number(a, b, |a, b| a ^ b)
}

/// Returns the bits that both have.
#[inline(always)]
pub fn and(a: Bytes, b: Bytes) -> Bytes {
    each_number(a, b, |a, b| a & b)
}

/// Returns the bits that either has.
#[inline(always)]
pub fn or(a: Bytes, b: Bytes) -> Bytes {
    each_number(a, b, |a, b| a | b)
}

/// Adds the words.
#[inline(always)]
pub fn add_words(a: Bytes, b: Bytes) -> Bytes {
    each_word(a, b, u32::wrapping_add)
}

/// Subtracts the words.
#[inline(always)]
pub fn sub_words(a: Bytes, b: Bytes) -> Bytes {
    each_word(a, b, u32::wrapping_sub)
}

/// Returns the vector of these bytes.
#[inline(always)]
pub fn from_array(array: [u8; 16]) -> Bytes {
    let both = u128::from_le_bytes(array);
    Bytes([both as u64, (both >> 64) as u64])
}

/// Returns the bytes.
#[inline(always)]
pub fn to_array(bytes: Bytes) -> [u8; 16] {
    let [low, high] = bytes.0.map(u128::from);
    (low | high << 64).to_le_bytes()
}

/// Returns the vector of these words, the least significant byte of each first.
#[inline(always)]
pub fn from_words(words: [u32; 4]) -> Bytes {
    let [a, b, c, d] = words.map(u64::from);
    Bytes([a | b << 32, c | d << 32])
}

/// Returns the words.
#[inline(always)]
pub fn to_words(bytes: Bytes) -> [u32; 4] {
    let [a, b] = bytes.0;
    [a as u32, (a >> 32) as u32, b as u32, (b >> 32) as u32]
}

/// Returns the vector of these numbers, the least significant byte of each first.
#[inline(always)]
pub fn from_numbers(numbers: [u64; 2]) -> Bytes {
    Bytes(numbers)
}

/// Returns the numbers.
#[inline(always)]
pub fn to_numbers(bytes: Bytes) -> [u64; 2] {
    bytes.0
}

/// Shifts each byte to the left. What comes from the byte below is taken away.
#[inline(always)]
pub fn shl_bytes(a: Bytes, n: u32) -> Bytes {
    Bytes(a.0.map(|number| (number << n) & filled(0xff << n)))
}

/// Shifts each byte to the right. What comes from the byte above is taken away.
#[inline(always)]
pub fn shr_bytes(a: Bytes, n: u32) -> Bytes {
    Bytes(a.0.map(|number| (number >> n) & filled(0xff >> n)))
}

/// Shifts each word to the left.
#[inline(always)]
pub fn shl_words(a: Bytes, n: u32) -> Bytes {
    from_words(to_words(a).map(|word| word << n))
}

/// Shifts each word to the right.
#[inline(always)]
pub fn shr_words(a: Bytes, n: u32) -> Bytes {
    from_words(to_words(a).map(|word| word >> n))
}

/// Shifts each number to the left.
#[inline(always)]
pub fn shl_numbers(a: Bytes, n: u32) -> Bytes {
    Bytes(a.0.map(|number| number << n))
}

/// Shifts each number to the right.
#[inline(always)]
pub fn shr_numbers(a: Bytes, n: u32) -> Bytes {
    Bytes(a.0.map(|number| number >> n))
}

/// Returns the difference of zero and each byte: its complement and one more. The highest bit of each byte is added by itself, so
/// that nothing is carried into the next byte.
#[inline(always)]
pub fn negated(a: Bytes) -> Bytes {
    let (one, highest) = (filled(1), filled(0x80));
    Bytes(a.0.map(|number| ((!number & !highest) + one) ^ (!number & highest)))
}

/// Moves each word `N` places to the front, cyclically.
#[inline(always)]
pub fn rotated_words<const N: usize>(a: Bytes) -> Bytes {
    let words = to_words(a);
    from_words([
        words[N % 4],
        words[(N + 1) % 4],
        words[(N + 2) % 4],
        words[(N + 3) % 4],
    ])
}

/// Returns the number each of whose bytes is this one. Its shifts take the same time for each byte, which not every processor's
/// product does.
#[inline(always)]
fn filled(byte: u8) -> u64 {
    let two = u64::from(byte) | u64::from(byte) << 8;
    let four = two | two << 16;
    four | four << 32
}

/// Returns 255 for each byte that has this bit, and 0 for each other.
#[inline(always)]
fn mask(number: u64, bit: u32) -> u64 {
    let highest = (number << (7 - bit)) & filled(0x80);
    (highest - (highest >> 7)) | highest
}

/// Returns the bytes of one number where the mask is 0, and those of another where it is 255.
#[inline(always)]
fn choose(mask: u64, zero: u64, one: u64) -> u64 {
    zero ^ (mask & (zero ^ one))
}

/// Returns the byte that the two lowest bits of each place choose among the four of the table from `at` on.
#[inline(always)]
fn chosen_of_four(table: [u8; 16], at: usize, places: u64) -> u64 {
    let pair = |at: usize| choose(mask(places, 0), filled(table[at]), filled(table[at + 1]));
    choose(mask(places, 1), pair(at), pair(at + 2))
}

/// The same by the three lowest bits among eight.
#[inline(always)]
fn chosen_of_eight(table: [u8; 16], at: usize, places: u64) -> u64 {
    let zero = chosen_of_four(table, at, places);
    let one = chosen_of_four(table, at + 4, places);
    choose(mask(places, 2), zero, one)
}

/// Returns the byte of the table at each place, and 0 for a place from 128 on. The whole table is read for each.
#[inline(always)]
fn chosen(table: [u8; 16], places: u64) -> u64 {
    let zero = chosen_of_eight(table, 0, places);
    let one = chosen_of_eight(table, 8, places);
    choose(mask(places, 3), zero, one) & !mask(places, 7)
}

/// Returns the bytes of the table at the eight places from `at` on, which are no secret, and 0 for a place from 16 on.
#[inline(always)]
fn bytes_at(table: [u8; 16], places: [u8; 16], at: usize) -> u64 {
    let byte = |k: usize| {
        let found = table.get(usize::from(places[at + k]));
        found.map_or(0, |byte| u64::from(*byte) << (8 * k))
    };
    byte(0) | byte(1) | byte(2) | byte(3) | byte(4) | byte(5) | byte(6) | byte(7)
}

/// Numbers of 64 bits.
#[derive(Clone, Copy)]
pub struct Numbers;

impl Sealed for Numbers {}

impl Level for Numbers {
    in_halves!();

    #[inline(never)]
    fn outlined<C: Call>(call: C) -> C::Output {
        call.call()
    }

    #[inline(always)]
    fn permuted(table: Bytes, places: Bytes) -> Bytes {
        let table = to_array(table);
        Bytes([chosen(table, places.0[0]), chosen(table, places.0[1])])
    }

    #[inline(always)]
    fn permuted_at(table: Bytes, places: [u8; 16]) -> Bytes {
        let table = to_array(table);
        Bytes([bytes_at(table, places, 0), bytes_at(table, places, 8)])
    }
}

/// Returns the names of the levels that the processor has, the lowest first.
pub fn levels() -> &'static [&'static str] {
    &["numbers"]
}

/// Lowers the level of all jobs from now on to the first `count` of [`levels`], for tests: here there is one.
///
/// # Panics
///
/// Panics if `count` is zero.
pub fn at_most(count: usize) {
    assert_ne!(count, 0);
}

/// Returns whether jobs run at a level with vectors of 256 bits.
#[inline]
pub fn has_256_bits() -> bool {
    false
}

/// Runs a job at the highest level that the processor has.
#[inline]
pub fn run<J: Job>(job: J) -> J::Output {
    job.run::<Numbers>()
}
