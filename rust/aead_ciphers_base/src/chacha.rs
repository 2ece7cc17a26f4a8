// Written by tools/rust from crates/aead_ciphers_base/src/chacha.rt. Don't edit.
//! The stream cipher ChaCha20 (RFC 8439 sections 2.1 to 2.4). Read `Key::encrypt` first.
//!
//! It doesn't authenticate: whoever changes a bit of the ciphertext changes that bit of the plaintext.
//! There is no Poly1305.

use crate::values::{Nonce, Sample};
use crate::{bb, overlapping};
use rows::state_block;

mod lanes;
mod rows;

/// The length of a key, in bytes.
pub const KEY_LEN: usize = 32;

/// The length of a block of the keystream, in bytes.
pub const BLOCK_LEN: usize = 64;

/// The length of four blocks, in bytes.
const BATCH_LEN: usize = 4 * BLOCK_LEN;

/// A slice of bytes that is read from `start` on and written from the front on. [`overlapping::Overlapping`] has the methods.
///
/// # Examples
///
/// ```
/// use deerlapse::chacha::Overlapping;
/// use deerlapse::error::IndexError;
///
/// let mut packet = *b"header, text";
/// let in_out = Overlapping::new(&mut packet, 8..)?;
/// assert_eq!(in_out.input(), b"text");
/// # Ok::<(), IndexError>(())
/// ```
pub type Overlapping<'o> = overlapping::Overlapping<'o, u8>;

type State = [u32; 16];

/// The first four words of a state (section 2.3): "expand 32-byte k" in little-endian order.
const CONSTANTS: [u32; 4] = [0x6170_7865, 0x3320_646e, 0x7962_2d32, 0x6b20_6574];

/// Writes words in little-endian order.
// requires { length bytes.old ≡ 4 * length words.now }
// ensures { bytes.new ≡ le_bytes words.now }
#[inline(always)]
fn write_le_bytes(words: &[u32], bytes: &mut [u8]) {
    for i in 0..words.len() {
        bytes[4 * i..4 * i + 4].copy_from_slice(&words[i].to_le_bytes());
    }
}

/// Reads words in little-endian order.
// requires { length bytes.now ≡ 4 * N }
// ensures { result ≡ le_words bytes.now }
#[inline(always)]
fn le_words<const N: usize>(bytes: &[u8]) -> [u32; N] {
    let mut words = [0; N];
    for i in 0..N {
        let at = 4 * i;
        words[i] = u32::from_le_bytes([bytes[at], bytes[at + 1], bytes[at + 2], bytes[at + 3]]);
    }
    words
}

/// XORs the `n` bytes at `start + at` with the keystream, and writes them at `at`. All bytes are read
/// before any is written.
// requires in_slice { start + at + n ≤ length in_out.old }
// requires in_stream { n ≤ N }
// ensures { in_out.new ≡ take at in_out.old
//     ++ (take n (drop (start + at) in_out.old) ⊕ stream.entry)
//     ++ drop (at + n) in_out.old }
#[inline(always)]
fn xor_stream<const N: usize>(
    in_out: &mut [u8],
    start: usize,
    at: usize,
    n: usize,
    mut stream: [u8; N],
) {
    let from = start + at;
    bb::xor_assign_at_start(&mut stream, &in_out[from..from + n]);
    in_out[at..at + n].copy_from_slice(&stream[..n]);
}

/// A block counter and a nonce: the position at which a keystream starts.
///
/// # Examples
///
/// The last four words of the state of RFC 8439 section 2.3.2:
///
/// ```
/// use deerlapse::aead::Nonce;
/// use deerlapse::chacha::Counter;
///
/// let nonce = Nonce::assume_unique_for_key([0, 0, 0, 9, 0, 0, 0, 0x4a, 0, 0, 0, 0]);
/// let counter = Counter::from_nonce_and_ctr(nonce, 1);
/// assert_eq!(counter.into_words_less_safe(), [1, 0x09000000, 0x4a000000, 0]);
/// ```
///
/// <details><summary>Model</summary>
///
/// ```text
/// ghost Value = { Position };
/// ghost view = { λ counter. record {
///   number = slice_index counter.words 0;
///   nonce = le_bytes (drop 1 counter.words);
/// } };
/// ghost invariant = { λ counter. (i : ℕ) → slice_index counter.words i < 2 ^ 32 };
/// ```
///
/// Definitions: [`Position`](crate::specs::cha_cha20#Position), [`le_bytes`](crate::specs::cha_cha20#le_bytes).
///
/// </details>
pub struct Counter {
    words: [u32; 4],
}

impl Counter {
    /// Creates the counter of block `ctr` under the nonce.
    ///
    /// <details><summary>Contract</summary>
    ///
    /// ```text
    /// ensures number { result.number ≡ ctr }
    /// ensures nonce { result.nonce ≡ nonce }
    /// ```
    ///
    /// </details>
    #[inline(always)]
    pub fn from_nonce_and_ctr(nonce: Nonce, ctr: u32) -> Self {
        let [n0, n1, n2] = le_words::<3>(nonce.as_ref());
        Counter {
            words: [ctr, n0, n1, n2],
        }
    }

    /// Creates the counters of blocks 0 and 1 under one nonce.
    ///
    /// <details><summary>Contract</summary>
    ///
    /// ```text
    /// ensures zero { result.0 ≡ record { number = 0; nonce = nonce } }
    /// ensures one { result.1 ≡ record { number = 1; nonce = nonce } }
    /// ```
    ///
    /// </details>
    #[inline(always)]
    pub fn zero_one_less_safe(nonce: Nonce) -> (Self, Self) {
        let zero = Self::from_nonce_and_ctr(nonce, 0);
        let [_, n0, n1, n2] = zero.words;
        let one = Counter {
            words: [1, n0, n1, n2],
        };
        (zero, one)
    }

    /// Consumes the counter, and returns the block counter followed by the nonce as three little-endian
    /// words.
    ///
    /// <details><summary>Contract</summary>
    ///
    /// ```text
    /// ensures { result ≡ self.number ∷ le_words self.nonce }
    /// ```
    ///
    /// Definitions: [`le_words`](crate::specs::cha_cha20#le_words).
    ///
    /// </details>
    #[inline(always)]
    pub fn into_words_less_safe(self) -> [u32; 4] {
        self.words
    }
}

/// A ChaCha20 key of 32 bytes.
///
/// # Examples
///
/// The beginning of the example of RFC 8439 section 2.4.2:
///
/// ```
/// use deerlapse::aead::Nonce;
/// use deerlapse::chacha::{Counter, Key, Overlapping};
///
/// let key = Key::new(std::array::from_fn(|i| i as u8));
/// let counter = || {
///     let nonce = Nonce::assume_unique_for_key([0, 0, 0, 0, 0, 0, 0, 0x4a, 0, 0, 0, 0]);
///     Counter::from_nonce_and_ctr(nonce, 1)
/// };
///
/// let mut text = *b"Ladies and Gentlemen";
/// key.encrypt(counter(), Overlapping::from(&mut text[..]));
/// assert_eq!(text[..8], [0x6e, 0x2e, 0x35, 0x9a, 0x25, 0x68, 0xf9, 0x80]);
///
/// // The same call decrypts.
/// key.encrypt(counter(), Overlapping::from(&mut text[..]));
/// assert_eq!(&text, b"Ladies and Gentlemen");
/// ```
///
/// <details><summary>Model</summary>
///
/// ```text
/// ghost Value = { List ℕ };
/// ghost view = { λ key. le_bytes key.words };
/// ghost invariant = { λ key. (i : ℕ) → slice_index key.words i < 2 ^ 32 };
/// ```
///
/// Definitions: [`le_bytes`](crate::specs::cha_cha20#le_bytes).
///
/// </details>
#[derive(Clone)]
pub struct Key {
    words: [u32; 8],
}

/// Overwrites the secret fields with zeros.
impl Drop for Key {
    fn drop(&mut self) {
        simd::wipe(&mut self.words);
    }
}

impl Key {
    /// Creates a key from 32 bytes.
    ///
    /// <details><summary>Contract</summary>
    ///
    /// ```text
    /// ensures { result ≡ value }
    /// ```
    ///
    /// </details>
    #[inline(always)]
    pub fn new(value: [u8; KEY_LEN]) -> Self {
        Key {
            words: le_words(&value),
        }
    }

    /// Returns the key as eight little-endian words.
    ///
    /// <details><summary>Contract</summary>
    ///
    /// ```text
    /// ensures { result.now ≡ le_words self.now }
    /// ```
    ///
    /// Definitions: [`le_words`](crate::specs::cha_cha20#le_words).
    ///
    /// </details>
    #[inline(always)]
    pub fn words_less_safe(&self) -> &[u32; 8] {
        &self.words
    }

    /// Encrypts or decrypts the input: XORs it with the keystream from `counter` on (RFC 8439
    /// section 2.4), and writes the output to the front of the slice.
    ///
    /// The output is as long as the input. The bytes after it are unchanged. The number of the last
    /// block must be below 2^32. In Rust nothing checks this: after block 2^32 - 1 a call may panic, or
    /// continue with block 0.
    ///
    /// <details><summary>Contract</summary>
    ///
    /// ```text
    /// requires { counter.number + div_ceil (input_len in_out) 64 ≤ 2 ^ 32 }
    /// ensures { let input = input_of in_out.entry in
    ///     in_out.exit.0.now ≡ chacha20_encrypted self.now counter.number counter.nonce input
    ///     ++ drop (length input) in_out.entry.in_out.now }
    /// ```
    ///
    /// Definitions: [`input_len`](crate::specs::overlapping#input_len),
    /// [`input_of`](crate::specs::overlapping#input_of),
    /// [`chacha20_encrypted`](crate::specs::cha_cha20#chacha20_encrypted).
    ///
    /// </details>
    pub fn encrypt(&self, counter: Counter, in_out: Overlapping<'_>) {
        simd::run(KeyEncrypt {
            key: self,
            counter,
            in_out,
        })
    }

    #[inline(always)]
    fn encrypt_at(&self, counter: Counter, in_out: Overlapping<'_>) {
        let Overlapping { in_out, start } = in_out;
        self.encrypt_within(&counter, in_out, start);
    }

    /// Encrypts at most 64 bytes in place with block 0 of the keystream, and returns the counter of
    /// block 1. In Rust nothing checks this, and further bytes are encrypted with the blocks from 1 on.
    ///
    /// <details><summary>Contract</summary>
    ///
    /// ```text
    /// requires { N ≤ 64 }
    /// ensures encrypted { in_out.new ≡ chacha20_encrypted self.now 0 nonce in_out.old }
    /// ensures one { result ≡ record { number = 1; nonce = nonce } }
    /// ```
    ///
    /// Definitions: [`chacha20_encrypted`](crate::specs::cha_cha20#chacha20_encrypted).
    ///
    /// </details>
    #[inline(always)]
    pub fn encrypt_single_block_with_ctr_0<const N: usize>(
        &self,
        nonce: Nonce,
        in_out: &mut [u8; N],
    ) -> Counter {
        let (zero, one) = Counter::zero_one_less_safe(nonce);
        self.encrypt_within(&zero, in_out, 0);
        one
    }

    /// Computes the header protection mask of a sample (RFC 9001 section 5.4.4): 16 bytes in, 5 bytes out.
    ///
    /// <details><summary>Contract</summary>
    ///
    /// ```text
    /// ensures { result ≡ chacha_mask self.now sample }
    /// ```
    ///
    /// Definitions: [`chacha_mask`](crate::specs::mask#chacha_mask).
    ///
    /// </details>
    pub fn new_mask(&self, sample: Sample) -> [u8; 5] {
        simd::run(KeyNewMask { key: self, sample })
    }

    #[inline(always)]
    fn new_mask_at(&self, sample: Sample) -> [u8; 5] {
        let counter = Counter {
            words: le_words(&sample),
        };
        let block = self.keystream_block(&counter, 0);
        let mut mask = [0; 5];
        mask.copy_from_slice(&block[..5]);
        mask
    }

    /// Encrypts the bytes from `start` on, and writes the output to the front.
    // requires within { start ≤ length in_out.old }
    // requires counted { counter.now.number + div_ceil (length in_out.old - start) 64 ≤ 2 ^ 32 }
    // ensures { let input = drop start in_out.old in
    //     in_out.new ≡ chacha20_encrypted self.now counter.now.number counter.now.nonce input
    //     ++ drop (length input) in_out.old }
    #[inline(always)]
    fn encrypt_within(&self, counter: &Counter, in_out: &mut [u8], start: usize) {
        let len = in_out.len() - start;
        let mut j = 0;
        while BLOCK_LEN * j < len {
            let at = BLOCK_LEN * j;
            if len - at >= BATCH_LEN {
                let stream = self.four_keystream_blocks(counter, j as u32);
                xor_stream(in_out, start, at, BATCH_LEN, stream);
                j += 4;
            } else {
                let n = BLOCK_LEN.min(len - at);
                xor_stream(
                    in_out,
                    start,
                    at,
                    n,
                    self.keystream_block(counter, j as u32),
                );
                j += 1;
            }
        }
    }

    /// Returns block `j` of the keystream after the counter.
    // requires { counter.now.number + j < 2 ^ 32 }
    // ensures { result ≡ chacha20_block self.now (counter.now.number + j) counter.now.nonce }
    #[inline(always)]
    fn keystream_block(&self, counter: &Counter, j: u32) -> [u8; BLOCK_LEN] {
        state_block(&self.initial_state(counter, j))
    }

    /// Returns four blocks of the keystream, from block `j` after the counter on.
    // requires { counter.now.number + j + 4 ≤ 2 ^ 32 }
    // ensures { result ≡ each_below BATCH_LEN (stream_byte self.now (counter.now.number + j) counter.now.nonce) }
    #[inline(always)]
    fn four_keystream_blocks(&self, counter: &Counter, j: u32) -> [u8; BATCH_LEN] {
        let words = lanes::four_blocks(&self.initial_state(counter, j));
        let mut bytes = [0; BATCH_LEN];
        write_le_bytes(&words, &mut bytes);
        bytes
    }

    /// Returns the initial state of block `j` after the counter.
    // requires { counter.now.number + j < 2 ^ 32 }
    // ensures state { result
    //     ≡ initial_state self.now (counter.now.number + j) counter.now.nonce }
    // ensures word_12 { slice_index result 12 ≡ counter.now.number + j }
    // ensures counter_in_word_12 { (n : ℕ) → slice_set result 12 n
    //     ≡ initial_state self.now n counter.now.nonce }
    #[inline(always)]
    fn initial_state(&self, counter: &Counter, j: u32) -> State {
        let [c0, c1, c2, c3] = CONSTANTS;
        let [k0, k1, k2, k3, k4, k5, k6, k7] = self.words;
        let [number, n0, n1, n2] = counter.words;
        let ctr = number + j;
        [
            c0, c1, c2, c3, k0, k1, k2, k3, k4, k5, k6, k7, ctr, n0, n1, n2,
        ]
    }
}

/// `Key::encrypt` as a job.
struct KeyEncrypt<'a> {
    key: &'a Key,
    counter: Counter,
    in_out: Overlapping<'a>,
}

impl simd::Job for KeyEncrypt<'_> {
    type Output = ();

    #[inline(always)]
    fn run<V: simd::Level>(self) {
        self.key.encrypt_at(self.counter, self.in_out);
    }
}

/// `Key::new_mask` as a job.
struct KeyNewMask<'a> {
    key: &'a Key,
    sample: Sample,
}

impl simd::Job for KeyNewMask<'_> {
    type Output = [u8; 5];

    #[inline(always)]
    fn run<V: simd::Level>(self) -> [u8; 5] {
        self.key.new_mask_at(self.sample)
    }
}
