// Written by tools/rust from crates/aead_ciphers_wide/src/aes/ctr32.rt. Don't edit.
//! Counter mode in batches of eight or sixteen blocks (SP 800-38D section 6.5).

use super::counters::{counters, sixteen_counters};
use super::{BlockKeyRef, KeyRef, PLANES_OF_256_BITS};
use aead_ciphers_base::aes::{BLOCK_LEN, Block, Counter, EncryptCtr32, Overlapping, Work};
use simd::u8x16;

/// The number of blocks that one pass of the cipher encrypts on planes of 128 bits.
const MANY: usize = 8;

/// The length of a batch of these blocks, in bytes.
pub(crate) const BATCH_LEN: usize = MANY * BLOCK_LEN;

/// The length of a batch of the sixteen blocks that one pass encrypts on planes of 256 bits.
const LONG_BATCH_LEN: usize = 16 * BLOCK_LEN;

/// The number of blocks up to which byte permutes take less time than a pass over planes.
const FEW: usize = 4;

impl<'k, V: simd::Level> EncryptCtr32 for KeyRef<'k, V> {
    #[inline(always)]
    fn ctr32_encrypt_within(
        &self,
        in_out: Overlapping<'_>,
        counter: &mut Counter,
        work: &mut Work,
    ) {
        let Overlapping { in_out, start } = in_out;
        let len = in_out.len() - start;
        let batch_len = if V::HAS_256_BITS && self.width == PLANES_OF_256_BITS {
            LONG_BATCH_LEN
        } else {
            BATCH_LEN
        };
        let mut done = 0;
        while done < len {
            let count = batch_len.min(len - done);
            let batch = &mut in_out[done..done + count + start];
            encrypt_batch(self, batch, start, counter, work);
            done += count;
        }
    }
}

/// Encrypts the one to sixteen blocks from `start` on, and writes them to the front.
// requires within { start ≤ length in_out.old }
// requires whole { (length in_out.old - start) % 16 ≡ 0 }
// requires short { length in_out.old - start ≤ LONG_BATCH_LEN }
// requires sums { CanAdd work.old ((length in_out.old - start) / 16) 0 }
// ensures output { EncryptsToFront (aes key.now) counter.old start in_out.old in_out.new }
// ensures counter { Advances counter.old counter.new ((length in_out.old - start) / 16) }
// ensures worked { Adds work.old work.new ((length in_out.old - start) / 16) 0 }
#[inline(always)]
fn encrypt_batch<V: simd::Level>(
    key: &KeyRef<'_, V>,
    in_out: &mut [u8],
    start: usize,
    counter: &mut Counter,
    work: &mut Work,
) {
    let blocks = (in_out.len() - start) / BLOCK_LEN;
    if blocks <= FEW {
        encrypt_few(&key.as_block_key_ref(), in_out, start, counter, blocks);
    } else if blocks <= MANY {
        encrypt_up_to_eight(key, in_out, start, counter, blocks);
    } else {
        encrypt_up_to_sixteen(key, in_out, start, counter, blocks);
    }
    counter.increment_by_less_safe(blocks as u32);
    work.add_blocks(blocks as u64);
}

/// Encrypts the `count` blocks from `start` on in one pass over planes of 128 bits, and writes them to the front.
// requires within { length in_out.old ≡ start + 16 * count }
// requires count { count ≤ MANY }
// ensures { EncryptsToFront (aes key.now) counter.now start in_out.old in_out.new }
#[inline(always)]
fn encrypt_up_to_eight<V: simd::Level>(
    key: &KeyRef<'_, V>,
    in_out: &mut [u8],
    start: usize,
    counter: &Counter,
    count: usize,
) {
    V::outlined(EncryptUpToEight {
        key,
        in_out,
        start,
        counter,
        count,
        level: core::marker::PhantomData::<V>,
    })
}

/// A call of `encrypt_up_to_eight`.
struct EncryptUpToEight<'a, V: simd::Level> {
    key: &'a KeyRef<'a, V>,
    in_out: &'a mut [u8],
    start: usize,
    counter: &'a Counter,
    count: usize,
    level: core::marker::PhantomData<V>,
}

impl<V: simd::Level> simd::Call for EncryptUpToEight<'_, V> {
    type Output = ();

    #[inline(always)]
    fn call(self) {
        let EncryptUpToEight {
            key,
            in_out,
            start,
            counter,
            count,
            ..
        } = self;
        let keystream = key.encrypt_eight(counters::<V>(counter));
        // With a constant for the number, the keystream of a whole batch stays in registers.
        if count == 8 {
            add_keystream(key, in_out, start, counter, keystream, 8);
        } else {
            add_keystream(key, in_out, start, counter, keystream, count);
        }
    }
}

/// Encrypts the `count` blocks from `start` on in one pass over planes of 256 bits, and writes them to the front.
// requires within { length in_out.old ≡ start + 16 * count }
// requires count { count ≤ 16 }
// ensures { EncryptsToFront (aes key.now) counter.now start in_out.old in_out.new }
#[inline(always)]
fn encrypt_up_to_sixteen<V: simd::Level>(
    key: &KeyRef<'_, V>,
    in_out: &mut [u8],
    start: usize,
    counter: &Counter,
    count: usize,
) {
    V::outlined(EncryptUpToSixteen {
        key,
        in_out,
        start,
        counter,
        count,
        level: core::marker::PhantomData::<V>,
    })
}

/// A call of `encrypt_up_to_sixteen`.
struct EncryptUpToSixteen<'a, V: simd::Level> {
    key: &'a KeyRef<'a, V>,
    in_out: &'a mut [u8],
    start: usize,
    counter: &'a Counter,
    count: usize,
    level: core::marker::PhantomData<V>,
}

impl<V: simd::Level> simd::Call for EncryptUpToSixteen<'_, V> {
    type Output = ();

    #[inline(always)]
    fn call(self) {
        let EncryptUpToSixteen {
            key,
            in_out,
            start,
            counter,
            count,
            ..
        } = self;
        let keystream = key.encrypt_sixteen(sixteen_counters::<V>(counter));
        if count == 16 {
            add_keystream(key, in_out, start, counter, keystream, 16);
        } else {
            add_keystream(key, in_out, start, counter, keystream, count);
        }
    }
}

/// Encrypts the `count` blocks from `start` on, at most four, two at a time, by byte permutes, and writes them to the front.
// requires within { length in_out.old ≡ start + 16 * count }
// requires few { count ≤ FEW }
// ensures { EncryptsToFront (aes key.now) counter.now start in_out.old in_out.new }
#[inline(always)]
fn encrypt_few<V: simd::Level>(
    key: &BlockKeyRef<'_, V>,
    in_out: &mut [u8],
    start: usize,
    counter: &Counter,
    count: usize,
) {
    V::outlined(EncryptFew {
        key,
        in_out,
        start,
        counter,
        count,
        level: core::marker::PhantomData::<V>,
    })
}

/// A call of `encrypt_few`.
struct EncryptFew<'a, V: simd::Level> {
    key: &'a BlockKeyRef<'a, V>,
    in_out: &'a mut [u8],
    start: usize,
    counter: &'a Counter,
    count: usize,
    level: core::marker::PhantomData<V>,
}

impl<V: simd::Level> simd::Call for EncryptFew<'_, V> {
    type Output = ();

    #[inline(always)]
    fn call(self) {
        let EncryptFew {
            key,
            in_out,
            start,
            counter,
            count,
            ..
        } = self;
        for i in 0..count / 2 {
            let at = 2 * BLOCK_LEN * i;
            let first = counter.plus((2 * i) as u32);
            let second = counter.plus((2 * i + 1) as u32);
            let (first, second) = key.encrypt_two(first, second);
            add_block::<V>(in_out, at, start + at, first);
            add_block::<V>(in_out, at + BLOCK_LEN, start + at + BLOCK_LEN, second);
        }
        if count % 2 == 1 {
            let at = BLOCK_LEN * (count - 1);
            let last = key.encrypt_one(counter.plus((count - 1) as u32));
            add_block::<V>(in_out, at, start + at, last);
        }
    }
}

/// Adds the first `count` blocks of keystream to those from `start` on, and writes the sums to the front.
// requires within { length in_out.old ≡ start + 16 * count }
// requires count { count ≤ N }
// requires keystream { (i : ℕ) → i < count
//     → IsKeystream (aes key.now) counter.now (slice_index_or keystream i []) i }
// ensures { EncryptsToFront (aes key.now) counter.now start in_out.old in_out.new }
#[inline(always)]
fn add_keystream<const N: usize, V: simd::Level>(
    _key: &KeyRef<'_, V>,
    in_out: &mut [u8],
    start: usize,
    _counter: &Counter,
    keystream: [Block; N],
    count: usize,
) {
    let mut sums = keystream;
    let len = BLOCK_LEN * count;
    for (sum, block) in sums[..count]
        .iter_mut()
        .zip(in_out[start..][..len].chunks_exact(BLOCK_LEN))
    {
        *sum = (u8x16::<V>::from_slice(block) ^ u8x16::<V>::from_array(*sum)).to_array();
    }
    in_out[..len].copy_from_slice(sums[..count].as_flattened());
}

/// Adds `block` to the block at `from`, and writes the sum to `at`.
// requires read { from + 16 ≤ length in_out.old }
// requires written { at + 16 ≤ length in_out.old }
// ensures { in_out.new ≡ put_chunk at in_out.old (chunk from 16 in_out.old ⊕ block) }
#[inline(always)]
fn add_block<V: simd::Level>(in_out: &mut [u8], at: usize, from: usize, block: Block) {
    let sum = u8x16::<V>::from_slice(&in_out[from..]) ^ u8x16::<V>::from_array(block);
    sum.copy_to_slice(&mut in_out[at..]);
}
