// Written by tools/rust from crates/aead_ciphers/src/aes_gcm/counter_mode.rt. Don't edit.
//! Counter mode of a text of any length (GCTR, SP 800-38D section 6.5).

use aead_ciphers_base::aes::{BLOCK_LEN, Counter, EncryptCtr32, Overlapping, Work};

/// The length of a chunk, in bytes: 192 blocks, as in ring.
pub(super) const CHUNK_LEN: usize = 192 * BLOCK_LEN;

/// The length of a batch, in bytes: sixteen blocks, which are whole passes of every cipher, so that no cipher has to say how
/// many its pass takes.
pub(super) const BATCH_LEN: usize = 16 * BLOCK_LEN;

/// The length of the buffer for at most four blocks, in bytes. The cipher of `aead_ciphers_base` encrypts them in one pass, and
/// that of `aead_ciphers_wide` by byte permutes.
pub(super) const FEW_LEN: usize = 4 * BLOCK_LEN;

/// Encrypts or decrypts the bytes from `start` on to the front of `in_out`, chunk by chunk, and returns how many they are.
// requires within { start ≤ length in_out.old }
// requires sums { CanAdd work.old ((length in_out.old - start + 15) / 16) 0 }
// ensures output { EncryptsToFront (A.cipher aes.now) counter start in_out.old in_out.new }
// ensures count { result ≡ length in_out.old - start }
// ensures worked { Adds work.old work.new ((length in_out.old - start + 15) / 16) 0 }
#[inline(always)]
pub(super) fn encrypt_within<A: EncryptCtr32>(
    aes: &A,
    mut counter: Counter,
    in_out: &mut [u8],
    start: usize,
    work: &mut Work,
) -> usize {
    let len = in_out.len() - start;
    let whole = whole_len(len);
    let mut done = 0;
    while done < whole {
        let count = (whole - done).min(CHUNK_LEN);
        let chunk = &mut in_out[done..done + count + start];
        encrypt_blocks(aes, &mut counter, chunk, start, work);
        done += count;
    }
    if whole < len {
        encrypt_rest(aes, counter, &mut in_out[whole..], start, work);
    }
    len
}

/// Returns how many of `len` bytes are encrypted where they are: all if they are whole blocks, otherwise whole batches.
// ensures aligned { result % 16 ≡ 0 }
// ensures within { result ≤ len }
// ensures rest { len < result + BATCH_LEN }
#[inline(always)]
pub(super) fn whole_len(len: usize) -> usize {
    if len % BLOCK_LEN == 0 {
        len
    } else {
        len / BATCH_LEN * BATCH_LEN
    }
}

/// Encrypts or decrypts the bytes from `start` on, which are whole blocks, to the front of `in_out`.
// requires within { start ≤ length in_out.old }
// requires whole { (length in_out.old - start) % 16 ≡ 0 }
// requires sums { CanAdd work.old ((length in_out.old - start) / 16) 0 }
// ensures output { EncryptsToFront (A.cipher aes.now) counter.old start in_out.old in_out.new }
// ensures counter { Advances counter.old counter.new ((length in_out.old - start) / 16) }
// ensures worked { Adds work.old work.new ((length in_out.old - start) / 16) 0 }
#[inline(always)]
pub(super) fn encrypt_blocks<A: EncryptCtr32>(
    aes: &A,
    counter: &mut Counter,
    in_out: &mut [u8],
    start: usize,
    work: &mut Work,
) {
    aes.ctr32_encrypt_within(Overlapping::within(in_out, start), counter, work);
}

/// Encrypts or decrypts the bytes from `start` on, which are fewer than a batch, to the front of `in_out`: pads them to
/// whole blocks in a buffer of its own.
///
/// A short last block thus shares a pass with the blocks before it: opening 17 bytes takes 0.71 of the instructions. On
/// planes of 256 bits, sealing 250 bytes takes 0.72 of the instructions that batches of eight blocks took. Up to four blocks
/// have a smaller buffer, of which fewer bytes are set to zero.
// requires within { start ≤ length in_out.old }
// requires short { length in_out.old < start + BATCH_LEN }
// requires sums { CanAdd work.old ((length in_out.old - start + 15) / 16) 0 }
// ensures output { EncryptsToFront (A.cipher aes.now) counter start in_out.old in_out.new }
// ensures worked { Adds work.old work.new ((length in_out.old - start + 15) / 16) 0 }
#[inline(always)]
pub(super) fn encrypt_rest<A: EncryptCtr32>(
    aes: &A,
    counter: Counter,
    in_out: &mut [u8],
    start: usize,
    work: &mut Work,
) {
    let whole = (in_out.len() - start).div_ceil(BLOCK_LEN) * BLOCK_LEN;
    if whole <= FEW_LEN {
        let mut padded = [0; FEW_LEN];
        encrypt_padded(aes, counter, in_out, start, &mut padded[..whole], work);
    } else {
        let mut padded = [0; BATCH_LEN];
        encrypt_padded(aes, counter, in_out, start, &mut padded[..whole], work);
    }
}

/// Encrypts or decrypts the bytes from `start` on to the front of `in_out`. The work is done in `padded`, which is as long as
/// these bytes when they are padded to whole blocks.
// requires within { start ≤ length in_out.old }
// requires room { length padded.old ≡ (length in_out.old - start + 15) / 16 * 16 }
// requires sums { CanAdd work.old ((length in_out.old - start + 15) / 16) 0 }
// ensures output { EncryptsToFront (A.cipher aes.now) counter start in_out.old in_out.new }
// ensures worked { Adds work.old work.new ((length in_out.old - start + 15) / 16) 0 }
#[inline(always)]
fn encrypt_padded<A: EncryptCtr32>(
    aes: &A,
    mut counter: Counter,
    in_out: &mut [u8],
    start: usize,
    padded: &mut [u8],
    work: &mut Work,
) {
    let rest = in_out.len() - start;
    padded[..rest].copy_from_slice(&in_out[start..]);
    encrypt_blocks(aes, &mut counter, padded, 0, work);
    in_out[..rest].copy_from_slice(&padded[..rest]);
}
