// Written by tools/rust from crates/aead_ciphers_base/src/aes/ctr32.rt. Don't edit.
//! AES counter mode in batches of four blocks (SP 800-38D section 6.5).

use super::{BLOCK_LEN, Counter, EncryptCtr32, KeyRef, Overlapping, Work, ZERO_BLOCK};
use crate::bb;

/// The length of a batch, in bytes: the four blocks that one pass of the cipher encrypts.
const BATCH_LEN: usize = 4 * BLOCK_LEN;

impl<'k> EncryptCtr32 for KeyRef<'k> {
    #[inline(always)]
    fn ctr32_encrypt_within(
        &self,
        in_out: Overlapping<'_>,
        counter: &mut Counter,
        work: &mut Work,
    ) {
        let Overlapping { in_out, start } = in_out;
        let len = in_out.len() - start;
        let mut done = 0;
        while done < len {
            let count = BATCH_LEN.min(len - done);
            let batch = &mut in_out[done..done + count + start];
            encrypt_batch(self, batch, start, counter, work);
            done += count;
        }
    }
}

/// Encrypts the one to four blocks from `start` on, and writes them to the front.
// requires within { start ≤ length in_out.old }
// requires whole { (length in_out.old - start) % 16 ≡ 0 }
// requires short { length in_out.old - start ≤ BATCH_LEN }
// requires sums { CanAdd work.old ((length in_out.old - start) / 16) 0 }
// ensures output { EncryptsToFront (aes key.now) counter.old start in_out.old in_out.new }
// ensures counter { Advances counter.old counter.new ((length in_out.old - start) / 16) }
// ensures worked { Adds work.old work.new ((length in_out.old - start) / 16) 0 }
#[inline(always)]
fn encrypt_batch(
    key: &KeyRef<'_>,
    in_out: &mut [u8],
    start: usize,
    counter: &mut Counter,
    work: &mut Work,
) {
    let blocks = (in_out.len() - start) / BLOCK_LEN;
    let keystream = key.encrypt_four(counter.next_four());
    for i in 0..blocks {
        let at = BLOCK_LEN * i;
        let from = start + at;
        let mut block = ZERO_BLOCK;
        block.copy_from_slice(&in_out[from..from + BLOCK_LEN]);
        bb::xor_assign_at_start(&mut block, &keystream[i]);
        in_out[at..at + BLOCK_LEN].copy_from_slice(&block);
    }
    counter.increment_by_less_safe(blocks as u32);
    work.add_blocks(blocks as u64);
}
