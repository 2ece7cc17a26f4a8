// Written by tools/rust from crates/aead_ciphers_base/src/shift.rt. Don't edit.
//! `shift_full_blocks`, which maps each block of an overlapping buffer by a closure, and writes the results at the front of its slice.

use crate::overlapping::{Chunk, Overlapping, chunk_at};

/// Passes each block of the input to `transform`, in order, and writes the blocks that it returns to the
/// front of the slice, in the same order. The items after them are unchanged.
///
/// The input must be whole blocks of at least one item.
///
/// <details><summary>Contract</summary>
///
/// ```text
/// requires some { 0 < C.chunk_len }
/// requires whole { input_len in_out % C.chunk_len ≡ 0 }
/// requires callable { TakesBlocks C.chunk_items F.FnMut C.chunk_len transform (input_of in_out) }
/// ensures { ShiftsBlocks C.chunk_items F.FnMut C.chunk_len transform
///     in_out.entry.in_out.now in_out.entry.start in_out.exit.0.now }
/// ```
///
/// Definitions: [`input_len`](crate::specs::overlapping#input_len),
/// [`TakesBlocks`](crate::specs::shift#TakesBlocks), [`input_of`](crate::specs::overlapping#input_of),
/// [`ShiftsBlocks`](crate::specs::shift#ShiftsBlocks).
///
/// </details>
pub fn shift_full_blocks<C: Chunk<u8>, F: FnMut(&C) -> C>(
    in_out: Overlapping<'_, u8>,
    mut transform: F,
) {
    let Overlapping { in_out, start } = in_out;
    let size = C::chunk_len();
    let count = (in_out.len() - start) / size;
    for i in 0..count {
        let from = i * size;
        let output = transform(chunk_at(in_out, start + from));
        let place = &mut in_out[from..from + size];
        output.put(place);
    }
}
