// Written by tools/rust from crates/aead_ciphers_base/src/overlapping/partial_block.rt. Don't edit.
//! Overlapping buffers whose input is shorter than a block.

use super::Overlapping;
use crate::error::InputTooLongError;

// ensures { result ≡ len }
#[inline(always)]
fn too_long(len: usize) -> InputTooLongError {
    InputTooLongError::new(len)
}

/// An overlapping buffer whose input has fewer than `BLOCK_LEN` items.
///
/// <details><summary>Invariant</summary>
///
/// ```text
/// pub ghost within: { start ≤ length in_out.now }
/// pub ghost short: { length in_out.now - start < BLOCK_LEN }
/// ```
///
/// </details>
pub struct PartialBlock<'i, T, const BLOCK_LEN: usize> {
    /// The whole slice.
    pub in_out: &'i mut [T],
    /// The index at which the input starts, in items.
    pub start: usize,
}

impl<'i, T, const BLOCK_LEN: usize> PartialBlock<'i, T, BLOCK_LEN> {
    /// Creates a `PartialBlock` from a buffer whose input has fewer than `BLOCK_LEN` items.
    ///
    /// Fails with an `InputTooLongError` of the length of the input if that is at least `BLOCK_LEN`. The
    /// slice is then unchanged.
    ///
    /// <details><summary>Contract</summary>
    ///
    /// ```text
    /// ensures accepted { IsOk result ↔ (input_len in_out.entry < BLOCK_LEN) }
    /// ensures same_reference { IfOk result
    ///     (λ b. b.in_out.ghost_name ≡ in_out.entry.in_out.ghost_name) }
    /// ensures items { IfOk result (λ b. b.in_out.now ≡ in_out.entry.in_out.now) }
    /// ensures start { IfOk result (λ b. b.start ≡ in_out.entry.start) }
    /// ensures refused { IfErr result (λ e. e ≡ input_len in_out.entry) }
    /// ensures* kept { sem 𝓛 (KeptIfErr T.row in_out.entry.in_out
    ///     (λ b. b.in_out.ghost_name) result) }
    /// ```
    ///
    /// Definitions: [`input_len`](crate::specs::overlapping#input_len),
    /// [`KeptIfErr`](crate::specs::overlapping#KeptIfErr).
    ///
    /// </details>
    #[inline(always)]
    pub fn new(in_out: Overlapping<'i, T>) -> Result<Self, InputTooLongError> {
        let Overlapping { in_out, start } = in_out;
        let len = in_out.len() - start;
        if len >= BLOCK_LEN {
            return Err(too_long(len));
        }
        Ok(PartialBlock { in_out, start })
    }

    /// Returns the input: the slice from the start on.
    ///
    /// <details><summary>Contract</summary>
    ///
    /// ```text
    /// ensures { result.now ≡ drop self.now.start self.now.in_out.now }
    /// ```
    ///
    /// </details>
    #[inline(always)]
    pub fn input(&self) -> &[T] {
        &self.in_out[self.start..]
    }

    /// Returns the length of the input, in items.
    ///
    /// <details><summary>Contract</summary>
    ///
    /// ```text
    /// ensures { result ≡ length self.now.in_out.now - self.now.start }
    /// ```
    ///
    /// </details>
    #[inline(always)]
    pub fn len(&self) -> usize {
        self.in_out.len() - self.start
    }

    /// Overwrites the front of the slice with the first items of `padded`, as many as the input has. The
    /// items after them are unchanged.
    ///
    /// <details><summary>Contract</summary>
    ///
    /// ```text
    /// ensures { self.exit.0.now
    ///     ≡ take (length self.entry.in_out.now - self.entry.start) padded
    ///     ++ drop (length self.entry.in_out.now - self.entry.start) self.entry.in_out.now }
    /// ```
    ///
    /// </details>
    #[inline(always)]
    pub fn overwrite_at_start(self, padded: [T; BLOCK_LEN])
    where
        T: Copy,
    {
        let PartialBlock { in_out, start } = self;
        let count = in_out.len() - start;
        let output = &mut in_out[..count];
        output.copy_from_slice(&padded[..count]);
    }
}
