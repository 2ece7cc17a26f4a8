// Written by tools/rust from crates/aead_ciphers_base/src/overlapping/base.rt. Don't edit.
//! `Overlapping`, a slice with a start: the input is the slice from the start on, and the output is its front.

use super::{Chunk, map_chunk};
use crate::error::IndexError;
use core::ops::RangeFrom;

/// A slice that is read from `start` on and written from the front on.
///
/// # Examples
///
/// ```
/// use aead_ciphers_base::error::IndexError;
/// use aead_ciphers_base::overlapping::Overlapping;
///
/// let mut items = [1, 2, 3, 4, 5, 6];
/// let front = Overlapping::new(&mut items, 2..)?.copy_within();
/// assert_eq!(front, [3, 4, 5, 6]);
/// assert_eq!(items, [3, 4, 5, 6, 5, 6]);
/// # Ok::<(), IndexError>(())
/// ```
///
/// <details><summary>Invariant</summary>
///
/// ```text
/// pub ghost within: { start ≤ length in_out.now }
/// ```
///
/// </details>
pub struct Overlapping<'o, T> {
    /// The whole slice.
    pub in_out: &'o mut [T],
    /// The index at which the input starts, in items.
    pub start: usize,
}

/// Creates a buffer whose input is the whole slice.
///
/// <details><summary>Ghost items</summary>
///
/// ```text
/// // What holds of the argument of `from` and of what it returns.
/// ghost from_gives = { λ s o.
///     (o.in_out.ghost_name ≡ s.ghost_name) × (o.in_out.now ≡ s.now) × (o.start ≡ 0) };
/// ```
///
/// </details>
impl<'o, T> From<&'o mut [T]> for Overlapping<'o, T> {
    #[inline(always)]
    fn from(in_out: &'o mut [T]) -> Self {
        Overlapping { in_out, start: 0 }
    }
}

impl<'o, T> Overlapping<'o, T> {
    /// Creates a buffer whose input is `in_out` from `src.start` on.
    ///
    /// Fails with an `IndexError` of `src.start` if it is greater than the length of the slice. The
    /// slice is then unchanged.
    ///
    /// <details><summary>Contract</summary>
    ///
    /// ```text
    /// ensures accepted { IsOk result ↔ (src.start ≤ length in_out.old) }
    /// ensures same_reference { IfOk result (λ o. o.in_out.ghost_name ≡ in_out.entry.ghost_name) }
    /// ensures items { IfOk result (λ o. o.in_out.now ≡ in_out.old) }
    /// ensures start { IfOk result (λ o. o.start ≡ src.start) }
    /// ensures refused { IfErr result (λ e. e ≡ src.start) }
    /// ensures* kept { sem 𝓛 (KeptIfErr T.row in_out.entry (λ o. o.in_out.ghost_name) result) }
    /// ```
    ///
    /// Definitions: [`KeptIfErr`](crate::specs::overlapping#KeptIfErr).
    ///
    /// </details>
    #[inline(always)]
    pub fn new(in_out: &'o mut [T], src: RangeFrom<usize>) -> Result<Self, IndexError> {
        let start = src.start;
        if start > in_out.len() {
            return Err(IndexError::new(start));
        }
        Ok(Overlapping { in_out, start })
    }

    /// Creates a buffer whose input starts at `start`, without a check. `start` must be at most the length
    /// of the slice. In Rust a call of the buffer may otherwise panic.
    ///
    /// <details><summary>Contract</summary>
    ///
    /// ```text
    /// requires { start ≤ length in_out.old }
    /// ensures same_reference { result.in_out.ghost_name ≡ in_out.entry.ghost_name }
    /// ensures items { result.in_out.now ≡ in_out.old }
    /// ensures start { result.start ≡ start }
    /// ```
    ///
    /// </details>
    #[inline(always)]
    pub fn within(in_out: &'o mut [T], start: usize) -> Self {
        Overlapping { in_out, start }
    }

    /// Returns the length of the input, in items.
    ///
    /// <details><summary>Contract</summary>
    ///
    /// ```text
    /// ensures { result ≡ input_len self.now }
    /// ```
    ///
    /// Definitions: [`input_len`](crate::specs::overlapping#input_len).
    ///
    /// </details>
    #[inline(always)]
    pub fn len(&self) -> usize {
        self.in_out.len() - self.start
    }

    /// Returns the input: the slice from the start on.
    ///
    /// <details><summary>Contract</summary>
    ///
    /// ```text
    /// ensures { result.now ≡ input_of self.now }
    /// ```
    ///
    /// Definitions: [`input_of`](crate::specs::overlapping#input_of).
    ///
    /// </details>
    #[inline(always)]
    pub fn input(&self) -> &[T] {
        &self.in_out[self.start..]
    }

    /// Consumes the buffer, and returns the whole slice and the range of its input.
    ///
    /// <details><summary>Contract</summary>
    ///
    /// ```text
    /// ensures same_reference { result.0.ghost_name ≡ self.entry.in_out.ghost_name }
    /// ensures items { result.0.now ≡ self.entry.in_out.now }
    /// ensures start { result.1.start ≡ self.entry.start }
    /// ```
    ///
    /// </details>
    #[inline(always)]
    pub fn into_slice_src_mut(self) -> (&'o mut [T], RangeFrom<usize>) {
        let Overlapping { in_out, start } = self;
        (in_out, start..)
    }

    /// Consumes the buffer, and returns the front of the slice, as long as the input, for writing.
    ///
    /// <details><summary>Contract</summary>
    ///
    /// ```text
    /// ensures items { result.now ≡ take (input_len self.entry) self.entry.in_out.now }
    /// ensures* writes_back { sem 𝓛 (LendsOutput T.row self.entry.in_out result
    ///     (input_len self.entry)) }
    /// ```
    ///
    /// Definitions: [`input_len`](crate::specs::overlapping#input_len),
    /// [`LendsOutput`](crate::specs::overlapping#LendsOutput).
    ///
    /// </details>
    #[inline(always)]
    pub fn into_unwritten_output(self) -> &'o mut [T] {
        let Overlapping { in_out, start } = self;
        let count = in_out.len() - start;
        &mut in_out[..count]
    }

    /// Copies the input to the front of the slice, and returns the buffer. The items after the copy are
    /// unchanged.
    // ensures same_reference { result.in_out.ghost_name ≡ self.entry.in_out.ghost_name }
    // ensures items { result.in_out.now ≡ input_of self.entry ++ after_output self.entry }
    // ensures start { result.start ≡ self.entry.start }
    #[inline(always)]
    fn copied_to_front(self) -> Self
    where
        T: Copy,
    {
        let Overlapping { in_out, start } = self;
        in_out.copy_within(start.., 0);
        Self { in_out, start }
    }

    /// Copies the input to the front of the slice, and returns that front, for writing.
    ///
    /// <details><summary>Contract</summary>
    ///
    /// ```text
    /// ensures items { result.now ≡ input_of self.entry }
    /// ensures* writes_back { sem 𝓛 (LendsOutput T.row self.entry.in_out result
    ///     (input_len self.entry)) }
    /// ```
    ///
    /// Definitions: [`input_of`](crate::specs::overlapping#input_of),
    /// [`LendsOutput`](crate::specs::overlapping#LendsOutput), [`input_len`](crate::specs::overlapping#input_len).
    ///
    /// </details>
    #[inline(always)]
    pub fn copy_within(self) -> &'o mut [T]
    where
        T: Copy,
    {
        self.copied_to_front().into_unwritten_output()
    }

    /// Maps the first chunk of the input with `f`, if there is one, and returns the buffer.
    // requires { C.chunk_len ≤ input_len self
    //     → TakesChunk C.chunk_items F.FnOnce C.chunk_len f (input_of self) }
    // ensures same_reference { result.in_out.ghost_name ≡ self.entry.in_out.ghost_name }
    // ensures mapped { C.chunk_len ≤ input_len self.entry
    //     → MapsChunk C.chunk_items F.FnOnce C.chunk_len f self.entry.in_out.now self.entry.start
    //     result.in_out.now }
    // ensures kept { input_len self.entry < C.chunk_len
    //     → result.in_out.now ≡ self.entry.in_out.now }
    // ensures same_length { length result.in_out.now ≡ length self.entry.in_out.now }
    // ensures start { result.start ≡ self.entry.start }
    // ensures count { result.count ≡ C.chunk_len }
    #[inline(always)]
    fn first_chunk_mapped<C: Chunk<T>, F: FnOnce(&C) -> C>(self, f: F) -> FirstMapped<'o, T> {
        let Overlapping { in_out, start } = self;
        let count = C::chunk_len();
        if count <= in_out.len() - start {
            map_chunk(in_out, start, f);
        }
        FirstMapped {
            in_out,
            start,
            count,
        }
    }

    /// Maps the first chunk of the input with `f`, writes the result to the front of the slice, and
    /// returns a buffer of the slice after it, with the same start.
    ///
    /// Fails with an `IndexError` of the length of a chunk if the input is shorter. `f` is then not
    /// called, and the slice is unchanged.
    ///
    /// <details><summary>Contract</summary>
    ///
    /// ```text
    /// requires { C.chunk_len ≤ input_len self
    ///     → TakesChunk C.chunk_items F.FnOnce C.chunk_len f (input_of self) }
    /// ensures accepted { IsOk result ↔ (C.chunk_len ≤ input_len self.entry) }
    /// ensures rest { IfOk result (λ o. o.in_out.now ≡ drop C.chunk_len self.entry.in_out.now) }
    /// ensures start { IfOk result (λ o. o.start ≡ self.entry.start) }
    /// ensures refused { IfErr result (λ e. e ≡ C.chunk_len) }
    /// ensures* writes_back { sem 𝓛 (LendsRest T.row C.chunk_items F.FnOnce C.chunk_len f
    ///     self.entry result) }
    /// ```
    ///
    /// Definitions: [`input_len`](crate::specs::overlapping#input_len),
    /// [`TakesChunk`](crate::specs::overlapping#TakesChunk), [`input_of`](crate::specs::overlapping#input_of),
    /// [`LendsRest`](crate::specs::overlapping#LendsRest).
    ///
    /// </details>
    #[inline(always)]
    pub fn split_first_chunk<C: Chunk<T>, F: FnOnce(&C) -> C>(
        self,
        f: F,
    ) -> Result<Self, IndexError> {
        let FirstMapped {
            in_out,
            start,
            count,
        } = self.first_chunk_mapped(f);
        if in_out.len() - start < count {
            return Err(IndexError::new(count));
        }
        Ok(Overlapping {
            in_out: &mut in_out[count..],
            start,
        })
    }
}

/// A buffer, and the number of items in a chunk.
// Invariant:
// ghost within: { start ≤ length in_out.now }
struct FirstMapped<'o, T> {
    in_out: &'o mut [T],
    start: usize,
    count: usize,
}
