// Written by tools/rust from crates/aead_ciphers_base/src/overlapping/array.rt. Don't edit.
//! Overlapping buffers whose input has a fixed number of items.

use super::Overlapping;
use crate::error::LenMismatchError;

/// An overlapping buffer whose input has exactly `N` items. `N` is not zero.
///
/// <details><summary>Invariant</summary>
///
/// ```text
/// pub ghost some: { 0 < N }
/// pub ghost exact: { input_len in_out ≡ N }
/// ```
///
/// Definitions: [`input_len`](crate::specs::overlapping#input_len).
///
/// </details>
pub struct Array<'o, T, const N: usize> {
    /// The whole buffer.
    pub in_out: Overlapping<'o, T>,
}

impl<'o, T, const N: usize> Array<'o, T, N> {
    /// Creates an `Array` from a buffer whose input has `N` items.
    ///
    /// Fails with a `LenMismatchError` of `N` if `N` is zero or the input has another length. The slice
    /// is then unchanged.
    ///
    /// <details><summary>Contract</summary>
    ///
    /// ```text
    /// ensures accepted { IsOk result ↔ ((0 < N) × (input_len in_out.entry ≡ N)) }
    /// ensures same_reference { IfOk result
    ///     (λ a. a.in_out.in_out.ghost_name ≡ in_out.entry.in_out.ghost_name) }
    /// ensures items { IfOk result (λ a. a.in_out.in_out.now ≡ in_out.entry.in_out.now) }
    /// ensures start { IfOk result (λ a. a.in_out.start ≡ in_out.entry.start) }
    /// ensures refused { IfErr result (λ e. e ≡ N) }
    /// ensures* kept { sem 𝓛 (KeptIfErr T.row in_out.entry.in_out
    ///     (λ a. a.in_out.in_out.ghost_name) result) }
    /// ```
    ///
    /// Definitions: [`input_len`](crate::specs::overlapping#input_len),
    /// [`KeptIfErr`](crate::specs::overlapping#KeptIfErr).
    ///
    /// </details>
    #[inline(always)]
    pub fn new(in_out: Overlapping<'o, T>) -> Result<Self, LenMismatchError> {
        let len = in_out.in_out.len() - in_out.start;
        if (N == 0) | (len != N) {
            return Err(LenMismatchError::new(N));
        }
        Ok(Array { in_out })
    }

    /// Returns the input: the slice from the start on.
    ///
    /// <details><summary>Contract</summary>
    ///
    /// ```text
    /// ensures { result.now ≡ input_of self.now.in_out }
    /// ```
    ///
    /// Definitions: [`input_of`](crate::specs::overlapping#input_of).
    ///
    /// </details>
    #[inline(always)]
    pub fn input(&self) -> &[T; N] {
        match simd::array_of::<_, N>(self.in_out.input()) {
            Some(input) => input,
            None => unreachable!(),
        }
    }

    /// Consumes the buffer, and returns the first `N` items of the slice, for writing.
    ///
    /// <details><summary>Contract</summary>
    ///
    /// ```text
    /// ensures items { result.now ≡ take N self.entry.in_out.in_out.now }
    /// ensures* writes_back { sem 𝓛 (LendsOutput T.row self.entry.in_out.in_out result N) }
    /// ```
    ///
    /// Definitions: [`LendsOutput`](crate::specs::overlapping#LendsOutput).
    ///
    /// </details>
    #[inline(always)]
    pub fn into_unwritten_output(self) -> &'o mut [T; N] {
        first_array::<T, N>(self.into_slice())
    }

    /// Consumes the buffer, and returns the whole slice.
    // ensures same_reference { result.ghost_name ≡ self.entry.in_out.in_out.ghost_name }
    // ensures items { result.now ≡ self.entry.in_out.in_out.now }
    #[inline(always)]
    fn into_slice(self) -> &'o mut [T] {
        let Overlapping { in_out, .. } = self.in_out;
        in_out
    }
}

/// Returns the first `N` items of a slice, for writing.
// requires { N ≤ length items.old }
// ensures value { result.now ≡ take N items.old }
// ensures* writes_back { sem 𝓛 (LendsOutput T.row items.entry result N) }
#[inline(always)]
fn first_array<T, const N: usize>(items: &mut [T]) -> &mut [T; N] {
    match items.first_chunk_mut::<N>() {
        Some(front) => front,
        None => unreachable!(),
    }
}
