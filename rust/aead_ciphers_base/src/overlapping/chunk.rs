// Written by tools/rust from crates/aead_ciphers_base/src/overlapping/chunk.rt. Don't edit.
//! The trait `Chunk`, of arrays that stand for a fixed number of items of a slice, and closures that map one of them.

/// A chunk of a fixed number of items: `[T; N]`.
///
/// Calls that take a closure over chunks are generic over this trait, since a bound such as
/// `FnOnce(&[T; N]) -> [T; N]` may not name a const parameter.
///
/// <details><summary>Ghost items</summary>
///
/// ```text
/// ghost chunk_items: { Self → List T };
/// ghost chunk_len: { ℕ };
/// ```
///
/// </details>
pub trait Chunk<T>: Sized {
    /// Returns the number of items in a chunk.
    ///
    /// <details><summary>Contract</summary>
    ///
    /// ```text
    /// ensures { result ≡ chunk_len }
    /// ```
    ///
    /// </details>
    fn chunk_len() -> usize;

    /// Returns the items as a chunk, or `None` if their number is not that of a chunk.
    ///
    /// <details><summary>Contract</summary>
    ///
    /// ```text
    /// ensures found { IsSome result ↔ (length items.now ≡ chunk_len) }
    /// ensures same { IfSome result (λ c. chunk_items c.now ≡ items.now) }
    /// ```
    ///
    /// </details>
    fn of(items: &[T]) -> Option<&Self>;

    /// Writes the items of the chunk to `to`, which is as long.
    ///
    /// <details><summary>Contract</summary>
    ///
    /// ```text
    /// requires { length to.old ≡ chunk_len }
    /// ensures { to.new ≡ chunk_items self }
    /// ```
    ///
    /// </details>
    fn put(self, to: &mut [T]);
}

/// <details><summary>Ghost items</summary>
///
/// ```text
/// ghost chunk_items = { λ xs. xs };
/// ghost chunk_len = { N };
/// ```
///
/// </details>
impl<T, const N: usize> Chunk<T> for [T; N] {
    #[inline(always)]
    fn chunk_len() -> usize {
        N
    }

    #[inline(always)]
    fn of(items: &[T]) -> Option<&Self> {
        simd::array_of::<_, N>(items)
    }

    #[inline(always)]
    fn put(self, to: &mut [T]) {
        match simd::array_of_mut::<_, N>(to) {
            Some(place) => *place = self,
            None => unreachable!(),
        }
    }
}

/// Returns the chunk that starts at `start`.
// requires { start + C.chunk_len ≤ length items.now }
// ensures { C.chunk_items result.now ≡ take C.chunk_len (drop start items.now) }
#[inline(always)]
pub(crate) fn chunk_at<T, C: Chunk<T>>(items: &[T], start: usize) -> &C {
    let rest = &items[start..];
    match C::of(&rest[..C::chunk_len()]) {
        Some(chunk) => chunk,
        None => unreachable!(),
    }
}

/// Maps the chunk that starts at `start` with `f`, and writes the result to the front of the slice.
// requires callable { TakesChunk C.chunk_items F.FnOnce C.chunk_len f (drop start in_out.old) }
// requires room { start + C.chunk_len ≤ length in_out.old }
// ensures { MapsChunk C.chunk_items F.FnOnce C.chunk_len f in_out.old start in_out.new }
#[inline(always)]
pub(crate) fn map_chunk<T, C: Chunk<T>, F: FnOnce(&C) -> C>(in_out: &mut [T], start: usize, f: F) {
    let count = C::chunk_len();
    let output = f(chunk_at(in_out, start));
    let front = &mut in_out[..count];
    output.put(front);
}
