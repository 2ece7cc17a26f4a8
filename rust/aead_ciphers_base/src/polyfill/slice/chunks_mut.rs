// Written by tools/rust from crates/aead_ciphers_base/src/polyfill/slice/chunks_mut.rt. Don't edit.
//! Views of a slice as whole blocks, for writing.

use super::AsChunks;

/// Splits a slice after the first `count` blocks of `N` items.
// requires { count * N ≤ length items.old }
// ensures front { result.0.now ≡ take (count * N) items.old }
// ensures back { result.1.now ≡ drop (count * N) items.old }
// ensures* writes_back { sem 𝓛 (LendsInTwo T.row items.entry result) }
#[inline(always)]
fn split_after_blocks<T, const N: usize>(items: &mut [T], count: usize) -> (&mut [T], &mut [T]) {
    items.split_at_mut(count * N)
}

/// Splits a slice after as many whole blocks of `N` items as fit.
// requires { 0 < N }
// ensures whole { result.0.now ≡ take (length items.old / N * N) items.old }
// ensures rest { result.1.now ≡ drop (length items.old / N * N) items.old }
// ensures* writes_back { sem 𝓛 (LendsInTwo T.row items.entry result) }
#[inline(always)]
fn split_after_whole_blocks<T, const N: usize>(items: &mut [T]) -> (&mut [T], &mut [T]) {
    let count = items.len() / N;
    split_after_blocks::<T, N>(items, count)
}

/// Splits a slice into a view of as many whole blocks of `N` items as fit, and the fewer than `N` items
/// after them.
///
/// # Examples
///
/// ```
/// use aead_ciphers_base::polyfill::slice::as_chunks_mut;
///
/// let mut items = [1, 2, 3, 4, 5, 6, 7];
/// let (mut view, rest) = as_chunks_mut::<_, 2>(&mut items);
/// assert_eq!(rest, [7]);
///
/// let (mut before, after) = view.split_at_mut(2);
/// assert_eq!(after.as_flattened(), [5, 6]);
/// before.as_flattened_mut().fill(0);
/// assert_eq!(items, [0, 0, 0, 0, 5, 6, 7]);
/// ```
///
/// <details><summary>Contract</summary>
///
/// ```text
/// requires { 0 < N }
/// ensures view { blocks N result.0.items.now ≡ blocks N items.old }
/// ensures whole { result.0.items.now ≡ take (length items.old / N * N) items.old }
/// ensures rest { result.1.now ≡ drop (length items.old / N * N) items.old }
/// ensures short { length result.1.now < N }
/// ensures* writes_back { sem 𝓛 (LendsInTwo T.row items.entry (result.0.items, result.1)) }
/// ```
///
/// Definitions: [`blocks`](crate::specs::blocks#blocks), [`LendsInTwo`](crate::specs::chunks_mut#LendsInTwo).
///
/// </details>
#[inline(always)]
pub fn as_chunks_mut<T, const N: usize>(items: &mut [T]) -> (AsChunksMut<'_, T, N>, &mut [T]) {
    let (whole, rest) = split_after_whole_blocks::<T, N>(items);
    (AsChunksMut { items: whole }, rest)
}

/// A mutable view of a slice as whole blocks of `N` items.
///
/// <details><summary>Invariant</summary>
///
/// ```text
/// pub ghost whole: { length items.now % N ≡ 0 }
/// ```
///
/// </details>
pub struct AsChunksMut<'a, T, const N: usize> {
    /// The items of all blocks.
    pub items: &'a mut [T],
}

/// Reborrows the blocks for reading.
///
/// <details><summary>Ghost items</summary>
///
/// ```text
/// // What holds of the argument of `from` and of what it returns.
/// ghost from_gives = { λ m v. v.items.now ≡ m.now.items.now };
/// ```
///
/// </details>
impl<'a, 'b, T, const N: usize> From<&'a AsChunksMut<'b, T, N>> for AsChunks<'a, T, N> {
    #[inline(always)]
    fn from(view: &'a AsChunksMut<'b, T, N>) -> Self {
        AsChunks { items: view.items }
    }
}

impl<'a, T, const N: usize> AsChunksMut<'a, T, N> {
    /// Returns the items of all blocks.
    ///
    /// <details><summary>Contract</summary>
    ///
    /// ```text
    /// ensures items { result.now ≡ self.now.items.now }
    /// ensures view { result.now ≡ joined (blocks N self.now.items.now) }
    /// ```
    ///
    /// Definitions: [`joined`](crate::specs::blocks#joined), [`blocks`](crate::specs::blocks#blocks).
    ///
    /// </details>
    #[inline(always)]
    pub fn as_flattened(&self) -> &[T] {
        self.items
    }

    /// Returns the items of all blocks, for writing.
    ///
    /// <details><summary>Contract</summary>
    ///
    /// ```text
    /// ensures items { result.now ≡ self.old.items.now }
    /// ensures* writes_back { sem 𝓛 (LendsItems T.row N.row self.entry result) }
    /// ```
    ///
    /// Definitions: [`LendsItems`](crate::specs::as_chunks_mut#LendsItems).
    ///
    /// </details>
    #[inline(always)]
    pub fn as_flattened_mut(&mut self) -> &mut [T] {
        self.items
    }

    /// Reborrows the blocks for writing.
    ///
    /// <details><summary>Contract</summary>
    ///
    /// ```text
    /// ensures items { result.items.now ≡ self.old.items.now }
    /// ensures* writes_back { sem 𝓛 (LendsItems T.row N.row self.entry result.items) }
    /// ```
    ///
    /// Definitions: [`LendsItems`](crate::specs::as_chunks_mut#LendsItems).
    ///
    /// </details>
    #[inline(always)]
    pub fn as_mut(&mut self) -> AsChunksMut<'_, T, N> {
        AsChunksMut {
            items: self.as_flattened_mut(),
        }
    }

    /// Reborrows the blocks for reading.
    ///
    /// <details><summary>Contract</summary>
    ///
    /// ```text
    /// ensures { result.items.now ≡ self.now.items.now }
    /// ```
    ///
    /// </details>
    #[inline(always)]
    pub fn as_ref(&self) -> AsChunks<'_, T, N> {
        AsChunks::from(self)
    }

    /// Divides the view in two: the first `mid` blocks, and the blocks after them.
    ///
    /// <details><summary>Contract</summary>
    ///
    /// ```text
    /// requires { mid ≤ length (blocks N self.old.items.now) }
    /// ensures before { blocks N result.0.items.now ≡ take mid (blocks N self.old.items.now) }
    /// ensures after { blocks N result.1.items.now ≡ drop mid (blocks N self.old.items.now) }
    /// ensures front { result.0.items.now ≡ take (mid * N) self.old.items.now }
    /// ensures back { result.1.items.now ≡ drop (mid * N) self.old.items.now }
    /// ensures* writes_back { sem 𝓛 (LendsParts T.row N.row self.entry result.0.items result.1.items) }
    /// ```
    ///
    /// Definitions: [`blocks`](crate::specs::blocks#blocks), [`LendsParts`](crate::specs::as_chunks_mut#LendsParts).
    ///
    /// </details>
    #[inline(always)]
    pub fn split_at_mut(&mut self, mid: usize) -> (AsChunksMut<'_, T, N>, AsChunksMut<'_, T, N>) {
        let (before, after) = split_after_blocks::<T, N>(self.as_flattened_mut(), mid);
        (AsChunksMut { items: before }, AsChunksMut { items: after })
    }

    /// Returns an iterator over views of `CHUNK_LEN` blocks each, in order. The last may have fewer.
    ///
    /// <details><summary>Contract</summary>
    ///
    /// ```text
    /// requires some { 0 < CHUNK_LEN }
    /// requires fits { CHUNK_LEN * N < 2 ^ 64 }
    /// ensures rest { chunks_mut_rest result.chunks ≡ self.old.items.now }
    /// ensures size { 0 < N → chunks_mut_size result.chunks ≡ CHUNK_LEN * N }
    /// ensures* kept { sem 𝓛 (KeepsCount T.row N.row self.entry) }
    /// ```
    ///
    /// Definitions: [`KeepsCount`](crate::specs::as_chunks_mut#KeepsCount).
    ///
    /// </details>
    #[inline(always)]
    pub fn chunks_mut<const CHUNK_LEN: usize>(&mut self) -> AsChunksMutChunksMutIter<'_, T, N> {
        chunks_of_blocks::<T, N, CHUNK_LEN>(self.as_flattened_mut())
    }
}

/// Returns an iterator over views of `CHUNK_LEN` blocks each of a slice of whole blocks, in order.
// requires some { 0 < CHUNK_LEN }
// requires fits { CHUNK_LEN * N < 2 ^ 64 }
// requires whole { length items.old % N ≡ 0 }
// ensures rest { chunks_mut_rest result.chunks ≡ items.old }
// ensures size { 0 < N → chunks_mut_size result.chunks ≡ CHUNK_LEN * N }
#[inline(always)]
fn chunks_of_blocks<T, const N: usize, const CHUNK_LEN: usize>(
    items: &mut [T],
) -> AsChunksMutChunksMutIter<'_, T, N> {
    // At least 1, since std's `chunks_mut` takes no size of 0, and `N` may be zero.
    let size = (CHUNK_LEN * N).max(1);
    AsChunksMutChunksMutIter {
        chunks: items.chunks_mut(size),
    }
}

/// The iterator that `AsChunksMut::chunks_mut` returns.
///
/// <details><summary>Invariant</summary>
///
/// ```text
/// pub ghost some: { 0 < chunks_mut_size chunks }
/// pub ghost whole_size: { 0 < N → chunks_mut_size chunks % N ≡ 0 }
/// pub ghost whole_rest: { length (chunks_mut_rest chunks) % N ≡ 0 }
/// ```
///
/// </details>
pub struct AsChunksMutChunksMutIter<'a, T, const N: usize> {
    /// The remaining items, in chunks of whole blocks.
    pub chunks: core::slice::ChunksMut<'a, T>,
}

/// <details><summary>Ghost items</summary>
///
/// ```text
/// // What holds of an iterator before a call of `next`, of what this returns, and of the iterator after it.
/// ghost next_gives = { λ s r t. (chunks_mut_size t.chunks ≡ chunks_mut_size s.chunks)
///     × MatchOption r
///     ((length (chunks_mut_rest s.chunks) ≡ 0) × (length (chunks_mut_rest t.chunks) ≡ 0))
///     (λ v. IsNextPart (chunks_mut_size s.chunks)
///     (chunks_mut_rest s.chunks) v.items.now (chunks_mut_rest t.chunks)) };
/// // How many items an iterator returns at most.
/// ghost remaining = { λ s. at_most (parts_left s.chunks) };
/// ```
///
/// Definitions: [`IsNextPart`](crate::specs::chunks_mut#IsNextPart),
/// [`parts_left`](crate::specs::chunks_mut#parts_left).
///
/// </details>
impl<'a, T, const N: usize> Iterator for AsChunksMutChunksMutIter<'a, T, N> {
    type Item = AsChunksMut<'a, T, N>;

    /// <details><summary>Contract</summary>
    ///
    /// ```text
    /// ensures lower { IsWithinCount result.0 (at_most (parts_left self.now.chunks)) }
    /// ensures upper { IfSome result.1 (UpTo (at_most (parts_left self.now.chunks))) }
    /// ensures exact { let count = parts_left self.now.chunks in result ≡ (count, Some count) }
    /// ```
    ///
    /// Definitions: [`parts_left`](crate::specs::chunks_mut#parts_left).
    ///
    /// </details>
    #[inline(always)]
    fn size_hint(&self) -> (usize, Option<usize>) {
        let count = self.chunks.len();
        (count, Some(count))
    }

    #[inline(always)]
    fn next(&mut self) -> Option<AsChunksMut<'a, T, N>> {
        match self.chunks.next() {
            Some(items) => Some(AsChunksMut { items }),
            None => None,
        }
    }
}
