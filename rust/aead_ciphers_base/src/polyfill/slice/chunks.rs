// Written by tools/rust from crates/aead_ciphers_base/src/polyfill/slice/chunks.rt. Don't edit.
//! Views of a slice as whole blocks, for reading.

use core::ops::Index;

/// A view of a slice as whole blocks of `N` items.
///
/// <details><summary>Invariant</summary>
///
/// ```text
/// pub ghost whole: { length items.now % N ≡ 0 }
/// ```
///
/// </details>
pub struct AsChunks<'a, T, const N: usize> {
    /// The items of all blocks.
    pub items: &'a [T],
}

/// <details><summary>Ghost items</summary>
///
/// ```text
/// // What holds of a value and of what `clone` returns for it.
/// ghost is_clone = { λ s r. r.items.now ≡ s.items.now };
/// // For which values `clone` doesn't fail.
/// ghost is_infallible = { λ _. ⊤ };
/// ```
///
/// </details>
impl<T, const N: usize> Clone for AsChunks<'_, T, N> {
    #[inline(always)]
    fn clone(&self) -> Self {
        *self
    }
}

impl<T, const N: usize> Copy for AsChunks<'_, T, N> {}

/// Splits a slice into a view of as many whole blocks of `N` items as fit, and the fewer than `N` items
/// after them.
///
/// # Examples
///
/// ```
/// use aead_ciphers_base::polyfill::slice::as_chunks;
///
/// let (blocks, rest) = as_chunks::<_, 2>(&[1, 2, 3, 4, 5]);
/// assert_eq!(blocks.len(), 2);
/// assert_eq!(blocks[1], [3, 4]);
/// assert_eq!(rest, [5]);
/// ```
///
/// <details><summary>Contract</summary>
///
/// ```text
/// requires { 0 < N }
/// ensures view { blocks N result.0.items.now ≡ blocks N items.now }
/// ensures whole { result.0.items.now ≡ take (length items.now / N * N) items.now }
/// ensures rest { result.1.now ≡ drop (length items.now / N * N) items.now }
/// ensures short { length result.1.now < N }
/// ```
///
/// Definitions: [`blocks`](crate::specs::blocks#blocks).
///
/// </details>
#[inline(always)]
pub fn as_chunks<T, const N: usize>(items: &[T]) -> (AsChunks<'_, T, N>, &[T]) {
    let count = items.len() / N * N;
    (
        AsChunks {
            items: &items[..count],
        },
        &items[count..],
    )
}

impl<'a, T, const N: usize> AsChunks<'a, T, N> {
    /// Creates a view of one block, or of no block if `N` is zero.
    ///
    /// <details><summary>Contract</summary>
    ///
    /// ```text
    /// ensures items { result.items.now ≡ block.now }
    /// ensures view { 0 < N → blocks N result.items.now ≡ block.now ∷ [] }
    /// ```
    ///
    /// Definitions: [`blocks`](crate::specs::blocks#blocks).
    ///
    /// </details>
    #[inline(always)]
    pub fn from_ref(block: &'a [T; N]) -> Self {
        AsChunks {
            items: block.as_slice(),
        }
    }

    /// Returns the items of all blocks.
    ///
    /// <details><summary>Contract</summary>
    ///
    /// ```text
    /// ensures items { result.now ≡ self.now.items.now }
    /// ensures view { result.now ≡ joined (blocks N self.now.items.now) }
    /// ```
    ///
    /// Definitions: [`joined`](crate::specs::blocks#joined), [`blocks`](crate::specs::blocks#blocks).
    ///
    /// </details>
    #[inline(always)]
    pub fn as_flattened(&self) -> &'a [T] {
        self.items
    }

    /// Returns `true` if the view has no items.
    ///
    /// <details><summary>Contract</summary>
    ///
    /// ```text
    /// ensures { IsTrue result ↔ (self.now.items.now ≡ []) }
    /// ```
    ///
    /// </details>
    #[inline(always)]
    pub fn is_empty(&self) -> bool {
        self.items.is_empty()
    }

    /// Returns the number of blocks, which is 0 if `N` is zero.
    ///
    /// <details><summary>Contract</summary>
    ///
    /// ```text
    /// ensures { result ≡ length (blocks N self.now.items.now) }
    /// ```
    ///
    /// Definitions: [`blocks`](crate::specs::blocks#blocks).
    ///
    /// </details>
    #[inline(always)]
    pub fn len(&self) -> usize {
        self.items.len().checked_div(N).unwrap_or(0)
    }
}

/// <details><summary>Ghost items</summary>
///
/// ```text
/// // For which values and indices `index` returns.
/// ghost can_index = { λ v i. i < length (blocks N v.items.now) };
/// // What holds of a value, of an index, and of what `index` returns.
/// ghost index_gives = { λ v i b. b ≡ slice_index_or (blocks N v.items.now) i b };
/// ```
///
/// Definitions: [`blocks`](crate::specs::blocks#blocks).
///
/// </details>
impl<T, const N: usize> Index<usize> for AsChunks<'_, T, N> {
    type Output = [T; N];

    #[inline(always)]
    fn index(&self, i: usize) -> &[T; N] {
        let start = i * N;
        let rest = &self.items[start..];
        match rest.first_chunk::<N>() {
            Some(block) => block,
            None => unreachable!(),
        }
    }
}

/// An iterator over the blocks of a view, in order.
pub struct AsChunksIter<'a, T, const N: usize> {
    /// The items of the remaining blocks.
    pub items: &'a [T],
}

/// <details><summary>Ghost items</summary>
///
/// ```text
/// // What holds of an iterator before a call of `next`, of what this returns, and of the iterator after it.
/// ghost next_gives = { YieldsFirstRef (λ s. blocks N s.items.now) };
/// // How many items an iterator returns at most.
/// ghost remaining = { item_count (λ s. blocks N s.items.now) };
/// ```
///
/// Definitions: [`blocks`](crate::specs::blocks#blocks).
///
/// </details>
impl<'a, T, const N: usize> Iterator for AsChunksIter<'a, T, N> {
    type Item = &'a [T; N];

    /// <details><summary>Contract</summary>
    ///
    /// ```text
    /// ensures lower { IsWithinCount result.0 (at_most (length (blocks N self.now.items.now))) }
    /// ensures upper { IfSome result.1 (UpTo (at_most (length (blocks N self.now.items.now)))) }
    /// ensures exact { let count = length (blocks N self.now.items.now) in result ≡ (count, Some count) }
    /// ```
    ///
    /// Definitions: [`blocks`](crate::specs::blocks#blocks).
    ///
    /// </details>
    #[inline(always)]
    fn size_hint(&self) -> (usize, Option<usize>) {
        if N == 0 {
            return (0, Some(0));
        }
        let count = self.items.len() / N;
        (count, Some(count))
    }

    #[inline(always)]
    fn next(&mut self) -> Option<&'a [T; N]> {
        if N == 0 {
            return None;
        }
        match self.items.split_first_chunk::<N>() {
            Some((block, rest)) => {
                self.items = rest;
                Some(block)
            }
            None => None,
        }
    }
}

/// <details><summary>Ghost items</summary>
///
/// ```text
/// // What holds of a value and of the iterator that is made of it.
/// ghost into_iter_gives = { λ v i. i.items.now ≡ v.items.now };
/// ```
///
/// </details>
impl<'a, T, const N: usize> IntoIterator for AsChunks<'a, T, N> {
    type Item = &'a [T; N];

    type IntoIter = AsChunksIter<'a, T, N>;

    #[inline(always)]
    fn into_iter(self) -> AsChunksIter<'a, T, N> {
        AsChunksIter { items: self.items }
    }
}

/// <details><summary>Ghost items</summary>
///
/// ```text
/// // What holds of the argument of `from` and of what it returns.
/// ghost from_gives = { λ b v. v.items.now ≡ b.now };
/// ```
///
/// </details>
impl<'a, T, const N: usize> From<&'a [T; N]> for AsChunks<'a, T, N> {
    #[inline(always)]
    fn from(block: &'a [T; N]) -> Self {
        AsChunks::from_ref(block)
    }
}

/// Views each block of 8 items as two blocks of 4.
///
/// <details><summary>Ghost items</summary>
///
/// ```text
/// // What holds of the argument of `from` and of what it returns.
/// ghost from_gives = { λ b v. v.items.now ≡ b.items.now };
/// ```
///
/// </details>
impl<'a, T> From<AsChunks<'a, T, 8>> for AsChunks<'a, T, 4> {
    #[inline(always)]
    fn from(view: AsChunks<'a, T, 8>) -> Self {
        AsChunks { items: view.items }
    }
}
