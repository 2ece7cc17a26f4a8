//! Slices as arrays of the same length.

/// Returns the slice as an array, or `None` if it has another length. Rust 1.93 and later have `<[T]>::as_array`.
#[inline(always)]
pub fn array_of<T, const N: usize>(slice: &[T]) -> Option<&[T; N]> {
    slice.try_into().ok()
}

/// Returns the slice as an array that can be written, or `None` if it has another length.
#[inline(always)]
pub fn array_of_mut<T, const N: usize>(slice: &mut [T]) -> Option<&mut [T; N]> {
    slice.try_into().ok()
}
