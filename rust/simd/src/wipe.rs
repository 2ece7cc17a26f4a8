//! Overwriting secrets.

use core::sync::atomic::{Ordering, compiler_fence};

/// A type of which each byte may be zero: integers, and arrays of such types.
///
/// # Safety
///
/// A value of zero bytes must be one of the type, and the type must have no padding.
pub unsafe trait Plain: Copy {}

// SAFETY: each byte of an integer may be zero, and it has no padding.
unsafe impl Plain for u8 {}
// SAFETY: as for `u8`.
unsafe impl Plain for u32 {}
// SAFETY: as for `u8`.
unsafe impl Plain for u64 {}
// SAFETY: as for `u8`.
unsafe impl Plain for usize {}
// SAFETY: an array has no bytes but those of its items.
unsafe impl<T: Plain, const N: usize> Plain for [T; N] {}

/// Overwrites a value with zeros. The compiler doesn't leave this out, even where the value is never read again.
#[inline]
pub fn wipe<T: Plain>(value: &mut T) {
    // SAFETY: `u8` has an alignment of 1, each byte of the value is initialized, since it has no padding, and zeros are a value.
    let bytes = unsafe {
        core::slice::from_raw_parts_mut(core::ptr::from_mut(value).cast::<u8>(), size_of::<T>())
    };
    // SAFETY: each eight bytes are a `u64`, and the reverse.
    let (front, numbers, back) = unsafe { bytes.align_to_mut::<u64>() };
    for byte in front.iter_mut().chain(back) {
        // SAFETY: a reference is valid for a write.
        unsafe { core::ptr::write_volatile(byte, 0) };
    }
    for number in numbers {
        // SAFETY: as above.
        unsafe { core::ptr::write_volatile(number, 0) };
    }
    compiler_fence(Ordering::SeqCst);
}
