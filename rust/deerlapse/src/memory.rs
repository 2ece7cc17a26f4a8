//! Growing a `Vec` by calls that return an error where the memory isn't there.
//!
//! The packages that stand on this one, and take a `Vec` to which they append, grow it by these calls alone.

use alloc::collections::TryReserveError;
use alloc::vec::Vec;
use core::error::Error;
use core::fmt;

/// The error of a call that found no memory.
#[derive(Clone, Copy, Debug, PartialEq, Eq)]
pub struct AllocError;

impl fmt::Display for AllocError {
    fn fmt(&self, f: &mut fmt::Formatter<'_>) -> fmt::Result {
        f.write_str("memory allocation failed")
    }
}

impl Error for AllocError {}

impl From<TryReserveError> for AllocError {
    fn from(_error: TryReserveError) -> Self {
        AllocError
    }
}

/// The error of a call that found no memory for a value, which it gives back.
#[derive(Clone, Copy, Debug, PartialEq, Eq)]
pub struct AllocFailed<T> {
    /// The value that wasn't stored.
    pub value: T,
}

impl<T> fmt::Display for AllocFailed<T> {
    fn fmt(&self, f: &mut fmt::Formatter<'_>) -> fmt::Result {
        AllocError.fmt(f)
    }
}

impl<T: fmt::Debug> Error for AllocFailed<T> {}

impl<T> From<AllocFailed<T>> for AllocError {
    fn from(_failed: AllocFailed<T>) -> Self {
        AllocError
    }
}

#[cfg(feature = "std")]
impl From<AllocError> for std::io::Error {
    fn from(_error: AllocError) -> Self {
        std::io::ErrorKind::OutOfMemory.into()
    }
}

/// The calls of a `Vec` that grow it, or change nothing and return an error.
pub trait TryGrow<T> {
    /// Reserves memory for `additional` more items.
    ///
    /// # Errors
    ///
    /// Fails if the memory isn't there. The `Vec` is then unchanged.
    fn try_grow(&mut self, additional: usize) -> Result<(), AllocError>;

    /// Appends an item.
    ///
    /// # Errors
    ///
    /// Gives the item back if the memory isn't there. The `Vec` is then unchanged.
    fn try_push(&mut self, item: T) -> Result<(), AllocFailed<T>>;

    /// Appends copies of the items.
    ///
    /// # Errors
    ///
    /// Fails if the memory isn't there. The `Vec` is then unchanged.
    fn try_extend_from_slice(&mut self, items: &[T]) -> Result<(), AllocError>
    where
        T: Copy;

    /// Shortens the `Vec` to `len` items, or appends copies of `item` until it has as many.
    ///
    /// # Errors
    ///
    /// Fails if the memory isn't there. The `Vec` is then unchanged.
    fn try_resize(&mut self, len: usize, item: T) -> Result<(), AllocError>
    where
        T: Copy;
}

impl<T> TryGrow<T> for Vec<T> {
    fn try_grow(&mut self, additional: usize) -> Result<(), AllocError> {
        Ok(self.try_reserve(additional)?)
    }

    fn try_push(&mut self, item: T) -> Result<(), AllocFailed<T>> {
        if self.try_reserve(1).is_err() {
            return Err(AllocFailed { value: item });
        }
        self.push(item);
        Ok(())
    }

    fn try_extend_from_slice(&mut self, items: &[T]) -> Result<(), AllocError>
    where
        T: Copy,
    {
        self.try_reserve(items.len())?;
        self.extend_from_slice(items);
        Ok(())
    }

    fn try_resize(&mut self, len: usize, item: T) -> Result<(), AllocError>
    where
        T: Copy,
    {
        self.try_reserve(len.saturating_sub(self.len()))?;
        self.resize(len, item);
        Ok(())
    }
}

/// Creates a `Vec` that holds nothing and has room for at least `capacity` items.
///
/// # Errors
///
/// Fails if the memory isn't there.
pub fn try_with_capacity<T>(capacity: usize) -> Result<Vec<T>, AllocError> {
    let mut items = Vec::new();
    items.try_reserve_exact(capacity)?;
    Ok(items)
}

/// Creates a `Vec` of copies of the items.
///
/// # Errors
///
/// Fails if the memory isn't there.
pub fn try_to_vec<T: Copy>(items: &[T]) -> Result<Vec<T>, AllocError> {
    let mut copies = try_with_capacity(items.len())?;
    copies.extend_from_slice(items);
    Ok(copies)
}
