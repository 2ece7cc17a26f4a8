// Written by tools/rust from crates/aead_ciphers_base/src/error.rt. Don't edit.
//! The errors that calls fail with: `Unspecified`, and three that hold an index or a length.

mod input_too_long;

use core::error::Error;
use core::fmt;
pub use input_too_long::InputTooLongError;

/// The error of a call that gives no reason for its failure.
#[derive(Clone, Copy, PartialEq, Eq, Debug)]
pub struct Unspecified;

/// Displays as `unspecified error`.
///
/// <details><summary>Ghost items</summary>
///
/// ```text
/// // `Some` of what `{}` prints.
/// ghost output = { λ _. Some (codes "unspecified error") };
/// ```
///
/// </details>
impl fmt::Display for Unspecified {
    fn fmt(&self, f: &mut fmt::Formatter<'_>) -> fmt::Result {
        f.write_str("unspecified error")
    }
}

impl Error for Unspecified {}

/// The error returned when a start or a block does not lie within its input.
///
/// <details><summary>Model</summary>
///
/// ```text
/// ghost Value = { ℕ };
/// ghost view = { λ e. e.0 };
/// ```
///
/// </details>
#[derive(Clone, Copy, PartialEq, Eq, Debug)]
pub struct IndexError(usize);

impl IndexError {
    /// Creates the error for a start, or for a number of items.
    ///
    /// <details><summary>Contract</summary>
    ///
    /// ```text
    /// ensures { result ≡ index }
    /// ```
    ///
    /// </details>
    pub fn new(index: usize) -> Self {
        IndexError(index)
    }

    /// Returns the start, or the number of items, that was asked for.
    ///
    /// <details><summary>Contract</summary>
    ///
    /// ```text
    /// ensures { result ≡ self }
    /// ```
    ///
    /// </details>
    pub fn value(self) -> usize {
        let IndexError(value) = self;
        value
    }
}

/// Displays as `index out of range`.
///
/// <details><summary>Ghost items</summary>
///
/// ```text
/// // `Some` of what `{}` prints.
/// ghost output = { λ _. Some (codes "index out of range") };
/// ```
///
/// </details>
impl fmt::Display for IndexError {
    fn fmt(&self, f: &mut fmt::Formatter<'_>) -> fmt::Result {
        f.write_str("index out of range")
    }
}

impl Error for IndexError {}

/// The error returned when an input does not have the length that was asked for.
///
/// <details><summary>Model</summary>
///
/// ```text
/// ghost Value = { ℕ };
/// ghost view = { λ e. e.0 };
/// ```
///
/// </details>
#[derive(Clone, Copy, PartialEq, Eq, Debug)]
pub struct LenMismatchError(usize);

impl LenMismatchError {
    /// Creates the error for the length that was asked for, in items.
    ///
    /// <details><summary>Contract</summary>
    ///
    /// ```text
    /// ensures { result ≡ len }
    /// ```
    ///
    /// </details>
    pub fn new(len: usize) -> Self {
        LenMismatchError(len)
    }

    /// Returns the length that was asked for, in items.
    ///
    /// <details><summary>Contract</summary>
    ///
    /// ```text
    /// ensures { result ≡ self }
    /// ```
    ///
    /// </details>
    pub fn value(self) -> usize {
        let LenMismatchError(value) = self;
        value
    }
}

/// Displays as `length mismatch`.
///
/// <details><summary>Ghost items</summary>
///
/// ```text
/// // `Some` of what `{}` prints.
/// ghost output = { λ _. Some (codes "length mismatch") };
/// ```
///
/// </details>
impl fmt::Display for LenMismatchError {
    fn fmt(&self, f: &mut fmt::Formatter<'_>) -> fmt::Result {
        f.write_str("length mismatch")
    }
}

impl Error for LenMismatchError {}
