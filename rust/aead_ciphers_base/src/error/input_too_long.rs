// Written by tools/rust from crates/aead_ciphers_base/src/error/input_too_long.rt. Don't edit.
//! The error for an input that is too long.

use core::error::Error;
use core::fmt;

/// The error returned when an input is longer than the call allows.
///
/// <details><summary>Model</summary>
///
/// ```text
/// ghost Value = { T };
/// ghost view = { λ e. e.0 };
/// ```
///
/// </details>
#[derive(Clone, Copy, PartialEq, Eq, Debug)]
pub struct InputTooLongError<T = usize>(T);

impl<T> InputTooLongError<T> {
    /// Creates the error for the length of the input, in items.
    ///
    /// <details><summary>Contract</summary>
    ///
    /// ```text
    /// ensures { result ≡ imprecise_input_length }
    /// ```
    ///
    /// </details>
    pub fn new(imprecise_input_length: T) -> Self {
        InputTooLongError(imprecise_input_length)
    }

    /// Returns the length of the input, in items.
    ///
    /// <details><summary>Contract</summary>
    ///
    /// ```text
    /// ensures { result ≡ self }
    /// ```
    ///
    /// </details>
    pub fn value(self) -> T {
        let InputTooLongError(value) = self;
        value
    }
}

/// Displays as `input too long`.
///
/// <details><summary>Ghost items</summary>
///
/// ```text
/// // `Some` of what `{}` prints.
/// ghost output = { λ _. Some (codes "input too long") };
/// ```
///
/// </details>
impl<T> fmt::Display for InputTooLongError<T> {
    fn fmt(&self, f: &mut fmt::Formatter<'_>) -> fmt::Result {
        f.write_str("input too long")
    }
}

impl<T: fmt::Debug> Error for InputTooLongError<T> {}
