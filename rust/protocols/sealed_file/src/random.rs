// Written by tools/rust from crates/sealed_file/src/random.rt. Don't edit.
//! The random bytes of a sealed file: its context and its prefix.

use crate::header::RANDOM_LEN;
use std::io;
use std::io::Read;

/// The random bytes of one file: its context and its prefix.
///
/// Sealing takes it by value, and it cannot be copied, so that no two files are sealed under the same one.
///
/// <details><summary>Model</summary>
///
/// ```text
/// ghost Value = { List ℕ };
/// ghost view = { λ random. random.bytes };
/// ```
///
/// </details>
pub struct FileRandom {
    bytes: [u8; RANDOM_LEN],
}

impl FileRandom {
    /// Creates the random bytes of a file from those in its header.
    // ensures { result ≡ bytes }
    pub(crate) fn of_bytes(bytes: [u8; RANDOM_LEN]) -> FileRandom {
        FileRandom { bytes }
    }

    /// Returns the bytes.
    // ensures { result.now ≡ self.now }
    pub(crate) fn as_bytes(&self) -> &[u8; RANDOM_LEN] {
        &self.bytes
    }

    /// Draws the random bytes of a file from a source, such as the system's generator.
    ///
    /// # Errors
    ///
    /// Fails with the error of the source.
    ///
    /// <details><summary>Contract</summary>
    ///
    /// ```text
    /// ensures { IfOk result (λ random. length random ≡ 19) }
    /// ```
    ///
    /// </details>
    pub fn draw(source: &mut impl Read) -> io::Result<FileRandom> {
        let mut bytes = [0; RANDOM_LEN];
        source.read_exact(&mut bytes)?;
        Ok(FileRandom { bytes })
    }

    /// Takes these bytes, so that a test can compare the sealed file. Two files with the same key and the same bytes reveal the
    /// XOR of their contents, and let others forge chunks.
    ///
    /// <details><summary>Contract</summary>
    ///
    /// ```text
    /// ensures { result ≡ bytes }
    /// ```
    ///
    /// </details>
    pub fn from_bytes_for_tests(bytes: [u8; RANDOM_LEN]) -> FileRandom {
        FileRandom::of_bytes(bytes)
    }
}
