// Written by tools/rust from crates/sealed_file/src/error.rt. Don't edit.
//! The error of sealing and opening files.

use crate::passphrase::MAX_ITERATIONS;
use deerlapse::memory::AllocError;
use std::error::Error;
use std::{fmt, io};

/// The error of sealing or opening a file.
#[derive(Debug)]
pub enum FileError {
    /// The key does not have 32 bytes.
    KeyLength,
    /// The file does not begin with the magic of a sealed file.
    AnotherMagic,
    /// The file has this version of the format: not 2, for a call that takes a key, or not 3, for one that takes a passphrase.
    AnotherVersion(u8),
    /// The header commits to another key or another passphrase, or was changed.
    WrongKey,
    /// The header has this number of iterations, which is 0 or more than `MAX_ITERATIONS`.
    Iterations(u32),
    /// The file ends within its header, within a tag, or after a chunk that is not the last.
    EndsEarly,
    /// There are bytes after the last chunk.
    TrailingBytes,
    /// The chunk with this number, counted from 0, has a wrong tag: it or the prefix in the header was changed.
    Refused(u32),
    /// The file has more than `MAX_CHUNKS` chunks.
    TooLong,
    /// Allocating memory failed in `seal_bytes`, `open_bytes`, `open_chunk_at`, or in making a `SealedReader`.
    OutOfMemory,
    /// Reading or writing failed, or allocating memory failed in `seal` or `open`.
    Io(io::Error),
}

impl fmt::Display for FileError {
    fn fmt(&self, f: &mut fmt::Formatter<'_>) -> fmt::Result {
        match self {
            FileError::KeyLength => f.write_str("the key is not 32 bytes long"),
            FileError::AnotherMagic => f.write_str("not a sealed file"),
            FileError::AnotherVersion(2) => {
                f.write_str("a sealed file of version 2, which a key opens")
            }
            FileError::AnotherVersion(3) => {
                f.write_str("a sealed file of version 3, which a passphrase opens")
            }
            FileError::AnotherVersion(version) => {
                write!(
                    f,
                    "a sealed file of version {version}, which is neither 2 nor 3"
                )
            }
            FileError::WrongKey => {
                f.write_str("the key or passphrase is wrong, or the header was changed")
            }
            FileError::Iterations(count) => {
                write!(
                    f,
                    "the header says {count} iterations, which must be from 1 to {MAX_ITERATIONS}"
                )
            }
            FileError::EndsEarly => f.write_str("the sealed file ends early"),
            FileError::TrailingBytes => f.write_str("there are bytes after the last chunk"),
            FileError::Refused(number) => write!(f, "chunk {number} was changed or cut"),
            FileError::TooLong => f.write_str("the file is too long: it has 2^32 chunks or more"),
            FileError::OutOfMemory => f.write_str("out of memory"),
            FileError::Io(error) => write!(f, "{error}"),
        }
    }
}

impl Error for FileError {}

/// <details><summary>Ghost items</summary>
///
/// ```text
/// // What holds of the argument of `from` and of what it returns.
/// ghost from_gives = { λ _ file_error. file_error ≡ OutOfMemory };
/// ```
///
/// </details>
impl From<AllocError> for FileError {
    fn from(_error: AllocError) -> Self {
        FileError::OutOfMemory
    }
}

/// <details><summary>Ghost items</summary>
///
/// ```text
/// // What holds of the argument of `from` and of what it returns.
/// ghost from_gives = { λ error file_error. file_error ≡ Io error };
/// ```
///
/// </details>
impl From<io::Error> for FileError {
    fn from(error: io::Error) -> Self {
        FileError::Io(error)
    }
}
