// Written by tools/rust from crates/sealed_file/src/read_at.rt. Don't edit.
//! Inputs that are read at any position.

use crate::stream::fill;
use std::fs::File;
use std::io::{self, Cursor, Read, Seek, SeekFrom};

/// Bytes that can be read at any position, such as a file or a slice.
///
/// The ghost member `bytes` is the bytes, for a type of which a contract can say what they are. For another, such as a file, it
/// is `None`: then no clause says that a call succeeds, nor, but for `contents`, what is read.
///
/// The ghost member `contents` is for a type whose calls may fail, or whose bytes may change between two calls: a read that
/// succeeds gives bytes of one of these contents. Where they are `None`, it may give any bytes.
///
/// # Examples
///
/// An input that counts its reads. A reader reads the header and the last chunk when it is made, and then one chunk whenever it doesn't
/// hold the one that it needs.
///
/// ```
/// use deerlapse_file::{CHUNK_LEN, FileError, FileKey, FileRandom, ReadAt, SealedReader, seal_bytes};
/// use std::cell::Cell;
/// use std::fs::File;
/// use std::io;
///
/// struct Counted<'a> {
///     bytes: &'a [u8],
///     reads: &'a Cell<usize>,
/// }
///
/// impl ReadAt for Counted<'_> {
///     fn size(&mut self) -> io::Result<u64> {
///         self.bytes.size()
///     }
///
///     fn read_at(&mut self, at: u64, buf: &mut [u8]) -> io::Result<usize> {
///         self.reads.set(self.reads.get() + 1);
///         self.bytes.read_at(at, buf)
///     }
/// }
///
/// fn main() -> Result<(), FileError> {
///     let key = FileKey::new(&[7; 32])?; // not a real key, which is drawn at random and kept secret
///     let random = FileRandom::draw(&mut File::open("/dev/urandom")?)?;
///     let mut sealed = Vec::new();
///     seal_bytes(&key, random, &[1; 3 * CHUNK_LEN], &mut sealed)?;
///
///     let reads = Cell::new(0);
///     let input = Counted { bytes: &sealed, reads: &reads };
///     let mut reader = SealedReader::new(&key, &[], input, 0)?;
///     assert_eq!(reads.get(), 2);
///
///     let mut buf = [0; 100];
///     for at in [0, 100, 200] {
///         assert_eq!(reader.read_at(at, &mut buf)?, 100);
///         assert_eq!(reads.get(), 3);
///     }
///     Ok(())
/// }
/// ```
///
/// <details><summary>Ghost items</summary>
///
/// ```text
/// // The bytes, where they are known.
/// ghost bytes: { Self → Option (List ℕ) };
/// // The contents that it may have, where they are known. A call may fail all the same.
/// ghost contents: { Self → Option (List (List ℕ)) } = { λ _. None };
/// ```
///
/// </details>
pub trait ReadAt {
    /// Returns how many bytes there are.
    ///
    /// <details><summary>Contract</summary>
    ///
    /// ```text
    /// ensures known { IfSome (bytes self.old) (λ all. IsOk result) }
    /// ensures value { IfSome (bytes self.old) (λ all. IfOk result (λ n. n ≡ length all)) }
    /// ensures same { bytes self.new ≡ bytes self.old }
    /// ensures steady { contents self.new ≡ contents self.old }
    /// ```
    ///
    /// </details>
    fn size(&mut self) -> io::Result<u64>;

    /// Reads the bytes from `at` on into the front of `buf`, and returns how many: fewer than `buf` has only at the end. On an
    /// error any bytes of `buf` may be others.
    ///
    /// <details><summary>Contract</summary>
    ///
    /// ```text
    /// ensures within { IfOk result (λ n. n ≤ length buf.new) }
    /// ensures known { IfSome (bytes self.old) (λ all. IsOk result) }
    /// ensures count { IfSome (bytes self.old) (λ all. IfOk result (λ n. n ≡ min (length buf.old) (length all - at))) }
    /// ensures value { IfSome (bytes self.old) (λ all. IfOk result (λ n. take n buf.new ≡ take n (drop at all))) }
    /// ensures given { IfOk result (λ n. MayGive (contents self.old) at (take n buf.new)) }
    /// ensures same { bytes self.new ≡ bytes self.old }
    /// ensures steady { contents self.new ≡ contents self.old }
    /// ```
    ///
    /// Definitions: [`MayGive`](crate::specs::reader#MayGive).
    ///
    /// </details>
    fn read_at(&mut self, at: u64, buf: &mut [u8]) -> io::Result<usize>;
}

/// The bytes from `at` on, or none if there are fewer.
// ensures { result.now ≡ drop at bytes.now }
pub(crate) fn bytes_from_offset(bytes: &[u8], at: u64) -> &[u8] {
    if bytes.len() as u64 <= at {
        &[]
    } else {
        &bytes[at as usize..]
    }
}

/// Copies the bytes from `at` on into the front of `buf`, as many as there are and fit, and returns how many.
// ensures count { result ≡ min (length buf.old) (length bytes.now - at) }
// ensures copied { take result buf.new ≡ take result (drop at bytes.now) }
// ensures rest { drop result buf.new ≡ drop result buf.old }
pub(crate) fn read_slice_at(bytes: &[u8], at: u64, buf: &mut [u8]) -> usize {
    let rest = bytes_from_offset(bytes, at);
    let count = rest.len().min(buf.len());
    buf[..count].copy_from_slice(&rest[..count]);
    count
}

/// <details><summary>Ghost items</summary>
///
/// ```text
/// ghost bytes = { λ slice. Some slice.now };
/// ghost contents = { λ slice. Some (slice.now ∷ []) };
/// ```
///
/// </details>
impl ReadAt for &[u8] {
    fn size(&mut self) -> io::Result<u64> {
        Ok(self.len() as u64)
    }

    fn read_at(&mut self, at: u64, buf: &mut [u8]) -> io::Result<usize> {
        let all: &[u8] = *self;
        Ok(read_slice_at(all, at, buf))
    }
}

/// <details><summary>Ghost items</summary>
///
/// ```text
/// ghost bytes = { λ cursor. T.bytes (cursor_inner cursor) };
/// ghost contents = { λ cursor. option_map (λ all. all ∷ []) (T.bytes (cursor_inner cursor)) };
/// ```
///
/// </details>
impl<T: AsRef<[u8]>> ReadAt for Cursor<T> {
    fn size(&mut self) -> io::Result<u64> {
        Ok(self.get_ref().as_ref().len() as u64)
    }

    fn read_at(&mut self, at: u64, buf: &mut [u8]) -> io::Result<usize> {
        Ok(read_slice_at(self.get_ref().as_ref(), at, buf))
    }
}

/// Reads once from a position of a file on.
#[cfg(unix)]
fn read_file_at(file: &File, buf: &mut [u8], at: u64) -> io::Result<usize> {
    std::os::unix::fs::FileExt::read_at(file, buf, at)
}

/// Reads once from a position of a file on, which moves its cursor.
#[cfg(not(unix))]
fn read_file_at(mut file: &File, buf: &mut [u8], at: u64) -> io::Result<usize> {
    file.seek(SeekFrom::Start(at))?;
    file.read(buf)
}

/// The bytes of a file from a position on.
struct FileFrom<'a> {
    file: &'a File,
    at: u64,
}

impl Read for FileFrom<'_> {
    /// <details><summary>Contract</summary>
    ///
    /// ```text
    /// ensures bound { ReadsAtMost result buf.new }
    /// ensures bytes { ReadConsumes None None result buf.new }
    /// ensures advances { IfOk result (λ n. self.new.at ≡ min (self.old.at + n) (2 ^ 64 - 1)) }
    /// ensures stays { OnErr result (self.new.at ≡ self.old.at) }
    /// ```
    ///
    /// </details>
    fn read(&mut self, buf: &mut [u8]) -> io::Result<usize> {
        let count = read_file_at(self.file, buf, self.at)?;
        self.at = self.at.saturating_add(count as u64);
        Ok(count)
    }
}

/// <details><summary>Ghost items</summary>
///
/// ```text
/// ghost bytes = { λ _. None };
/// ```
///
/// </details>
impl ReadAt for File {
    fn size(&mut self) -> io::Result<u64> {
        self.seek(SeekFrom::End(0))
    }

    fn read_at(&mut self, at: u64, buf: &mut [u8]) -> io::Result<usize> {
        fill(&mut FileFrom { file: self, at }, buf)
    }
}
