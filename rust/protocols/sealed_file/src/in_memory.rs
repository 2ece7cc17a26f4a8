// Written by tools/rust from crates/sealed_file/src/in_memory.rt. Don't edit.
//! Sealing and opening files in memory.

use crate::chunk::{CHUNK_LEN, MAX_CHUNKS, SEALED_CHUNK_LEN, open_ciphertext, seal_slice};
use crate::error::FileError;
use crate::header::{ChunkCipher, HEADER_LEN, VERSION, cipher_of};
use crate::key::FileKey;
use crate::random::FileRandom;
use crate::read_at::bytes_from_offset;
use aead_ciphers::aead::{MAX_TAG_LEN, Tag};
use deerlapse::memory::TryGrow;

/// The number of the last piece when `len` bytes are cut into pieces of `size` bytes.
// requires { 0 < size }
// ensures { result ≡ last_piece size len }
fn last_piece_of(len: usize, size: usize) -> usize {
    len.saturating_sub(1) / size
}

/// The piece with this number when bytes are cut into pieces of `size` bytes.
// requires { size * number ≤ length bytes.now }
// ensures { result.now ≡ piece size bytes.now number }
fn piece_of(bytes: &[u8], size: usize, number: u32) -> &[u8] {
    let rest = &bytes[size * number as usize..];
    if rest.len() < size {
        rest
    } else {
        &rest[..size]
    }
}

/// Appends bytes, for which `out` has room.
// requires { vec_len out.old + length bytes.now ≤ vec_capacity out.old }
// ensures appended { out.new.items ≡ out.old.items ++ bytes.now }
// ensures capacity { vec_capacity out.old ≤ vec_capacity out.new }
fn append(bytes: &[u8], out: &mut Vec<u8>) {
    match out.try_extend_from_slice(bytes) {
        Ok(()) => {}
        Err(_) => unreachable!(),
    }
}

/// Seals the chunk that is `bytes` from `start` on, at most `CHUNK_LEN` bytes, in place, and returns its tag.
// requires start { start ≤ length bytes.old }
// requires chunk { length bytes.old ≤ start + chunk_len }
// ensures front { take start bytes.new ≡ take start bytes.old }
// ensures sealed { drop start bytes.new ++ result
//     ≡ sealed_chunk cipher.now number is_last (drop start bytes.old) }
fn seal_chunk_from(
    cipher: &ChunkCipher,
    number: u32,
    is_last: bool,
    bytes: &mut [u8],
    start: usize,
) -> Tag {
    seal_slice(cipher, number, is_last, &mut bytes[start..])
}

/// Seals a chunk of at most `CHUNK_LEN` bytes, and appends it to `out`, which has room for it and its tag.
// requires chunk { length chunk.now ≤ chunk_len }
// requires room { vec_len out.old + length chunk.now + tag_len ≤ vec_capacity out.old }
// ensures sealed { out.new.items
//     ≡ out.old.items ++ sealed_chunk cipher.now number is_last chunk.now }
// ensures capacity { vec_capacity out.old ≤ vec_capacity out.new }
fn append_sealed(
    cipher: &ChunkCipher,
    number: u32,
    is_last: bool,
    chunk: &[u8],
    out: &mut Vec<u8>,
) {
    let start = out.len();
    append(chunk, out);
    let tag = seal_chunk_from(cipher, number, is_last, out, start);
    append(tag.as_ref(), out);
}

/// Seals `file`, and appends the sealed file to `out`.
///
/// # Errors
///
/// Fails with `TooLong` if the file has more than `MAX_CHUNKS` chunks, and otherwise with `OutOfMemory` only if `out` has no
/// room for the sealed file and cannot grow. `out` then holds the bytes that it held before.
///
/// # Examples
///
/// Seals a file in memory, and opens it again. The first call appends to what `out` holds.
///
/// ```
/// use deerlapse_file::{FileError, FileKey, FileRandom, open_bytes, seal_bytes};
/// use std::fs::File;
///
/// fn main() -> Result<(), FileError> {
///     let key = FileKey::new(&[7; 32])?; // not a real key, which is drawn at random and kept secret
///     let random = FileRandom::draw(&mut File::open("/dev/urandom")?)?;
///
///     let mut out = b"before".to_vec();
///     seal_bytes(&key, random, b"hello", &mut out)?;
///     let sealed = out.strip_prefix(b"before").unwrap();
///
///     let mut opened = Vec::new();
///     open_bytes(&key, sealed, &mut opened)?;
///     assert_eq!(opened, b"hello");
///     Ok(())
/// }
/// ```
///
/// <details><summary>Contract</summary>
///
/// ```text
/// ensures few { IsOk result → last_piece chunk_len (length file.now) < 2 ^ 32 - 1 }
/// ensures sealed { OnOk result (out.new.items
///     ≡ out.old.items ++ sealed_file (fresh_key (secret key.now []) random) file.now) }
/// ensures accepted { let sealed = sealed_file (fresh_key (secret key.now []) random) file.now in
///     let grown = vec_len out.old + length sealed in
///     grown ≤ vec_capacity out.old
///     → (IsOk result ↔ (last_piece chunk_len (length file.now) < 2 ^ 32 - 1)) }
/// ensures refused { let sealed = sealed_file (fresh_key (secret key.now []) random) file.now in
///     let grown = vec_len out.old + length sealed in
///     IfErr result (λ error.
///     FailsInMemory (vec_capacity out.old < grown) (SealRefuses file.now) error) }
/// ensures kept { OnErr result (out.new.items ≡ out.old.items) }
/// ```
///
/// Definitions: [`last_piece`](crate::specs::format#last_piece), [`chunk_len`](crate::specs::format#chunk_len),
/// [`sealed_file`](crate::specs::format#sealed_file), [`fresh_key`](crate::specs::format#fresh_key),
/// [`secret`](crate::specs::format#secret), [`FailsInMemory`](crate::specs::refusals#FailsInMemory),
/// [`SealRefuses`](crate::specs::refusals#SealRefuses).
///
/// </details>
pub fn seal_bytes(
    key: &FileKey,
    random: FileRandom,
    file: &[u8],
    out: &mut Vec<u8>,
) -> Result<(), FileError> {
    let cipher = ChunkCipher::new(VERSION, key, &[], &random);
    let last = last_piece_of(file.len(), CHUNK_LEN);
    if last >= MAX_CHUNKS as usize {
        return Err(FileError::TooLong);
    }
    let count = last as u32 + 1;
    out.try_grow(HEADER_LEN + file.len() + count as usize * MAX_TAG_LEN)?;
    append(cipher.header(), out);
    for number in 0..count {
        let chunk = piece_of(file, CHUNK_LEN, number);
        append_sealed(&cipher, number, number as usize == last, chunk, out);
    }
    Ok(())
}

/// Decrypts the ciphertext that is `bytes` from `start` on, at most `CHUNK_LEN` bytes.
// requires start { start ≤ length bytes.old }
// requires chunk { length bytes.old ≤ start + chunk_len }
// ensures front { take start bytes.new ≡ take start bytes.old }
// ensures accepted { IsOk result
//     ↔ HasTag cipher.now number is_last (drop start bytes.old ++ tag.now) }
// ensures opened { OnOk result (drop start bytes.new
//     ≡ opened_chunk cipher.now number is_last (drop start bytes.old ++ tag.now)) }
// ensures refused { IfErr result (λ error.
//     ChunkRefuses cipher.now number is_last (drop start bytes.old ++ tag.now) error) }
fn open_chunk_from(
    cipher: &ChunkCipher,
    number: u32,
    is_last: bool,
    tag: &[u8; MAX_TAG_LEN],
    bytes: &mut [u8],
    start: usize,
) -> Result<(), FileError> {
    open_ciphertext(cipher, number, is_last, tag, &mut bytes[start..])
}

/// Opens a sealed chunk, and appends its message to `out`. On an error, bytes that are not authentic may follow those that
/// `out` held.
// requires chunk { length sealed.now ≤ sealed_chunk_len }
// requires room { vec_len out.old + (length sealed.now - tag_len) ≤ vec_capacity out.old }
// ensures front { take (vec_len out.old) out.new.items ≡ out.old.items }
// ensures accepted { IsOk result ↔ HasTag cipher.now number is_last sealed.now }
// ensures opened { OnOk result (out.new.items
//     ≡ out.old.items ++ opened_chunk cipher.now number is_last sealed.now) }
// ensures refused { IfErr result (λ error.
//     ChunkRefuses cipher.now number is_last sealed.now error) }
// ensures capacity { vec_capacity out.old ≤ vec_capacity out.new }
pub(crate) fn append_opened(
    cipher: &ChunkCipher,
    number: u32,
    is_last: bool,
    sealed: &[u8],
    out: &mut Vec<u8>,
) -> Result<(), FileError> {
    let Some((ciphertext, tag)) = sealed.split_last_chunk::<MAX_TAG_LEN>() else {
        return Err(FileError::EndsEarly);
    };
    let start = out.len();
    append(ciphertext, out);
    open_chunk_from(cipher, number, is_last, tag, out, start)
}

/// The bytes after the header of a sealed file.
// ensures { result.now ≡ body_of sealed.now }
fn body_of(sealed: &[u8]) -> &[u8] {
    bytes_from_offset(sealed, HEADER_LEN as u64)
}

/// The number of the last chunk of a sealed file.
// ensures { result ≡ last_chunk sealed.now }
fn last_chunk_of(sealed: &[u8]) -> usize {
    last_piece_of(body_of(sealed).len(), SEALED_CHUNK_LEN)
}

/// The chunk with this number of a sealed file.
// requires { number ≤ last_chunk sealed.now }
// ensures { result.now ≡ chunk_of sealed.now number }
fn chunk_of(sealed: &[u8], number: u32) -> &[u8] {
    piece_of(body_of(sealed), SEALED_CHUNK_LEN, number)
}

/// The length of the file that a sealed file opens to.
// ensures { (s : Secret) → result ≡ length (opened_file s sealed.now) }
fn opened_file_len(sealed: &[u8]) -> usize {
    let last = last_chunk_of(sealed);
    let body = body_of(sealed).len();
    last * CHUNK_LEN + (body - last * SEALED_CHUNK_LEN).saturating_sub(MAX_TAG_LEN)
}

/// Like `open_bytes`, but on an error bytes may follow those that `out` held.
// ensures front { take (vec_len out.old) out.new.items ≡ out.old.items }
// ensures accepted { IsOk result → IsSealed (secret key.now []) sealed.now }
// ensures opened { OnOk result (out.new.items
//     ≡ out.old.items ++ opened_file (secret key.now []) sealed.now) }
// ensures refused { let grown = vec_len out.old + length (opened_file (secret key.now []) sealed.now) in
//     IfErr result (λ error.
//     FailsInMemory (vec_capacity out.old < grown) (OpenRefuses (secret key.now []) sealed.now) error) }
fn append_opened_file(key: &FileKey, sealed: &[u8], out: &mut Vec<u8>) -> Result<(), FileError> {
    let cipher = cipher_of(VERSION, key, &[], sealed)?;
    let last = last_chunk_of(sealed);
    out.try_grow(opened_file_len(sealed))?;
    for number in 0..MAX_CHUNKS {
        let chunk = chunk_of(sealed, number);
        let is_last = number as usize == last;
        append_opened(&cipher, number, is_last, chunk, out)?;
        if is_last {
            return Ok(());
        }
    }
    Err(FileError::TooLong)
}

/// Opens a sealed file, and appends the file to `out`.
///
/// # Errors
///
/// Fails with the errors of `open`, except `Io`, and with `OutOfMemory` only if `out` has no room for the file and cannot grow.
/// `out` then holds the bytes that it held before.
///
/// <details><summary>Contract</summary>
///
/// ```text
/// ensures authentic { IsOk result → IsSealed (secret key.now []) sealed.now }
/// ensures opened { OnOk result (out.new.items
///     ≡ out.old.items ++ opened_file (secret key.now []) sealed.now) }
/// ensures accepted { let grown = vec_len out.old + length (opened_file (secret key.now []) sealed.now) in
///     grown ≤ vec_capacity out.old → (IsOk result ↔ IsSealed (secret key.now []) sealed.now) }
/// ensures refused { let grown = vec_len out.old + length (opened_file (secret key.now []) sealed.now) in
///     IfErr result (λ error.
///     FailsInMemory (vec_capacity out.old < grown) (OpenRefuses (secret key.now []) sealed.now) error) }
/// ensures kept { OnErr result (out.new.items ≡ out.old.items) }
/// ```
///
/// Definitions: [`IsSealed`](crate::specs::opening#IsSealed), [`secret`](crate::specs::format#secret),
/// [`opened_file`](crate::specs::opening#opened_file), [`FailsInMemory`](crate::specs::refusals#FailsInMemory),
/// [`OpenRefuses`](crate::specs::refusals#OpenRefuses).
///
/// </details>
pub fn open_bytes(key: &FileKey, sealed: &[u8], out: &mut Vec<u8>) -> Result<(), FileError> {
    let len = out.len();
    let opened = append_opened_file(key, sealed, out);
    if opened.is_err() {
        out.truncate(len);
    }
    opened
}
