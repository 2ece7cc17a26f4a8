// Written by tools/rust from crates/sealed_file/src/random_access.rt. Don't edit.
//! Opening one chunk of a sealed file without the others.

use crate::chunk::CHUNK_LEN;
use crate::error::FileError;
use crate::header::{VERSION, cipher_of};
use crate::in_memory::append_opened;
use crate::key::FileKey;
use crate::reader::last_chunk_of_len;
use aead_ciphers::aead::MAX_TAG_LEN;
use deerlapse::memory::TryGrow;

/// Like `open_chunk_at`, but on an error bytes may follow those that `out` held.
// requires aad { length aad.now ≤ 4096 }
// requires chunk { length sealed.now ≤ sealed_chunk_len }
// ensures front { take (vec_len out.old) out.new.items ≡ out.old.items }
// ensures header { IsOk result → HasHeader (secret key.now aad.now) (header_of header.now) }
// ensures tag { IsOk result → HasTag (key_of (secret key.now aad.now) header.now) number is_last sealed.now }
// ensures opened { OnOk result (out.new.items
//     ≡ out.old.items ++ opened_chunk (key_of (secret key.now aad.now) header.now) number is_last sealed.now) }
// ensures refused { let grown = vec_len out.old + (length sealed.now - tag_len) in
//     IfErr result (λ error. FailsInMemory (vec_capacity out.old < grown)
//     (ChunkAtRefuses (secret key.now aad.now) header.now number is_last sealed.now) error) }
fn append_chunk_at(
    key: &FileKey,
    aad: &[u8],
    header: &[u8],
    number: u32,
    is_last: bool,
    sealed: &[u8],
    out: &mut Vec<u8>,
) -> Result<(), FileError> {
    let cipher = cipher_of(VERSION, key, aad, header)?;
    out.try_grow(sealed.len().saturating_sub(MAX_TAG_LEN))?;
    append_opened(&cipher, number, is_last, sealed, out)
}

/// Opens one chunk of a sealed file, and appends its message to `out`.
///
/// `aad` is what the file is bound to, at most `MAX_AAD_LEN` bytes. `header` is at least the file's first `HEADER_LEN` bytes.
/// `number` counts the chunks from 0, and `is_last` says that the chunk ends the file. Chunk `n` begins at byte
/// `HEADER_LEN + n * SEALED_CHUNK_LEN`, and has `SEALED_CHUNK_LEN` bytes unless it is the last.
///
/// The other chunks are not checked: the file may lack them, or have others in their place. Only opening the last chunk with
/// `is_last` shows that the file ends where it ended when it was sealed.
///
/// # Errors
///
/// Fails with the errors of `open` for the header and for this chunk, except `Io`, and with `OutOfMemory` only if `out` has no
/// room for the message and cannot grow. `out` then holds the bytes that it held before.
///
/// # Panics
///
/// Panics if `aad` has more than `MAX_AAD_LEN` bytes, or if `sealed` has more than `SEALED_CHUNK_LEN` bytes.
///
/// # Examples
///
/// Opens the second chunk of a file, which is also the last. Under another number it is refused.
///
/// ```
/// use deerlapse_file::{
///     CHUNK_LEN, FileError, FileKey, FileRandom, HEADER_LEN, SEALED_CHUNK_LEN, open_chunk_at,
///     plaintext_len, seal_bytes,
/// };
/// use std::fs::File;
///
/// fn main() -> Result<(), FileError> {
///     let key = FileKey::new(&[7; 32])?; // not a real key, which is drawn at random and kept secret
///     let random = FileRandom::draw(&mut File::open("/dev/urandom")?)?;
///     let file = vec![1; CHUNK_LEN + 5];
///     let mut sealed = Vec::new();
///     seal_bytes(&key, random, &file, &mut sealed)?;
///     assert_eq!(plaintext_len(sealed.len() as u64), Some(file.len() as u64));
///
///     let (header, chunks) = sealed.split_at(HEADER_LEN);
///     let chunk = &chunks[SEALED_CHUNK_LEN..];
///     let mut message = Vec::new();
///     open_chunk_at(&key, &[], header, 1, true, chunk, &mut message)?;
///     assert_eq!(message, file[CHUNK_LEN..]);
///
///     let error = open_chunk_at(&key, &[], header, 2, true, chunk, &mut message).unwrap_err();
///     assert!(matches!(error, FileError::Refused(2)));
///     Ok(())
/// }
/// ```
///
/// <details><summary>Contract</summary>
///
/// ```text
/// requires aad { length aad.now ≤ 4096 }
/// requires chunk { length sealed.now ≤ sealed_chunk_len }
/// ensures header { IsOk result → HasHeader (secret key.now aad.now) (header_of header.now) }
/// ensures tag { IsOk result → HasTag (key_of (secret key.now aad.now) header.now) number is_last sealed.now }
/// ensures opened { OnOk result (out.new.items
///     ≡ out.old.items ++ opened_chunk (key_of (secret key.now aad.now) header.now) number is_last sealed.now) }
/// ensures accepted { let grown = vec_len out.old + (length sealed.now - tag_len) in
///     grown ≤ vec_capacity out.old → (IsOk result ↔ (HasHeader (secret key.now aad.now) (header_of header.now)
///     × HasTag (key_of (secret key.now aad.now) header.now) number is_last sealed.now)) }
/// ensures refused { let grown = vec_len out.old + (length sealed.now - tag_len) in
///     IfErr result (λ error. FailsInMemory (vec_capacity out.old < grown)
///     (ChunkAtRefuses (secret key.now aad.now) header.now number is_last sealed.now) error) }
/// ensures kept { OnErr result (out.new.items ≡ out.old.items) }
/// ```
///
/// Definitions: [`sealed_chunk_len`](crate::specs::format#sealed_chunk_len),
/// [`HasHeader`](crate::specs::opening#HasHeader), [`secret`](crate::specs::format#secret),
/// [`header_of`](crate::specs::opening#header_of), [`HasTag`](crate::specs::opening#HasTag),
/// [`key_of`](crate::specs::opening#key_of), [`opened_chunk`](crate::specs::opening#opened_chunk),
/// [`tag_len`](aead_ciphers::specs::gcm#tag_len), [`FailsInMemory`](crate::specs::refusals#FailsInMemory),
/// [`ChunkAtRefuses`](crate::specs::refusals#ChunkAtRefuses).
///
/// </details>
pub fn open_chunk_at(
    key: &FileKey,
    aad: &[u8],
    header: &[u8],
    number: u32,
    is_last: bool,
    sealed: &[u8],
    out: &mut Vec<u8>,
) -> Result<(), FileError> {
    assert!(
        aad.len() <= crate::MAX_AAD_LEN,
        "aad has more than MAX_AAD_LEN bytes"
    );
    assert!(
        sealed.len() <= crate::SEALED_CHUNK_LEN,
        "sealed has more than SEALED_CHUNK_LEN bytes"
    );

    let len = out.len();
    let opened = append_chunk_at(key, aad, header, number, is_last, sealed, out);
    if opened.is_err() {
        out.truncate(len);
    }
    opened
}

/// Returns the length of a file from the length of its sealed file.
///
/// Returns `None` if no sealed file has this length: it would end within the header or a tag, or have more than `MAX_CHUNKS`
/// chunks.
///
/// <details><summary>Contract</summary>
///
/// ```text
/// ensures known { IsSome result ↔ IsSealedLen sealed_len }
/// ensures opened { (s : Secret) (file : List ℕ) → length file ≡ sealed_len
///     → IsSealed s file → result ≡ Some (length (opened_file s file)) }
/// ```
///
/// Definitions: [`IsSealedLen`](crate::specs::opening#IsSealedLen), [`Secret`](crate::specs::format#Secret),
/// [`IsSealed`](crate::specs::opening#IsSealed), [`opened_file`](crate::specs::opening#opened_file).
///
/// </details>
pub fn plaintext_len(sealed_len: u64) -> Option<u64> {
    match last_chunk_of_len(sealed_len) {
        Ok((last, last_len)) => Some(u64::from(last) * CHUNK_LEN as u64 + last_len as u64),
        Err(_) => None,
    }
}
