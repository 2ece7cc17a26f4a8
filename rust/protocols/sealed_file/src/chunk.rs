// Written by tools/rust from crates/sealed_file/src/chunk.rt. Don't edit.
//! Sealing and opening one chunk of a file.

use crate::error::FileError;
use crate::header::{ChunkCipher, Prefix};
use aead_ciphers::aead::{Aad, MAX_TAG_LEN, Nonce, Tag};
use deerlapse::memory::TryGrow;
use std::io;

/// The length in bytes of a chunk of the file, except the last, which may be shorter.
pub const CHUNK_LEN: usize = 65536;

/// The length in bytes of a sealed chunk, except the last, which may be shorter.
pub const SEALED_CHUNK_LEN: usize = CHUNK_LEN + MAX_TAG_LEN;

/// The maximum number of chunks of a file.
pub const MAX_CHUNKS: u32 = u32::MAX;

/// The nonce of a chunk.
// ensures { result ≡ chunk_nonce prefix.now number is_last }
fn nonce_of(prefix: &Prefix, number: u32, is_last: bool) -> Nonce {
    let [p0, p1, p2, p3, p4, p5, p6] = *prefix;
    let [n0, n1, n2, n3] = number.to_be_bytes();
    let last = if is_last { 1 } else { 0 };
    Nonce::assume_unique_for_key([p0, p1, p2, p3, p4, p5, p6, n0, n1, n2, n3, last])
}

/// Encrypts a chunk of at most `CHUNK_LEN` bytes in place, and returns its tag.
// requires { length chunk.old ≤ chunk_len }
// ensures { chunk.new ++ result ≡ sealed_chunk cipher.now number is_last chunk.old }
pub(crate) fn seal_slice(
    cipher: &ChunkCipher,
    number: u32,
    is_last: bool,
    chunk: &mut [u8],
) -> Tag {
    let nonce = nonce_of(&cipher.prefix, number, is_last);
    let aad = Aad::from(cipher.aad());
    match cipher.key.seal_in_place_separate_tag(nonce, aad, chunk) {
        Ok(tag) => tag,
        Err(_) => unreachable!(),
    }
}

/// Seals a chunk of at most `CHUNK_LEN` bytes, and appends its tag.
// requires { vec_len chunk.old ≤ chunk_len }
// ensures { OnOk result (chunk.new.items
//     ≡ sealed_chunk cipher.now number is_last chunk.old.items) }
pub(crate) fn seal_chunk(
    cipher: &ChunkCipher,
    number: u32,
    is_last: bool,
    chunk: &mut Vec<u8>,
) -> io::Result<()> {
    let tag = seal_slice(cipher, number, is_last, chunk);
    chunk.try_extend_from_slice(tag.as_ref())?;
    Ok(())
}

/// Decrypts a ciphertext of at most `CHUNK_LEN` bytes in place if it has this tag, and returns whether it has.
// requires { length ciphertext.old ≤ chunk_len }
// ensures accepted { IsTrue result
//     ↔ HasTag cipher.now number is_last (ciphertext.old ++ tag.now) }
// ensures opened { OnTrue result (ciphertext.new
//     ≡ opened_chunk cipher.now number is_last (ciphertext.old ++ tag.now)) }
// ensures kept { OnFalse result (ciphertext.new ≡ ciphertext.old) }
fn has_opened(
    cipher: &ChunkCipher,
    number: u32,
    is_last: bool,
    tag: &[u8; MAX_TAG_LEN],
    ciphertext: &mut [u8],
) -> bool {
    let nonce = nonce_of(&cipher.prefix, number, is_last);
    let aad = Aad::from(cipher.aad());
    cipher
        .key
        .open_in_place_separate_tag_to_front(nonce, aad, Tag::from(*tag), ciphertext, 0..)
        .is_ok()
}

/// Decrypts the ciphertext of a chunk, at most `CHUNK_LEN` bytes, in place if it has this tag. On an error the ciphertext is
/// unchanged, or decrypted as a chunk of the other kind.
// requires { length ciphertext.old ≤ chunk_len }
// ensures accepted { IsOk result
//     ↔ HasTag cipher.now number is_last (ciphertext.old ++ tag.now) }
// ensures opened { OnOk result (ciphertext.new
//     ≡ opened_chunk cipher.now number is_last (ciphertext.old ++ tag.now)) }
// ensures refused { IfErr result (λ error.
//     ChunkRefuses cipher.now number is_last (ciphertext.old ++ tag.now) error) }
pub(crate) fn open_ciphertext(
    cipher: &ChunkCipher,
    number: u32,
    is_last: bool,
    tag: &[u8; MAX_TAG_LEN],
    ciphertext: &mut [u8],
) -> Result<(), FileError> {
    if has_opened(cipher, number, is_last, tag, ciphertext) {
        return Ok(());
    }
    // The tag of the other kind of chunk shows that the file was cut or goes on. The plaintext is dropped.
    if has_opened(cipher, number, !is_last, tag, ciphertext) {
        return Err(if is_last {
            FileError::EndsEarly
        } else {
            FileError::TrailingBytes
        });
    }
    Err(FileError::Refused(number))
}

/// Opens a sealed chunk, of at most `CHUNK_LEN` bytes and a tag, in place. The message is then all that `chunk` holds.
// requires { vec_len chunk.old ≤ sealed_chunk_len }
// ensures accepted { IsOk result ↔ HasTag cipher.now number is_last chunk.old.items }
// ensures opened { OnOk result (chunk.new.items
//     ≡ opened_chunk cipher.now number is_last chunk.old.items) }
// ensures refused { IfErr result (λ error.
//     ChunkRefuses cipher.now number is_last chunk.old.items error) }
pub(crate) fn open_chunk(
    cipher: &ChunkCipher,
    number: u32,
    is_last: bool,
    chunk: &mut Vec<u8>,
) -> Result<(), FileError> {
    let Some(tag) = chunk.last_chunk::<MAX_TAG_LEN>() else {
        return Err(FileError::EndsEarly);
    };
    let tag = *tag;
    chunk.truncate(chunk.len() - MAX_TAG_LEN);
    open_ciphertext(cipher, number, is_last, &tag, chunk)
}
