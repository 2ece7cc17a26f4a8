// Written by tools/rust from crates/sealed_file/src/sealing.rt. Don't edit.
//! Sealing a file from one stream to another.

use crate::chunk::{CHUNK_LEN, MAX_CHUNKS, seal_chunk};
use crate::error::FileError;
use crate::header::{ChunkCipher, VERSION};
use crate::key::FileKey;
use crate::random::FileRandom;
use crate::stream::{buffers, read_piece, write_bytes};
use std::io::{Read, Write};
use std::mem;

/// Seals the bytes of `input`, and writes the sealed file to `output`.
///
/// It keeps two chunks in memory.
///
/// # Errors
///
/// Fails with `TooLong` if the file has more than `MAX_CHUNKS` chunks, and with `Io` if reading, writing or allocating memory
/// fails. What was written by then is the beginning of the sealed file.
///
/// # Examples
///
/// Seals five bytes. Input and output may be any `Read` and `Write`. Two of type `File` need no `BufReader` and no `BufWriter`, since
/// `seal` moves 64 KiB at a time.
///
/// ```
/// use deerlapse_file::{FileError, FileKey, FileRandom, HEADER_LEN, seal};
/// use std::fs::File;
/// use std::io::Read;
///
/// fn main() -> Result<(), FileError> {
///     let mut source = File::open("/dev/urandom")?;
///     let mut bytes = [0; 32];
///     source.read_exact(&mut bytes)?;
///     let key = FileKey::new(&bytes)?; // for many files
///     let random = FileRandom::draw(&mut source)?; // for this file
///
///     let mut sealed = Vec::new();
///     seal(&key, random, &mut &b"hello"[..], &mut sealed)?;
///     assert_eq!(sealed.len(), HEADER_LEN + 5 + 16);
///     Ok(())
/// }
/// ```
///
/// <details><summary>Contract</summary>
///
/// ```text
/// ensures few { OnOk result (IfSome (R.remaining input.old) (λ file.
///     last_piece chunk_len (length file) < 2 ^ 32 - 1)) }
/// ensures sealed { OnOk result (IfSome (R.remaining input.old) (λ file.
///     Appends (W.contents output.old) (W.contents output.new)
///     (sealed_file (fresh_key (secret key.now []) random) file))) }
/// ensures refused { IfErr result (λ error. IfSome (R.remaining input.old) (λ file.
///     SealRefuses file error)) }
/// ensures beginning { OnErr result (IfSome (R.remaining input.old) (λ file.
///     AppendsBeginning (W.contents output.old) (W.contents output.new)
///     (sealed_file (fresh_key (secret key.now []) random) file))) }
/// ```
///
/// Definitions: [`last_piece`](crate::specs::format#last_piece), [`chunk_len`](crate::specs::format#chunk_len),
/// [`sealed_file`](crate::specs::format#sealed_file), [`fresh_key`](crate::specs::format#fresh_key),
/// [`secret`](crate::specs::format#secret), [`SealRefuses`](crate::specs::refusals#SealRefuses),
/// [`AppendsBeginning`](crate::specs::streams#AppendsBeginning).
///
/// </details>
pub fn seal<R: Read, W: Write>(
    key: &FileKey,
    random: FileRandom,
    input: &mut R,
    output: &mut W,
) -> Result<(), FileError> {
    seal_with_aad(key, random, &[], input, output)
}

/// Like `seal`, but binds the file to `aad`, at most `MAX_AAD_LEN` bytes: it opens only with the same bytes, which are not in it.
/// Without any, the sealed file is that of `seal`.
///
/// # Panics
///
/// Panics if `aad` has more than `MAX_AAD_LEN` bytes.
///
/// <details><summary>Contract</summary>
///
/// ```text
/// requires { length aad.now ≤ 4096 }
/// ensures few { OnOk result (IfSome (R.remaining input.old) (λ file.
///     last_piece chunk_len (length file) < 2 ^ 32 - 1)) }
/// ensures sealed { OnOk result (IfSome (R.remaining input.old) (λ file.
///     Appends (W.contents output.old) (W.contents output.new)
///     (sealed_file (fresh_key (secret key.now aad.now) random) file))) }
/// ensures refused { IfErr result (λ error. IfSome (R.remaining input.old) (λ file.
///     SealRefuses file error)) }
/// ensures beginning { OnErr result (IfSome (R.remaining input.old) (λ file.
///     AppendsBeginning (W.contents output.old) (W.contents output.new)
///     (sealed_file (fresh_key (secret key.now aad.now) random) file))) }
/// ```
///
/// Definitions: [`last_piece`](crate::specs::format#last_piece), [`chunk_len`](crate::specs::format#chunk_len),
/// [`sealed_file`](crate::specs::format#sealed_file), [`fresh_key`](crate::specs::format#fresh_key),
/// [`secret`](crate::specs::format#secret), [`SealRefuses`](crate::specs::refusals#SealRefuses),
/// [`AppendsBeginning`](crate::specs::streams#AppendsBeginning).
///
/// </details>
pub fn seal_with_aad<R: Read, W: Write>(
    key: &FileKey,
    random: FileRandom,
    aad: &[u8],
    input: &mut R,
    output: &mut W,
) -> Result<(), FileError> {
    assert!(
        aad.len() <= crate::MAX_AAD_LEN,
        "aad has more than MAX_AAD_LEN bytes"
    );

    let cipher = ChunkCipher::new(VERSION, key, aad, &random);
    seal_under(cipher.header(), &cipher, input, output)
}

/// Writes a header, and then the chunks of the bytes of `input`.
// ensures few { OnOk result (IfSome (R.remaining input.old) (λ file.
//     last_piece chunk_len (length file) < 2 ^ 32 - 1)) }
// ensures sealed { OnOk result (IfSome (R.remaining input.old) (λ file.
//     Appends (W.contents output.old) (W.contents output.new)
//     (sealed_file (with_header header.now cipher.now) file))) }
// ensures refused { IfErr result (λ error. IfSome (R.remaining input.old) (λ file.
//     SealRefuses file error)) }
// ensures beginning { OnErr result (IfSome (R.remaining input.old) (λ file.
//     AppendsBeginning (W.contents output.old) (W.contents output.new)
//     (sealed_file (with_header header.now cipher.now) file))) }
pub(crate) fn seal_under<R: Read, W: Write>(
    header: &[u8],
    cipher: &ChunkCipher,
    input: &mut R,
    output: &mut W,
) -> Result<(), FileError> {
    let (mut chunk, mut next) = buffers()?;
    write_bytes(output, header)?;
    read_piece(input, CHUNK_LEN, &mut chunk)?;
    for number in 0..MAX_CHUNKS {
        read_piece(input, CHUNK_LEN, &mut next)?;
        let is_last = next.is_empty();
        seal_chunk(cipher, number, is_last, &mut chunk)?;
        write_bytes(output, &chunk)?;
        if is_last {
            return Ok(());
        }
        mem::swap(&mut chunk, &mut next);
    }
    Err(FileError::TooLong)
}
