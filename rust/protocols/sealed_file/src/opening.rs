// Written by tools/rust from crates/sealed_file/src/opening.rt. Don't edit.
//! Opening a sealed file from one stream to another.

use crate::chunk::{MAX_CHUNKS, SEALED_CHUNK_LEN, open_chunk};
use crate::error::FileError;
use crate::header::{VERSION, cipher_of};
use crate::key::FileKey;
use crate::stream::{buffers, read_header, read_piece, write_bytes};
use std::io::{Read, Write};
use std::mem;

/// Opens the sealed file in `input`, and writes the file to `output`.
///
/// It keeps two chunks in memory, and writes the message of a chunk only after its tag is verified. What was written before an
/// error is authentic, but may be only the beginning of the file.
///
/// # Errors
///
/// Fails with `Io` if reading, writing or allocating memory fails. Every other error says what is wrong with the file:
/// `AnotherMagic` and `AnotherVersion`; `WrongKey`, if the header commits to another key or was changed, before any chunk is
/// read; `EndsEarly`, if the file ends within the header or a tag, or after a chunk that is not the last;
/// `TrailingBytes`, if there are bytes after a last chunk of `CHUNK_LEN` bytes; `Refused`, if any other chunk has a wrong tag;
/// and `TooLong`, if there are more than `MAX_CHUNKS` chunks.
///
/// # Examples
///
/// Opens a file of two chunks, and then the same file without its last byte. By the time the last chunk is refused, the message of the
/// first has been written. So a program that opens a file into another keeps the other only if the call succeeds.
///
/// `open` reads the input to its end. Where more follows the sealed file, the caller cuts it off, as by `Read::take`. Of a file that is
/// sealed under a passphrase, `iterations_in` tells what `open_with_passphrase` will cost, before it derives the key.
///
/// ```
/// use deerlapse_file::{CHUNK_LEN, FileError, FileKey, FileRandom, open, seal};
/// use std::fs::File;
///
/// fn main() -> Result<(), FileError> {
///     let key = FileKey::new(&[7; 32])?; // not a real key, which is drawn at random and kept secret
///     let random = FileRandom::draw(&mut File::open("/dev/urandom")?)?;
///     let file = vec![1; CHUNK_LEN + 5];
///     let mut sealed = Vec::new();
///     seal(&key, random, &mut file.as_slice(), &mut sealed)?;
///
///     let mut opened = Vec::new();
///     open(&key, &mut sealed.as_slice(), &mut opened)?;
///     assert_eq!(opened, file);
///
///     let mut cut = &sealed[..sealed.len() - 1];
///     let mut opened = Vec::new();
///     let error = open(&key, &mut cut, &mut opened).unwrap_err();
///     assert!(matches!(error, FileError::Refused(1)));
///     assert_eq!(opened, file[..CHUNK_LEN]);
///     Ok(())
/// }
/// ```
///
/// <details><summary>Contract</summary>
///
/// ```text
/// ensures accepted { OnOk result (IfSome (R.remaining input.old) (λ file. IsSealed (secret key.now []) file)) }
/// ensures opened { OnOk result (IfSome (R.remaining input.old) (λ file.
///     Appends (W.contents output.old) (W.contents output.new) (opened_file (secret key.now []) file))) }
/// ensures refused { IfErr result (λ error. IfSome (R.remaining input.old) (λ file.
///     OpenRefuses (secret key.now []) file error)) }
/// ensures nothing_past { OnErr result (IfSome (R.remaining input.old) (λ file.
///     AppendsRight (secret key.now []) file (W.contents output.old) (W.contents output.new))) }
/// ensures authentic { OnOk result
///     (AppendsAuthentic (secret key.now []) (W.contents output.old) (W.contents output.new)) }
/// ensures authentic_part { OnErr result
///     (BeginsAuthentic (secret key.now []) (W.contents output.old) (W.contents output.new)) }
/// ```
///
/// Definitions: [`IsSealed`](crate::specs::opening#IsSealed), [`secret`](crate::specs::format#secret),
/// [`opened_file`](crate::specs::opening#opened_file), [`OpenRefuses`](crate::specs::refusals#OpenRefuses),
/// [`AppendsRight`](crate::specs::streams#AppendsRight),
/// [`AppendsAuthentic`](crate::specs::streams#AppendsAuthentic),
/// [`BeginsAuthentic`](crate::specs::streams#BeginsAuthentic).
///
/// </details>
pub fn open<R: Read, W: Write>(
    key: &FileKey,
    input: &mut R,
    output: &mut W,
) -> Result<(), FileError> {
    open_with_aad(key, &[], input, output)
}

/// Like `open`, for a file that is bound to `aad`, at most `MAX_AAD_LEN` bytes. With other bytes than it was sealed with, the
/// first chunk is refused.
///
/// # Panics
///
/// Panics if `aad` has more than `MAX_AAD_LEN` bytes.
///
/// <details><summary>Contract</summary>
///
/// ```text
/// requires { length aad.now ≤ 4096 }
/// ensures accepted { OnOk result (IfSome (R.remaining input.old) (λ file. IsSealed (secret key.now aad.now) file)) }
/// ensures opened { OnOk result (IfSome (R.remaining input.old) (λ file.
///     Appends (W.contents output.old) (W.contents output.new) (opened_file (secret key.now aad.now) file))) }
/// ensures refused { IfErr result (λ error. IfSome (R.remaining input.old) (λ file.
///     OpenRefuses (secret key.now aad.now) file error)) }
/// ensures nothing_past { OnErr result (IfSome (R.remaining input.old) (λ file.
///     AppendsRight (secret key.now aad.now) file (W.contents output.old) (W.contents output.new))) }
/// ensures authentic { OnOk result
///     (AppendsAuthentic (secret key.now aad.now) (W.contents output.old) (W.contents output.new)) }
/// ensures authentic_part { OnErr result
///     (BeginsAuthentic (secret key.now aad.now) (W.contents output.old) (W.contents output.new)) }
/// ```
///
/// Definitions: [`IsSealed`](crate::specs::opening#IsSealed), [`secret`](crate::specs::format#secret),
/// [`opened_file`](crate::specs::opening#opened_file), [`OpenRefuses`](crate::specs::refusals#OpenRefuses),
/// [`AppendsRight`](crate::specs::streams#AppendsRight),
/// [`AppendsAuthentic`](crate::specs::streams#AppendsAuthentic),
/// [`BeginsAuthentic`](crate::specs::streams#BeginsAuthentic).
///
/// </details>
pub fn open_with_aad<R: Read, W: Write>(
    key: &FileKey,
    aad: &[u8],
    input: &mut R,
    output: &mut W,
) -> Result<(), FileError> {
    assert!(
        aad.len() <= crate::MAX_AAD_LEN,
        "aad has more than MAX_AAD_LEN bytes"
    );

    open_version(VERSION, key, aad, input, output)
}

/// Opens a file of this version, as `open_with_aad` does. `aad` is the AAD after the first `HEADER_LEN` bytes of the header.
// requires { length aad.now ≤ 4100 }
// ensures accepted { OnOk result (IfSome (R.remaining input.old) (λ file. IsSealed (secret_of version key.now aad.now) file)) }
// ensures opened { OnOk result (IfSome (R.remaining input.old) (λ file.
//     Appends (W.contents output.old) (W.contents output.new) (opened_file (secret_of version key.now aad.now) file))) }
// ensures refused { IfErr result (λ error. IfSome (R.remaining input.old) (λ file.
//     OpenRefuses (secret_of version key.now aad.now) file error)) }
// ensures nothing_past { OnErr result (IfSome (R.remaining input.old) (λ file.
//     AppendsRight (secret_of version key.now aad.now) file (W.contents output.old) (W.contents output.new))) }
// ensures authentic { OnOk result
//     (AppendsAuthentic (secret_of version key.now aad.now) (W.contents output.old) (W.contents output.new)) }
// ensures authentic_part { OnErr result
//     (BeginsAuthentic (secret_of version key.now aad.now) (W.contents output.old) (W.contents output.new)) }
pub(crate) fn open_version<R: Read, W: Write>(
    version: u8,
    key: &FileKey,
    aad: &[u8],
    input: &mut R,
    output: &mut W,
) -> Result<(), FileError> {
    let (mut chunk, mut next) = buffers()?;
    read_header(input, &mut chunk)?;
    let cipher = cipher_of(version, key, aad, &chunk)?;
    read_piece(input, SEALED_CHUNK_LEN, &mut chunk)?;
    for number in 0..MAX_CHUNKS {
        read_piece(input, SEALED_CHUNK_LEN, &mut next)?;
        let is_last = next.is_empty();
        open_chunk(&cipher, number, is_last, &mut chunk)?;
        write_bytes(output, &chunk)?;
        if is_last {
            return Ok(());
        }
        mem::swap(&mut chunk, &mut next);
    }
    Err(FileError::TooLong)
}
