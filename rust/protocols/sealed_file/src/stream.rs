// Written by tools/rust from crates/sealed_file/src/stream.rt. Don't edit.
//! Reading and writing pieces of a stream.

use crate::chunk::SEALED_CHUNK_LEN;
use crate::header::HEADER_LEN;
use deerlapse::memory::{TryGrow, try_with_capacity};
use std::io::{self, ErrorKind, Read, Write};

/// The error of a stream that is interrupted too many times in a row.
const ALWAYS_INTERRUPTED: &str = "interrupted too often";

/// Two buffers, each with room for a sealed chunk.
// ensures first { IfOk result (λ buffers. sealed_chunk_len ≤ vec_capacity buffers.0) }
// ensures second { IfOk result (λ buffers. sealed_chunk_len ≤ vec_capacity buffers.1) }
pub(crate) fn buffers() -> io::Result<(Vec<u8>, Vec<u8>)> {
    let first = try_with_capacity(SEALED_CHUNK_LEN)?;
    let second = try_with_capacity(SEALED_CHUNK_LEN)?;
    Ok((first, second))
}

/// Reads once into `buf` from `at` on.
// requires { at < length buf.old }
// ensures front { take at buf.new ≡ take at buf.old }
// ensures fits { IfOk result (λ n. at + n ≤ length buf.new) }
// ensures ok { IfOk result (λ n. Consumes (R.remaining input.old) (R.remaining input.new)
//     (take n (drop at buf.new))) }
// ensures err { OnErr result (Keeps (R.remaining input.old) (R.remaining input.new)) }
// ensures end { IfOk result (λ n. n ≡ 0 → IsAtEnd (R.remaining input.new)) }
fn read_once_at<R: Read>(input: &mut R, buf: &mut [u8], at: usize) -> io::Result<usize> {
    input.read(&mut buf[at..])
}

/// Fills `buf`, and returns the number of bytes read, which is less than its length only at the end of the input.
// ensures within { IfOk result (λ n. n ≤ length buf.new) }
// ensures bytes { IfOk result (λ n. Consumes (R.remaining input.old) (R.remaining input.new) (take n buf.new)) }
// ensures end { IfOk result (λ n. n < length buf.new → IsAtEnd (R.remaining input.new)) }
pub(crate) fn fill<R: Read>(input: &mut R, buf: &mut [u8]) -> io::Result<usize> {
    let mut filled = 0;
    for _ in 0..u64::MAX {
        if filled >= buf.len() {
            return Ok(filled);
        }
        match read_once_at(input, buf, filled) {
            Ok(0) => return Ok(filled),
            Ok(n) => filled += n,
            Err(error) => {
                if error.kind() != ErrorKind::Interrupted {
                    return Err(error);
                }
            }
        }
    }
    Err(io::Error::other(ALWAYS_INTERRUPTED))
}

/// Reads the next `len` bytes into `piece`, or the rest of the input if it is shorter.
// ensures size { OnOk result (vec_len piece.new ≤ len) }
// ensures bytes { OnOk result (IfSome (R.remaining input.old) (λ bytes.
//     TakesFront len bytes piece.new.items (R.remaining input.new))) }
pub(crate) fn read_piece<R: Read>(
    input: &mut R,
    len: usize,
    piece: &mut Vec<u8>,
) -> io::Result<()> {
    piece.try_resize(len, 0)?;
    let count = fill(input, piece)?;
    piece.truncate(count);
    Ok(())
}

/// Reads the header of a sealed file, or the part of it that the file has.
// ensures { OnOk result (IfSome (R.remaining input.old) (λ file.
//     TakesFront header_len file header.new.items (R.remaining input.new))) }
pub(crate) fn read_header<R: Read>(input: &mut R, header: &mut Vec<u8>) -> io::Result<()> {
    read_piece(input, HEADER_LEN, header)
}

/// Writes all of the bytes, or the beginning of them if that fails.
// ensures ok { OnOk result (Appends (W.contents output.old) (W.contents output.new) bytes.now) }
// ensures err { OnErr result
//     (AppendsBeginning (W.contents output.old) (W.contents output.new) bytes.now) }
pub(crate) fn write_bytes<W: Write>(output: &mut W, bytes: &[u8]) -> io::Result<()> {
    let mut rest = bytes;
    for _ in 0..u64::MAX {
        if rest.is_empty() {
            return Ok(());
        }
        match output.write(rest) {
            Ok(0) => return Err(io::Error::from(ErrorKind::WriteZero)),
            Ok(n) => rest = &rest[n..],
            Err(error) => {
                if error.kind() != ErrorKind::Interrupted {
                    return Err(error);
                }
            }
        }
    }
    Err(io::Error::other(ALWAYS_INTERRUPTED))
}
