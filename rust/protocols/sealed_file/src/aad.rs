// Written by tools/rust from crates/sealed_file/src/aad.rt. Don't edit.
//! The additional authenticated data of a file's chunks.

use crate::header::{HEADER_LEN, copy_at};
use crate::passphrase::ITERATIONS_LEN;

/// The maximum length of a caller's AAD, in bytes.
pub const MAX_AAD_LEN: usize = 4096;

/// The maximum length of the AAD after the first `HEADER_LEN` bytes of the header: the iterations of version 3, and the caller's
/// AAD.
const MAX_REST_LEN: usize = ITERATIONS_LEN + MAX_AAD_LEN;

/// The AAD of a file's chunks: the header, and then the bytes of the caller.
// Model:
// ghost Value = { List ℕ };
// ghost view = { λ aad. take aad.len aad.bytes };
// ghost invariant = { λ aad. aad.len ≤ 4160 };
pub(crate) struct ChunkAad {
    bytes: [u8; HEADER_LEN + MAX_REST_LEN],
    len: usize,
}

impl ChunkAad {
    /// The AAD of a file whose header begins with these bytes, and the bytes after them.
    // requires { length bytes.now ≤ 4100 }
    // ensures { result ≡ header.now ++ bytes.now }
    pub(crate) fn new(header: &[u8; HEADER_LEN], bytes: &[u8]) -> ChunkAad {
        let mut all = [0; HEADER_LEN + MAX_REST_LEN];
        copy_at(header, &mut all, 0);
        copy_at(bytes, &mut all, HEADER_LEN);
        ChunkAad {
            bytes: all,
            len: HEADER_LEN + bytes.len(),
        }
    }

    /// Returns the bytes.
    // ensures bytes { result.now ≡ self.now }
    // ensures len { length result.now ≤ 4160 }
    pub(crate) fn as_slice(&self) -> &[u8] {
        &self.bytes[..self.len]
    }
}
