// Written by tools/rust from crates/aead_ciphers_base/src/polyfill/slice.rt. Don't edit.
//! Views of slices as whole blocks: `AsChunks` for reading, `AsChunksMut` for writing.

mod chunks;
mod chunks_mut;

pub use chunks::{AsChunks, AsChunksIter, as_chunks};
pub use chunks_mut::{AsChunksMut, AsChunksMutChunksMutIter, as_chunks_mut};
