// Written by tools/rust from crates/aead_ciphers_base/src/overlapping.rt. Don't edit.
//! Buffers whose output overlaps their input. Read `Overlapping` first.

mod array;
mod base;
mod chunk;
mod partial_block;

pub use array::Array;
pub use base::Overlapping;
pub use chunk::Chunk;
pub(crate) use chunk::{chunk_at, map_chunk};
pub use partial_block::PartialBlock;
