// Written by tools/rust from crates/aead_ciphers_base/src/polyfill.rt. Don't edit.
//! Views of slices that the standard library may provide one day.

pub mod slice;
