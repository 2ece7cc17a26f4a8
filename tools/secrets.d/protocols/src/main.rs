//! Makes calls of the packages of rust/protocols with each secret byte marked as undefined: secrets, keys, IVs, the bits of a header
//! that a mask covers, payloads, contents and their types. Lengths and offsets are known. It prints how many openings compared a
//! tag, how many records were authentic, how many commitments of files were compared, and the level of vectors.
//!
//! The first argument is the number of levels that the calls may use, of those that the processor has. Without an argument, it
//! prints how many these are. With a second one, `branch` or `address`, it leaks a byte of a key instead, to show that this is
//! seen.

#![deny(unsafe_code)]

mod calls;
#[path = "../../rust/src/leaks.rs"]
mod leaks;
#[allow(unsafe_code)]
#[path = "../../rust/src/marks.rs"]
mod marks;

fn main() {
    leaks::run(calls::make);
}
