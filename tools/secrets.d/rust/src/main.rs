//! Makes the calls of the package `deerlapse` that take a key, and those of the keys over words, with each secret byte marked as
//! undefined: keys, nonces, AADs, messages and samples. Lengths, starts and numbers are known. It prints how many openings
//! compared a tag, and the level of vectors.
//!
//! The first argument is the number of levels that the calls may use, of those that the processor has. Without an argument, it
//! prints how many these are. With a second one, `branch` or `address`, it leaks a byte of a key instead, to show that this is
//! seen.

#![deny(unsafe_code)]

mod calls;
mod leaks;
#[allow(unsafe_code)]
mod marks;

fn main() {
    leaks::run(calls::make);
}
