//! The arguments of a program, and the leaks of a key's byte that show that one is seen.

use crate::marks::secrets;
use std::fmt::Display;
use std::hint::black_box;

#[inline(never)]
fn leaks_by_a_branch(key: &[u8]) {
    if key[0] & 1 == 1 {
        black_box(key);
    }
}

#[inline(never)]
fn leaks_by_an_address(key: &[u8]) {
    black_box(black_box(&[0u8; 256])[usize::from(key[0])]);
}

/// Does what the arguments say: counts the levels, makes the calls at one, or leaks a byte of a key.
pub fn run<C: Display>(make: impl FnOnce() -> C) {
    let words: Vec<String> = std::env::args().skip(1).collect();
    let [count, leak @ ..] = &words[..] else {
        println!("{}", simd::levels().len());
        return;
    };
    simd::at_most(count.parse().expect("a number of levels"));
    match leak.first().map(String::as_str) {
        None => println!("{} {}", make(), simd::levels()[simd::levels().len() - 1]),
        Some("branch") => leaks_by_a_branch(&secrets(32)),
        Some("address") => leaks_by_an_address(&secrets(32)),
        Some(other) => panic!("{other} is no leak"),
    }
}
