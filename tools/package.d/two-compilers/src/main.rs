//! Makes random calls of the Rust of `rust/` and of the assembly of `dist/`, and fails if a result or a byte differs.
//!
//! Both are made of the same proved sources, by two compilers. So this doesn't compare the sources with a standard: it compares
//! rustc, `tools/rust` and the package `simd` with the toolchain's compiler and `tools/dist`.
//!
//! The argument is the number of levels of vectors that the Rust may use, of those that the processor has.

#![deny(unsafe_code)]

#[allow(unsafe_code)]
mod assembly;
mod calls;
mod cipher;
mod drawn;
mod plain;

use std::process::ExitCode;

use calls::Keys;
use vectors::drawn::Drawn;

/// How many calls are made on each side.
const CALLS: usize = 100_000;

/// How many calls are made under one key.
const CALLS_UNDER_KEY: usize = 8;

/// Makes the calls, and returns how many were refused.
fn run(seed: u64) -> Result<usize, String> {
    let drawn = &mut Drawn::new(seed);
    let mut keys = Keys::drawn(drawn)?;
    let mut refused = 0;
    for number in 0..CALLS {
        if number % CALLS_UNDER_KEY == 0 {
            keys = Keys::drawn(drawn)?;
        }
        let accepted = keys.call(drawn);
        let is_accepted = accepted.map_err(|why| format!("call {number} of seed {seed}: {why}"))?;
        refused += usize::from(!is_accepted);
    }
    Ok(refused)
}

fn main() -> ExitCode {
    let argument = std::env::args().nth(1).and_then(|it| it.parse().ok());
    let Some(count) = argument.filter(|count| (1..=simd::levels().len()).contains(count)) else {
        eprintln!(
            "two-compilers: an argument of 1 to {}",
            simd::levels().len()
        );
        return ExitCode::FAILURE;
    };
    simd::at_most(count);
    let level = simd::levels()[count - 1];
    match run(count as u64) {
        Ok(refused) => {
            println!("{CALLS} calls by {level} are equal, of which both refuse {refused}");
            ExitCode::SUCCESS
        }
        Err(why) => {
            eprintln!("by {level}, {why}");
            ExitCode::FAILURE
        }
    }
}
