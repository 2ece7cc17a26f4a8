//! Runs deerlapse-ring beside ring.
//!
//! - `beside compare ROUNDS`: the same calls with random arguments; the results and the buffers must be the same.
//! - `beside speed`: the times of the calls, as rows of a table.

mod compare;
mod speed;

use std::env;
use std::process::ExitCode;

fn main() -> ExitCode {
    let arguments: Vec<String> = env::args().skip(1).collect();
    let arguments: Vec<&str> = arguments.iter().map(String::as_str).collect();
    match arguments[..] {
        ["compare", rounds] if rounds.parse::<u64>().is_ok() => {
            println!("{}", compare::run(rounds.parse().unwrap_or_default()));
        }
        ["speed"] => speed::run(),
        _ => {
            eprintln!("use: beside compare ROUNDS, beside speed");
            return ExitCode::from(2);
        }
    }
    ExitCode::SUCCESS
}
