//! A run of the tests at each level of the processor.
//!
//! A level can only be lowered, and that of a process is one. So the tests of a file run again in processes of their own.

use std::process::Command;
use std::sync::Once;

/// The variable by which a process is told the number of levels that it may use.
const AT_MOST: &str = "DEERLAPSE_TESTS_AT_MOST";

/// Lowers the level as this process was told. Each test calls it first.
pub fn enter() {
    static ONCE: Once = Once::new();
    ONCE.call_once(|| {
        if let Ok(count) = std::env::var(AT_MOST) {
            let count = count.parse().expect("a number of levels");
            simd::at_most(count);
            assert_eq!(simd::levels().len(), count);
        }
    });
}

/// Runs the other tests of this file again at each lower level.
///
/// # Panics
///
/// Panics if one of them fails.
pub fn run_lower(name: &str) {
    if std::env::var_os(AT_MOST).is_some() {
        return;
    }
    for count in 1..simd::levels().len() {
        let program = std::env::current_exe().expect("the program of the tests");
        let status = Command::new(program)
            .args(["--skip", name])
            .env(AT_MOST, count.to_string())
            .status();
        assert!(
            status.expect("a run of the tests").success(),
            "the tests fail at {}",
            simd::levels()[count - 1]
        );
    }
}
