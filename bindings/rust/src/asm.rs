//! The assembly of the library's functions for the program's target.

/// Includes the text in the folder `asm` for which the condition holds, with these options of `global_asm!`.
///
/// The texts are those for C. The symbol that is defined before one tells the assembler to give each function the name that
/// [`ffi`](crate::ffi) calls it by, and to leave out the note that all functions of the object have landing pads for CET or BTI:
/// rustc's own may be in the same object.
macro_rules! texts {
    ($($name:literal for $processors:literal ($($option:ident),*) if $condition:meta;)*) => {
        $(
            #[cfg(all(target_pointer_width = "64", target_endian = "little", $condition))]
            core::arch::global_asm!(
                ".set deerlapse_in_rust, 1",
                include_str!(concat!("../asm/", $name, ".s")),
                options($($option),*)
            );
        )*

        /// The texts that are included.
        #[cfg(test)]
        pub(crate) const TEXTS: &[&str] = &[$(
            #[cfg(all(target_pointer_width = "64", target_endian = "little", $condition))]
            concat!("asm/", $name, ".s, for ", $processors)
        ),*];

        #[cfg(not(all(target_pointer_width = "64", target_endian = "little", any($($condition),*))))]
        compile_error!(
            "the package `deerlapse` has no assembly for this target: it has x86-64 and ARM64, with addresses of 64 bits \
             and little-endian, for Linux, Android, FreeBSD and macOS, and x86-64 for Windows; where libdeerlapse is \
             installed, the feature `system` links that"
        );
    };
}

texts! {
    "x86_64-v2" for "x86-64-v2" (att_syntax, raw) if all(
        target_arch = "x86_64",
        any(target_os = "linux", target_os = "android", target_os = "freebsd")
    );
    "x86_64-v3" for "x86-64-v3" (att_syntax, raw) if all(
        target_arch = "x86_64",
        any(target_os = "linux", target_os = "android", target_os = "freebsd"),
        any(
            feature = "x86-64-v3",
            all(target_feature = "avx2", target_feature = "bmi2", target_feature = "fma")
        )
    );
    "x86_64-windows" for "x86-64-v2" (att_syntax, raw) if all(target_arch = "x86_64", target_os = "windows");
    "x86_64-macos" for "x86-64-v2" (att_syntax, raw) if all(target_arch = "x86_64", target_os = "macos");
    "aarch64" for "ARM64" (raw) if all(
        target_arch = "aarch64",
        any(target_os = "linux", target_os = "android", target_os = "freebsd")
    );
    "aarch64-macos" for "ARM64" (raw) if all(target_arch = "aarch64", target_os = "macos");
}

#[cfg(test)]
pub(crate) mod tests {
    use super::TEXTS;
    use std::env::consts::{ARCH, OS};
    use std::io::{stderr, Result, Write};

    /// Writes a line about the package to the stream itself, which `cargo test` shows even of a test that passes. It is
    /// written at once, so that it isn't mixed with those of other tests.
    pub(crate) fn say(text: &str) -> Result<()> {
        let version = env!("CARGO_PKG_VERSION");
        stderr().write_all(format!("\ndeerlapse {version} on {ARCH} {OS}: {text}\n").as_bytes())
    }

    #[test]
    fn says_the_target() -> Result<()> {
        let for_v3 = cfg!(all(
            target_feature = "avx2",
            target_feature = "bmi2",
            target_feature = "fma"
        ));
        let unused = if for_v3 { TEXTS.len() - 1 } else { 0 };
        say(&TEXTS[unused..].join("; "))
    }
}
