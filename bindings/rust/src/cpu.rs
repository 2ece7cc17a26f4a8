//! What the library needs of the processor, and what the package needs of an installed library.

#[cfg(target_arch = "x86_64")]
use core::arch::{asm, x86_64};
#[cfg(target_arch = "x86_64")]
use core::sync::atomic::{AtomicU8, Ordering};

/// Whether the program is compiled for processors of level x86-64-v3, as far as the library uses it.
#[cfg(target_arch = "x86_64")]
pub(crate) const V3: bool = cfg!(all(
    target_feature = "avx2",
    target_feature = "bmi2",
    target_feature = "fma"
));

#[cfg(target_arch = "x86_64")]
const UNKNOWN: u8 = 0;

/// The level of this processor, as `asked_level` returns it.
#[cfg(target_arch = "x86_64")]
pub(crate) static LEVEL: AtomicU8 = AtomicU8::new(UNKNOWN);

/// Returns whether this processor has the instructions that the library uses. On x86-64 they are those of level
/// x86-64-v2, and of v3 if the program is compiled for AVX2, BMI2 and FMA; on ARM64 every processor has them.
///
/// The other functions and methods panic if it returns false, before they call the library.
///
/// ```no_run
/// assert!(deerlapse::cpu_supported());
/// ```
#[cfg(target_arch = "x86_64")]
#[must_use]
pub fn cpu_supported() -> bool {
    let level = match LEVEL.load(Ordering::Relaxed) {
        UNKNOWN => {
            let level = asked_level();
            // Nothing is changed if there is an answer by now, as a test puts one there.
            let _ = LEVEL.compare_exchange(UNKNOWN, level, Ordering::Relaxed, Ordering::Relaxed);
            level
        }
        level => level,
    };
    level >= if V3 { 3 } else { 2 }
}

/// Returns true, since every processor of this architecture has the instructions that the library uses.
#[cfg(not(target_arch = "x86_64"))]
#[must_use]
pub fn cpu_supported() -> bool {
    true
}

/// Panics if the processor lacks instructions, for which the system would end the program, or if an installed library has
/// another version, whose keys may be longer.
pub(crate) fn require() {
    assert!(
        cpu_supported(),
        "this processor lacks instructions that the library `deerlapse` uses: on x86-64 it needs level x86-64-v2, or v3 if \
         the program is compiled for that"
    );
    #[cfg(feature = "system")]
    assert!(
        is_this_version(),
        "the installed libdeerlapse isn't of the version of the package `deerlapse`, which is {}",
        env!("CARGO_PKG_VERSION")
    );
}

/// Whether the first two numbers of the installed library's version are those of the package's.
#[cfg(feature = "system")]
fn is_this_version() -> bool {
    // SAFETY: it has no parameter.
    let version = unsafe { crate::ffi::version() };
    env!("CARGO_PKG_VERSION_MAJOR").parse() == Ok(version >> 16)
        && env!("CARGO_PKG_VERSION_MINOR").parse() == Ok(version >> 8 & 0xff)
}

/// Whether the functions of level x86-64-v3 are called, by which a key was made. The processor was asked by then.
#[cfg(target_arch = "x86_64")]
#[allow(dead_code)] // where the package has one level's text
pub(crate) fn takes_v3() -> bool {
    V3 || LEVEL.load(Ordering::Relaxed) == 3
}

/// Asks the processor and the system for what the header's `deerlapse_cpu_supported` asks for at each level: returns 3 for
/// x86-64-v3, 2 for x86-64-v2, or 1.
#[cfg(target_arch = "x86_64")]
#[allow(unused_unsafe)] // `__cpuid` is a safe function in later versions of Rust
pub(crate) fn asked_level() -> u8 {
    const FMA: u32 = 1 << 12;
    const SSSE3: u32 = 1 << 9;
    const SSE4_2: u32 = 1 << 20;
    const POPCNT: u32 = 1 << 23;
    const OSXSAVE: u32 = 1 << 27;
    const AVX2: u32 = 1 << 5;
    const BMI2: u32 = 1 << 8;
    let has = |found: u32, wanted: u32| found & wanted == wanted;
    // SAFETY: every x86-64 processor has CPUID.
    let (leaves, basic) = unsafe { (x86_64::__cpuid(0).eax, x86_64::__cpuid(1).ecx) };
    if !has(basic, SSSE3 | SSE4_2 | POPCNT) {
        return 1;
    }
    let v3 = leaves >= 7
        && has(basic, FMA | OSXSAVE)
        // SAFETY: as above, and there is a leaf 7.
        && has(unsafe { x86_64::__cpuid_count(7, 0).ebx }, AVX2 | BMI2)
        && saves_wide_registers();
    if v3 {
        3
    } else {
        2
    }
}

/// Whether the system keeps the 32 bytes of a wide register for each thread, where the processor has OSXSAVE.
#[cfg(target_arch = "x86_64")]
fn saves_wide_registers() -> bool {
    const BOTH_HALVES: u32 = 6;
    let kept: u32;
    // SAFETY: with OSXSAVE there is XGETBV, and every register that it writes is named.
    unsafe {
        asm!("xgetbv", in("ecx") 0, out("eax") kept, out("edx") _, options(nomem, nostack, preserves_flags));
    }
    kept & BOTH_HALVES == BOTH_HALVES
}

#[cfg(all(test, target_arch = "x86_64"))]
mod tests {
    #[test]
    fn asks_the_processor_as_std_does() {
        let v2 = is_x86_feature_detected!("ssse3")
            && is_x86_feature_detected!("sse4.2")
            && is_x86_feature_detected!("popcnt");
        let v3 = is_x86_feature_detected!("avx2")
            && is_x86_feature_detected!("bmi2")
            && is_x86_feature_detected!("fma");
        assert_eq!(super::asked_level(), 1 + u8::from(v2) + u8::from(v2 && v3));
    }
}
