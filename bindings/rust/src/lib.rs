// In this package and in those over it, the examples in doc comments are marked `no_run`: each that ran would be a program of its
// own, linked with the assembly. tools/package runs them as tests of one program.
#![doc = include_str!("../README.md")]
#![cfg_attr(not(test), no_std)]
#![warn(missing_docs)]

#[cfg(feature = "alloc")]
extern crate alloc;
#[cfg(test)]
extern crate self as deerlapse; // by which the tests of the package name it

#[cfg(not(feature = "system"))]
mod asm;
mod cpu;
mod ffi;
mod header_key;
mod hkdf;
mod key;
#[cfg(all(
    test,
    target_arch = "x86_64",
    feature = "alloc",
    not(feature = "system")
))]
mod levels;
mod message;
mod nonce;
mod opener;
mod quic_key;
mod record_key;
mod sealer;
mod streams;
mod xaes;

pub use cpu::cpu_supported;
pub use header_key::HeaderProtectionKey;
pub use hkdf::{hkdf_expand, hkdf_expand_label, hkdf_extract, hmac};
pub use key::LessSafeKey;
pub use message::SealingMessage;
pub use nonce::{nonce_of, Nonce, XaesNonce};
pub use opener::Opener;
pub use quic_key::{quic_initial_secrets, quic_next_secret, QuicKey, QuicVersion};
pub use record_key::{tls_next_secret, RecordKey};
pub use sealer::Sealer;
pub use streams::{chacha20, mask_aes, mask_chacha20};
pub use xaes::Xaes256Gcm;

use core::error::Error;
use core::fmt;
use core::mem::MaybeUninit;

/// The length of a nonce, in bytes. That of XAES-256-GCM is [`XAES_NONCE_LEN`].
///
/// ```no_run
/// assert_eq!(deerlapse::nonce_of(&[0; 12], 1).as_ref().len(), deerlapse::NONCE_LEN);
/// ```
pub const NONCE_LEN: usize = 12;

/// The length of a nonce of XAES-256-GCM, in bytes.
///
/// ```no_run
/// let nonce = deerlapse::XaesNonce::assume_unique_for_key([7; deerlapse::XAES_NONCE_LEN]);
/// ```
pub const XAES_NONCE_LEN: usize = 24;

/// The length of a tag, in bytes.
///
/// ```no_run
/// use deerlapse::{LessSafeKey, Nonce, TAG_LEN};
///
/// let mut buffer = b"hello".to_vec();
/// let nonce = Nonce::assume_unique_for_key([0; 12]);
/// LessSafeKey::new(&[0; 16])?.seal_in_place_append_tag(nonce, b"", &mut buffer)?;
/// assert_eq!(buffer.len(), 5 + TAG_LEN);
/// # Ok::<(), deerlapse::Unspecified>(())
/// ```
pub const TAG_LEN: usize = 16;

/// The length of a sample of QUIC's header protection, in bytes.
///
/// ```no_run
/// let sample = [0; deerlapse::SAMPLE_LEN];
/// assert!(deerlapse::mask_aes(&[0; 16], &sample).is_ok());
/// ```
pub const SAMPLE_LEN: usize = 16;

/// The length of a mask of QUIC's header protection, in bytes.
///
/// ```no_run
/// assert_eq!(deerlapse::mask_chacha20(&[0; 32], &[0; 16]).len(), deerlapse::MASK_LEN);
/// ```
pub const MASK_LEN: usize = 5;

/// Returns the version of the library in one number: 0x010203 for 1.2.3.
///
/// ```no_run
/// assert_eq!(deerlapse::version(), 0x000100);
/// ```
#[must_use]
pub fn version() -> u32 {
    cpu::require();
    // SAFETY: it has no parameter.
    unsafe { ffi::version() }
}

/// The error of every call. It does not say why the call failed: the documentation of each call lists the reasons.
///
/// ```no_run
/// use deerlapse::{LessSafeKey, Unspecified};
///
/// let refused: Result<LessSafeKey, Unspecified> = LessSafeKey::new(&[0; 24]);
/// assert!(matches!(refused, Err(Unspecified)));
/// ```
#[derive(Clone, Copy, Debug, PartialEq, Eq)]
pub struct Unspecified;

impl fmt::Display for Unspecified {
    fn fmt(&self, f: &mut fmt::Formatter<'_>) -> fmt::Result {
        f.write_str("unspecified")
    }
}

impl Error for Unspecified {}

/// Returns `Ok` if the library returned true.
#[inline]
fn accepted(answer: bool) -> Result<(), Unspecified> {
    if answer {
        Ok(())
    } else {
        Err(Unspecified)
    }
}

/// Returns the key that `init` writes, or fails if it returns false. The key's memory is not cleared before.
///
/// Clearing the memory and copying the key took a third as many instructions as expanding it. The functions that call this are
/// inlined, so that the compiler of the caller sees the copies, and leaves one.
///
/// # Safety
///
/// `init` must write every byte of the key if it returns true.
#[inline]
unsafe fn initialized<K>(init: impl FnOnce(*mut K) -> bool) -> Result<K, Unspecified> {
    let mut key = MaybeUninit::uninit();
    accepted(init(key.as_mut_ptr()))?;
    // SAFETY: `init` returned true.
    Ok(unsafe { key.assume_init() })
}
