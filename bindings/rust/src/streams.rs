//! QUIC's header masks, and the ChaCha20 stream.

use crate::{accepted, cpu, ffi, Unspecified, MASK_LEN, NONCE_LEN, SAMPLE_LEN};

/// Returns the header protection mask for a sample, with AES-128 for a key of 16 bytes and with AES-256 for one of 32
/// (RFC 9001 section 5.4.3).
///
/// # Errors
///
/// Fails if the key has any other length.
///
/// # Examples
///
/// ```no_run
/// // RFC 9001 appendix A.2
/// let key: u128 = 0x9f50449e04a0e810283a1e9933adedd2;
/// let sample: u128 = 0xd1b1c98dd7689fb8ec11d242b123dc9b;
/// let mask = deerlapse::mask_aes(&key.to_be_bytes(), &sample.to_be_bytes())?;
/// assert_eq!(mask, [0x43, 0x7b, 0x9a, 0xec, 0x36]);
/// # Ok::<(), deerlapse::Unspecified>(())
/// ```
pub fn mask_aes(key: &[u8], sample: &[u8; SAMPLE_LEN]) -> Result<[u8; MASK_LEN], Unspecified> {
    cpu::require();
    let mut mask = [0; MASK_LEN];
    // SAFETY: the pointer and its length are those of one slice, and the others are references.
    let made = unsafe { ffi::mask_aes(key.as_ptr(), key.len(), sample, &mut mask) };
    accepted(made)?;
    Ok(mask)
}

/// Returns the header protection mask for a sample, with ChaCha20 (RFC 9001 section 5.4.4).
///
/// ```no_run
/// // RFC 9001 appendix A.5
/// let key = [
///     0x25, 0xa2, 0x82, 0xb9, 0xe8, 0x2f, 0x06, 0xf2, 0x1f, 0x48, 0x89, 0x17, 0xa4, 0xfc, 0x8f, 0x1b,
///     0x73, 0x57, 0x36, 0x85, 0x60, 0x85, 0x97, 0xd0, 0xef, 0xcb, 0x07, 0x6b, 0x0a, 0xb7, 0xa7, 0xa4,
/// ];
/// let sample: u128 = 0x5e5cd55c41f69080575d7999c25a5bfb;
/// let mask = deerlapse::mask_chacha20(&key, &sample.to_be_bytes());
/// assert_eq!(mask, [0xae, 0xfe, 0xfe, 0x7d, 0x03]);
/// ```
#[must_use]
pub fn mask_chacha20(key: &[u8; 32], sample: &[u8; SAMPLE_LEN]) -> [u8; MASK_LEN] {
    cpu::require();
    let mut mask = [0; MASK_LEN];
    // SAFETY: the parameters are references.
    unsafe { ffi::mask_chacha20(key, sample, &mut mask) };
    mask
}

/// XORs `in_out` with the ChaCha20 stream from block `counter` on, which both encrypts and decrypts (RFC 8439 section
/// 2.4).
///
/// It computes no tag: a changed ciphertext decrypts to a changed plaintext.
///
/// # Errors
///
/// Fails if the stream would go past the last block, whose counter is 2^32 - 1.
///
/// # Examples
///
/// ```no_run
/// let mut bytes = *b"hello";
/// deerlapse::chacha20(&[0; 32], &[0; 12], 1, &mut bytes)?;
/// deerlapse::chacha20(&[0; 32], &[0; 12], 1, &mut bytes)?;
/// assert_eq!(bytes, *b"hello");
/// # Ok::<(), deerlapse::Unspecified>(())
/// ```
pub fn chacha20(
    key: &[u8; 32],
    nonce: &[u8; NONCE_LEN],
    counter: u32,
    in_out: &mut [u8],
) -> Result<(), Unspecified> {
    cpu::require();
    // SAFETY: the pointer and its length are those of one slice, borrowed for writing, and the others are references.
    accepted(unsafe { ffi::chacha20(key, nonce, counter, in_out.as_mut_ptr(), in_out.len()) })
}
