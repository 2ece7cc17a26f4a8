//! HMAC and HKDF.

use crate::{accepted, cpu, ffi, Unspecified};

/// Writes the HMAC of a message under a key of any length (RFC 2104), with SHA-256 to a `code` of 32 bytes and with
/// SHA-384 to one of 48.
///
/// Compare codes in constant time.
///
/// # Errors
///
/// Fails if `code` has any other length. It is then unchanged.
///
/// # Examples
///
/// ```no_run
/// // RFC 4231 section 4.3
/// let mut code = [0; 32];
/// deerlapse::hmac(b"Jefe", b"what do ya want for nothing?", &mut code)?;
/// assert_eq!(code[..8], 0x5bdcc146bf60754e_u64.to_be_bytes());
/// # Ok::<(), deerlapse::Unspecified>(())
/// ```
pub fn hmac(key: &[u8], message: &[u8], code: &mut [u8]) -> Result<(), Unspecified> {
    cpu::require();
    // SAFETY: each pointer and its length are those of one slice, which is borrowed for the call. No pointer of a slice
    // is null. `code` is borrowed for writing, so it overlaps nothing.
    accepted(unsafe {
        ffi::hmac(
            key.as_ptr(),
            key.len(),
            message.as_ptr(),
            message.len(),
            code.as_mut_ptr(),
            code.len(),
        )
    })
}

/// HKDF-Extract: writes the pseudorandom key of a salt and input keying material (RFC 5869 section 2.2), with SHA-256 to
/// a `prk` of 32 bytes and with SHA-384 to one of 48.
///
/// # Errors
///
/// Fails if `prk` has any other length. It is then unchanged.
///
/// # Examples
///
/// ```no_run
/// // RFC 5869 appendix A.3
/// let mut prk = [0; 32];
/// deerlapse::hkdf_extract(b"", &[0x0b; 22], &mut prk)?;
/// assert_eq!(prk[..8], 0x19ef24a32c717b16_u64.to_be_bytes());
/// # Ok::<(), deerlapse::Unspecified>(())
/// ```
pub fn hkdf_extract(salt: &[u8], ikm: &[u8], prk: &mut [u8]) -> Result<(), Unspecified> {
    cpu::require();
    // SAFETY: as in `hmac`, with `prk` in the place of `code`.
    accepted(unsafe {
        ffi::hkdf_extract(
            salt.as_ptr(),
            salt.len(),
            ikm.as_ptr(),
            ikm.len(),
            prk.as_mut_ptr(),
            prk.len(),
        )
    })
}

/// HKDF-Expand: fills `out` with output keying material (RFC 5869 section 2.3), with SHA-256 from a `prk` of 32 bytes and
/// with SHA-384 from one of 48.
///
/// # Errors
///
/// Fails if `prk` has any other length, or if `out` is more than 255 times as long. `out` is then unchanged.
///
/// # Examples
///
/// ```no_run
/// // RFC 5869 appendix A.3
/// let (mut prk, mut out) = ([0; 32], [0; 42]);
/// deerlapse::hkdf_extract(b"", &[0x0b; 22], &mut prk)?;
/// deerlapse::hkdf_expand(&prk, b"", &mut out)?;
/// assert_eq!(out[..8], 0x8da4e775a563c18f_u64.to_be_bytes());
/// # Ok::<(), deerlapse::Unspecified>(())
/// ```
pub fn hkdf_expand(prk: &[u8], info: &[u8], out: &mut [u8]) -> Result<(), Unspecified> {
    cpu::require();
    // SAFETY: as in `hmac`, with `out` in the place of `code`.
    accepted(unsafe {
        ffi::hkdf_expand(
            prk.as_ptr(),
            prk.len(),
            info.as_ptr(),
            info.len(),
            out.as_mut_ptr(),
            out.len(),
        )
    })
}

/// HKDF-Expand-Label: fills `out` from a secret (RFC 8446 section 7.1), with SHA-256 from a `secret` of 32 bytes and with
/// SHA-384 from one of 48.
///
/// `label` is without its prefix `tls13 `. If `context` is the hash of the messages, and `out` is as long as `secret`, it
/// is Derive-Secret.
///
/// # Errors
///
/// Fails if `secret` has any other length, if `label` is empty or longer than 249 bytes, if `context` is longer than 255
/// bytes, or if `out` is more than 255 times as long as `secret`. `out` is then unchanged.
///
/// # Examples
///
/// ```no_run
/// use deerlapse::{hkdf_expand_label, quic_initial_secrets, QuicVersion};
///
/// // RFC 9001 appendix A.1
/// let id: u64 = 0x8394c8f03e515708;
/// let (client, _) = quic_initial_secrets(QuicVersion::V1, &id.to_be_bytes())?;
/// let mut key = [0; 16];
/// hkdf_expand_label(&client, b"quic key", b"", &mut key)?;
/// assert_eq!(u128::from_be_bytes(key), 0x1f369613dd76d5467730efcbe3b1a22d);
/// # Ok::<(), deerlapse::Unspecified>(())
/// ```
pub fn hkdf_expand_label(
    secret: &[u8],
    label: &[u8],
    context: &[u8],
    out: &mut [u8],
) -> Result<(), Unspecified> {
    cpu::require();
    // SAFETY: as in `hmac`, with `out` in the place of `code`.
    accepted(unsafe {
        ffi::hkdf_expand_label(
            secret.as_ptr(),
            secret.len(),
            label.as_ptr(),
            label.len(),
            context.as_ptr(),
            context.len(),
            out.as_mut_ptr(),
            out.len(),
        )
    })
}
