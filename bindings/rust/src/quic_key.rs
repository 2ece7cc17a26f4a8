//! Keys of QUIC's packets, and the secrets that they come from.

use crate::{accepted, cpu, ffi, initialized, Unspecified, NONCE_LEN, TAG_LEN};
use core::fmt;

/// A version of QUIC, whose value is its number in a long header (RFC 9000 section 15, RFC 9369 section 3.1).
///
/// ```no_run
/// assert_eq!(deerlapse::QuicVersion::V2 as u32, 0x6b3343cf);
/// ```
#[derive(Clone, Copy, Debug, PartialEq, Eq)]
#[repr(u32)]
pub enum QuicVersion {
    /// Version 1 (RFC 9000).
    V1 = 1,
    /// Version 2 (RFC 9369).
    V2 = 0x6b33_43cf,
}

/// The length of the secrets of Initial packets, which are of AES-128-GCM with SHA-256.
const INITIAL_SECRET_LEN: usize = 32;

/// Returns the secrets of the Initial packets that the client and the server send (RFC 9001 section 5.2, RFC 9369 section
/// 3.3.1).
///
/// `id` is the Destination Connection ID of the client's first Initial packet or, after a Retry packet, the one that it
/// brings. All who see that packet can compute the secrets.
///
/// # Errors
///
/// Fails if `id` is longer than 20 bytes.
///
/// # Examples
///
/// ```no_run
/// use deerlapse::{quic_initial_secrets, QuicVersion};
///
/// // RFC 9001 appendix A.1
/// let id: u64 = 0x8394c8f03e515708;
/// let (client, server) = quic_initial_secrets(QuicVersion::V1, &id.to_be_bytes())?;
/// assert_eq!(client[..8], 0xc00cf151ca5be075_u64.to_be_bytes());
/// assert_eq!(server[..8], 0x3c199828fd139efd_u64.to_be_bytes());
/// # Ok::<(), deerlapse::Unspecified>(())
/// ```
pub fn quic_initial_secrets(
    version: QuicVersion,
    id: &[u8],
) -> Result<([u8; INITIAL_SECRET_LEN], [u8; INITIAL_SECRET_LEN]), Unspecified> {
    cpu::require();
    let (mut client, mut server) = ([0; INITIAL_SECRET_LEN], [0; INITIAL_SECRET_LEN]);
    // SAFETY: the pointer and its length are those of one slice, and the arrays are borrowed for writing.
    accepted(unsafe {
        ffi::quic_initial_secrets(
            version as u32,
            id.as_ptr(),
            id.len(),
            &mut client,
            &mut server,
        )
    })?;
    Ok((client, server))
}

/// Overwrites a secret of 32 or 48 bytes with the one after a key update (RFC 9001 section 6.1, RFC 9369 section 3.3.2).
///
/// # Errors
///
/// Fails if the secret has any other length.
///
/// # Examples
///
/// ```no_run
/// use deerlapse::{hkdf_expand_label, quic_next_secret, QuicVersion};
///
/// let (mut secret, mut next) = ([7; 48], [0; 48]);
/// hkdf_expand_label(&secret, b"quic ku", b"", &mut next)?;
/// quic_next_secret(QuicVersion::V1, &mut secret)?;
/// assert_eq!(secret, next);
/// # Ok::<(), deerlapse::Unspecified>(())
/// ```
pub fn quic_next_secret(version: QuicVersion, secret: &mut [u8]) -> Result<(), Unspecified> {
    cpu::require();
    // SAFETY: the pointer and its length are those of one slice, which is borrowed for writing.
    accepted(unsafe { ffi::quic_next_secret(version as u32, secret.as_mut_ptr(), secret.len()) })
}

/// An AES-GCM key and an IV that protect QUIC's packets in one direction by their numbers (RFC 9001 section 5.3).
///
/// It counts nothing: no number may be sealed twice under one key, a packet that was opened before is opened again, and
/// the limits of RFC 9001 section 6.6 are the caller's responsibility.
///
/// It holds the expanded key, as [`LessSafeKey`](crate::LessSafeKey) does: threads may share it, and it is wiped when it is
/// dropped. [`HeaderProtectionKey`](crate::HeaderProtectionKey) masks the headers.
///
/// ```no_run
/// use deerlapse::{QuicKey, QuicVersion};
///
/// let key = QuicKey::from_secret(QuicVersion::V1, &[7; 32])?;
/// let (header, mut packet) = (b"header", *b"a payload, and room for the tag");
/// let (payload, tag) = packet.split_at_mut(15);
/// tag.copy_from_slice(&key.seal_in_place_separate_tag(3, header, payload)?);
/// assert!(key.open_in_place(4, header, &mut packet).is_err());
/// assert_eq!(key.open_in_place(3, header, &mut packet)?, b"a payload, and ");
/// # Ok::<(), deerlapse::Unspecified>(())
/// ```
#[derive(Clone)]
pub struct QuicKey(ffi::QuicKey);

impl QuicKey {
    /// Creates a key from an IV and 16 bytes, for AES-128-GCM, or 32, for AES-256-GCM.
    ///
    /// # Errors
    ///
    /// Fails if `key_bytes` has any other length.
    ///
    /// # Examples
    ///
    /// ```no_run
    /// use deerlapse::QuicKey;
    ///
    /// assert!(QuicKey::new(&[0; 16], &[0; 12]).is_ok());
    /// assert!(QuicKey::new(&[0; 32], &[0; 12]).is_ok());
    /// assert!(QuicKey::new(&[0; 24], &[0; 12]).is_err());
    /// ```
    #[inline]
    pub fn new(key_bytes: &[u8], iv: &[u8; NONCE_LEN]) -> Result<Self, Unspecified> {
        cpu::require();
        // SAFETY: the pointer and its length are those of one slice, and the IV is a reference. A call that returns true
        // wrote the whole key.
        let key = unsafe {
            initialized(|key| ffi::quic_key_init(key, key_bytes.as_ptr(), key_bytes.len(), iv))
        };
        Ok(QuicKey(key?))
    }

    /// Creates the key and the IV of a secret (RFC 9001 section 5.1, RFC 9369 section 3.3.2), which has 32 bytes for
    /// TLS_AES_128_GCM_SHA256 and 48 for TLS_AES_256_GCM_SHA384.
    ///
    /// # Errors
    ///
    /// Fails if the secret has any other length.
    ///
    /// # Examples
    ///
    /// ```no_run
    /// use deerlapse::{QuicKey, QuicVersion};
    ///
    /// assert!(QuicKey::from_secret(QuicVersion::V1, &[0; 32]).is_ok());
    /// assert!(QuicKey::from_secret(QuicVersion::V2, &[0; 48]).is_ok());
    /// assert!(QuicKey::from_secret(QuicVersion::V2, &[0; 16]).is_err());
    /// ```
    #[inline]
    pub fn from_secret(version: QuicVersion, secret: &[u8]) -> Result<Self, Unspecified> {
        cpu::require();
        // SAFETY: the pointer and its length are those of one slice. A call that returns true wrote the whole key.
        let key = unsafe {
            initialized(|key| {
                ffi::quic_key_from_secret(key, version as u32, secret.as_ptr(), secret.len())
            })
        };
        Ok(QuicKey(key?))
    }

    /// Encrypts the payload of the packet with this number in place, and returns its tag. `header` is the packet's, not
    /// masked yet.
    ///
    /// # Errors
    ///
    /// Fails if the number is 2^62 or more, or if the payload is longer than 2^36 - 32 bytes. The payload is then
    /// unchanged.
    ///
    /// # Examples
    ///
    /// ```no_run
    /// use deerlapse::{nonce_of, LessSafeKey, QuicKey};
    ///
    /// let (iv, mut payload, mut same) = ([9; 12], *b"hello", *b"hello");
    /// let tag = QuicKey::new(&[7; 16], &iv)?.seal_in_place_separate_tag(3, b"v1", &mut payload)?;
    /// let key = LessSafeKey::new(&[7; 16])?;
    /// assert_eq!(key.seal_in_place_separate_tag(nonce_of(&iv, 3), b"v1", &mut same)?, tag);
    /// assert_eq!(payload, same);
    /// # Ok::<(), deerlapse::Unspecified>(())
    /// ```
    pub fn seal_in_place_separate_tag(
        &self,
        number: u64,
        header: &[u8],
        payload: &mut [u8],
    ) -> Result<[u8; TAG_LEN], Unspecified> {
        let mut tag = [0; TAG_LEN];
        // SAFETY: each pointer and its length are those of one slice, which is borrowed for the call; `payload` and `tag`
        // are borrowed for writing, so they overlap nothing. `new` or `from_secret` filled the key.
        accepted(unsafe {
            ffi::quic_key_seal(
                &self.0,
                number,
                header.as_ptr(),
                header.len(),
                payload.as_mut_ptr(),
                payload.len(),
                &mut tag,
            )
        })?;
        Ok(tag)
    }

    /// Opens the payload of the packet with this number, which ends in its tag, and returns the plaintext, which is then
    /// at the front of `payload`. The tag is unchanged. `header` is the packet's, whose mask is removed.
    ///
    /// # Errors
    ///
    /// Fails if the tag is wrong, if the payload is shorter than 16 bytes, or for a number or a length for which
    /// [`seal_in_place_separate_tag`](Self::seal_in_place_separate_tag) does. The payload is then unchanged.
    ///
    /// # Examples
    ///
    /// ```no_run
    /// use deerlapse::{QuicKey, QuicVersion};
    ///
    /// let key = QuicKey::from_secret(QuicVersion::V2, &[7; 48])?;
    /// let mut payload = b"hello".to_vec();
    /// let tag = key.seal_in_place_separate_tag(3, b"header", &mut payload)?;
    /// payload.extend(tag);
    /// assert!(key.open_in_place(3, b"another", &mut payload).is_err());
    /// assert_eq!(key.open_in_place(3, b"header", &mut payload)?, b"hello");
    /// # Ok::<(), deerlapse::Unspecified>(())
    /// ```
    pub fn open_in_place<'a>(
        &self,
        number: u64,
        header: &[u8],
        payload: &'a mut [u8],
    ) -> Result<&'a mut [u8], Unspecified> {
        let mut len = 0;
        // SAFETY: as in `seal_in_place_separate_tag`, with `len` in the place of the tag.
        accepted(unsafe {
            ffi::quic_key_open(
                &self.0,
                number,
                header.as_ptr(),
                header.len(),
                payload.as_mut_ptr(),
                payload.len(),
                &mut len,
            )
        })?;
        Ok(&mut payload[..len])
    }
}

/// Wipes the key and the IV.
impl Drop for ffi::QuicKey {
    fn drop(&mut self) {
        // SAFETY: the parameter is a reference.
        unsafe { ffi::quic_key_wipe(self) };
    }
}

/// Prints nothing of the key or the IV.
impl fmt::Debug for QuicKey {
    fn fmt(&self, f: &mut fmt::Formatter<'_>) -> fmt::Result {
        f.debug_struct("QuicKey").finish_non_exhaustive()
    }
}
