//! Keys of TLS 1.3's records, and the secrets that they come from.

use crate::{accepted, cpu, ffi, initialized, Unspecified, NONCE_LEN};
use core::fmt;

/// Overwrites a traffic secret of 32 or 48 bytes with the one after a KeyUpdate (RFC 8446 section 7.2).
///
/// # Errors
///
/// Fails if the secret has any other length.
///
/// # Examples
///
/// ```no_run
/// use deerlapse::{hkdf_expand_label, tls_next_secret};
///
/// let (mut secret, mut next) = ([7; 48], [0; 48]);
/// hkdf_expand_label(&secret, b"traffic upd", b"", &mut next)?;
/// tls_next_secret(&mut secret)?;
/// assert_eq!(secret, next);
/// # Ok::<(), deerlapse::Unspecified>(())
/// ```
pub fn tls_next_secret(secret: &mut [u8]) -> Result<(), Unspecified> {
    cpu::require();
    // SAFETY: the pointer and its length are those of one slice, which is borrowed for writing.
    accepted(unsafe { ffi::tls_next_secret(secret.as_mut_ptr(), secret.len()) })
}

/// An AES-GCM key and an IV that protect TLS 1.3's records in one direction by their numbers (RFC 8446 section 5.2).
///
/// It counts nothing: no number may be sealed twice under one key, a record that was opened before is opened again, and
/// how many records a key may seal (RFC 8446 section 5.5) is the caller's responsibility.
///
/// It holds the expanded key, as [`LessSafeKey`](crate::LessSafeKey) does: threads may share it, and it is wiped when it is
/// dropped.
///
/// ```no_run
/// use deerlapse::RecordKey;
///
/// const HANDSHAKE: u8 = 22;
///
/// let key = RecordKey::from_secret(&[7; 32])?;
/// let mut payload = [b"content".as_slice(), &[0; 17]].concat();
/// key.seal_in_place(0, HANDSHAKE, &mut payload, 7)?;
/// assert!(key.open_in_place(1, &mut payload).is_err());
/// let (content_type, content) = key.open_in_place(0, &mut payload)?;
/// assert_eq!((content_type, &*content), (HANDSHAKE, b"content".as_slice()));
/// # Ok::<(), deerlapse::Unspecified>(())
/// ```
#[derive(Clone)]
pub struct RecordKey(ffi::RecordKey);

impl RecordKey {
    /// Creates a key from an IV and 16 bytes, for AES-128-GCM, or 32, for AES-256-GCM.
    ///
    /// # Errors
    ///
    /// Fails if `key_bytes` has any other length.
    ///
    /// # Examples
    ///
    /// ```no_run
    /// use deerlapse::RecordKey;
    ///
    /// assert!(RecordKey::new(&[0; 16], &[0; 12]).is_ok());
    /// assert!(RecordKey::new(&[0; 32], &[0; 12]).is_ok());
    /// assert!(RecordKey::new(&[0; 24], &[0; 12]).is_err());
    /// ```
    #[inline]
    pub fn new(key_bytes: &[u8], iv: &[u8; NONCE_LEN]) -> Result<Self, Unspecified> {
        cpu::require();
        // SAFETY: the pointer and its length are those of one slice, and the IV is a reference. A call that returns true
        // wrote the whole key.
        let key = unsafe {
            initialized(|key| ffi::record_key_init(key, key_bytes.as_ptr(), key_bytes.len(), iv))
        };
        Ok(RecordKey(key?))
    }

    /// Creates the key and the IV of a traffic secret (RFC 8446 section 7.3), which has 32 bytes for
    /// TLS_AES_128_GCM_SHA256 and 48 for TLS_AES_256_GCM_SHA384.
    ///
    /// # Errors
    ///
    /// Fails if the secret has any other length.
    ///
    /// # Examples
    ///
    /// ```no_run
    /// use deerlapse::RecordKey;
    ///
    /// assert!(RecordKey::from_secret(&[0; 32]).is_ok());
    /// assert!(RecordKey::from_secret(&[0; 48]).is_ok());
    /// assert!(RecordKey::from_secret(&[0; 16]).is_err());
    /// ```
    #[inline]
    pub fn from_secret(secret: &[u8]) -> Result<Self, Unspecified> {
        cpu::require();
        // SAFETY: the pointer and its length are those of one slice. A call that returns true wrote the whole key.
        let key = unsafe {
            initialized(|key| ffi::record_key_from_secret(key, secret.as_ptr(), secret.len()))
        };
        Ok(RecordKey(key?))
    }

    /// Seals the payload of the record with this number in place: the bytes after its header, which is not in `payload`.
    /// Its length gives the AAD.
    ///
    /// The content is the first `content_len` bytes of `payload`. At least 17 more bytes come after it, which are written:
    /// the type, as many zeros as there is room for, as padding, and the tag.
    ///
    /// # Errors
    ///
    /// Fails if the type is 0, if `payload` does not have 17 bytes after the content, or if it is longer than 2^14 + 17
    /// bytes. The payload is then unchanged.
    ///
    /// # Examples
    ///
    /// ```no_run
    /// use deerlapse::{RecordKey, Unspecified};
    ///
    /// let key = RecordKey::from_secret(&[7; 48])?;
    /// let mut payload = [b"hello".as_slice(), &[0; 20]].concat(); // of which three bytes are padding
    /// assert_eq!(key.seal_in_place(0, 23, &mut payload, 9), Err(Unspecified));
    /// key.seal_in_place(0, 23, &mut payload, 5)?;
    /// let (content_type, content) = key.open_in_place(0, &mut payload)?;
    /// assert_eq!((content_type, &*content), (23, b"hello".as_slice()));
    /// # Ok::<(), deerlapse::Unspecified>(())
    /// ```
    pub fn seal_in_place(
        &self,
        number: u64,
        content_type: u8,
        payload: &mut [u8],
        content_len: usize,
    ) -> Result<(), Unspecified> {
        // SAFETY: the pointer and its length are those of one slice, which is borrowed for writing, so it overlaps
        // nothing. `new` or `from_secret` filled the key.
        accepted(unsafe {
            ffi::record_key_seal(
                &self.0,
                number,
                content_type,
                payload.as_mut_ptr(),
                payload.len(),
                content_len,
            )
        })
    }

    /// Opens the payload of the record with this number in place, the bytes after its header, and returns the type and
    /// the content, which is then at the front of `payload`.
    ///
    /// The type is 0, and the content empty, if the record is authentic but has no type, since its plaintext is zeros
    /// alone. TLS rejects this record, those of an unknown type, and those whose plaintext, without the tag, has more than
    /// 2^14 + 1 bytes (RFC 8446 sections 5.2 and 5.4): that is the caller's responsibility.
    ///
    /// # Errors
    ///
    /// Fails if the tag is wrong, or if `payload` has fewer than 17 or more than 2^14 + 256 bytes. The payload is then
    /// unchanged.
    ///
    /// # Examples
    ///
    /// ```no_run
    /// use deerlapse::{RecordKey, Unspecified};
    ///
    /// // RFC 8448 section 3: an alert of the server
    /// let secret = [
    ///     0xa1, 0x1a, 0xf9, 0xf0, 0x55, 0x31, 0xf8, 0x56, 0xad, 0x47, 0x11, 0x6b, 0x45, 0xa9, 0x50, 0x32,
    ///     0x82, 0x04, 0xb4, 0xf4, 0x4b, 0xfb, 0x6b, 0x3a, 0x4b, 0x4f, 0x1f, 0x3f, 0xcb, 0x63, 0x16, 0x43,
    /// ];
    /// let mut payload = [
    ///     0xb5, 0x8f, 0xd6, 0x71, 0x66, 0xeb, 0xf5, 0x99, 0xd2, 0x47, 0x20, 0xcf, 0xbe, 0x7e, 0xfa, 0x7a,
    ///     0x88, 0x64, 0xa9,
    /// ];
    /// let key = RecordKey::from_secret(&secret)?;
    /// assert_eq!(key.open_in_place(1, &mut payload), Err(Unspecified));
    /// let (content_type, content) = key.open_in_place(2, &mut payload)?;
    /// assert_eq!((content_type, &*content), (21, [1, 0].as_slice()));
    /// # Ok::<(), deerlapse::Unspecified>(())
    /// ```
    pub fn open_in_place<'a>(
        &self,
        number: u64,
        payload: &'a mut [u8],
    ) -> Result<(u8, &'a mut [u8]), Unspecified> {
        let (mut content_type, mut len) = (0, 0);
        // SAFETY: as in `seal_in_place`, and the type and the length are borrowed for writing.
        accepted(unsafe {
            ffi::record_key_open(
                &self.0,
                number,
                payload.as_mut_ptr(),
                payload.len(),
                &mut content_type,
                &mut len,
            )
        })?;
        Ok((content_type, &mut payload[..len]))
    }
}

/// Wipes the key and the IV.
impl Drop for ffi::RecordKey {
    fn drop(&mut self) {
        // SAFETY: the parameter is a reference.
        unsafe { ffi::record_key_wipe(self) };
    }
}

/// Prints nothing of the key or the IV.
impl fmt::Debug for RecordKey {
    fn fmt(&self, f: &mut fmt::Formatter<'_>) -> fmt::Result {
        f.debug_struct("RecordKey").finish_non_exhaustive()
    }
}
