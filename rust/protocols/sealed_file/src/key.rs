// Written by tools/rust from crates/sealed_file/src/key.rt. Don't edit.
//! The key that files are sealed under.

use crate::derivation::commitment;
use crate::error::FileError;
use crate::header::{Context, VERSION, cipher_of};
use aead_ciphers_base::aes::AES_256_KEY_LEN;
use xaes::Xaes256Gcm;

/// A key of 32 bytes. The key of each file is derived from it.
///
/// <details><summary>Model</summary>
///
/// ```text
/// ghost Value = { List ℕ };
/// ghost view = { λ file_key. file_key.bytes };
/// ```
///
/// </details>
pub struct FileKey {
    pub(crate) bytes: [u8; AES_256_KEY_LEN],
}

/// Overwrites the secret fields with zeros.
impl Drop for FileKey {
    fn drop(&mut self) {
        simd::wipe(&mut self.bytes);
    }
}

impl FileKey {
    /// Creates a key from 32 bytes.
    ///
    /// # Errors
    ///
    /// Fails with `KeyLength` if `bytes` does not have 32 bytes.
    ///
    /// <details><summary>Contract</summary>
    ///
    /// ```text
    /// ensures accepted { IsOk result ↔ (length bytes.now ≡ 32) }
    /// ensures made { IfOk result (λ key. key ≡ bytes.now) }
    /// ensures refused { IfErr result (λ error. error ≡ FileError.KeyLength) }
    /// ```
    ///
    /// </details>
    pub fn new(bytes: &[u8]) -> Result<FileKey, FileError> {
        let bytes = simd::array_of(bytes).ok_or(FileError::KeyLength)?;
        Ok(FileKey { bytes: *bytes })
    }

    /// The key of XAES-256-GCM with the same bytes, which derives the keys of files.
    // ensures { result ≡ self.now }
    pub(crate) fn xaes(&self) -> Xaes256Gcm {
        Xaes256Gcm::new(&self.bytes)
    }

    /// Returns the AES-256-GCM key of the files whose random bytes begin with this context. It is the key that
    /// XAES-256-GCM derives for a nonce that begins with the context.
    ///
    /// <details><summary>Contract</summary>
    ///
    /// ```text
    /// ensures { result ≡ derived_key self.now context.now }
    /// ```
    ///
    /// Definitions: [`derived_key`](xaes::specs::derivation#derived_key).
    ///
    /// </details>
    pub fn derived_key(&self, context: &Context) -> [u8; AES_256_KEY_LEN] {
        self.xaes().derived_key(context)
    }

    /// Returns whether the file that begins with these bytes has the header that is defined for this key: its commitment is that
    /// of the key. The chunks are not opened.
    ///
    /// <details><summary>Contract</summary>
    ///
    /// ```text
    /// ensures { IsTrue result ↔ HasHeader (secret self.now []) (header_of header.now) }
    /// ```
    ///
    /// Definitions: [`HasHeader`](crate::specs::opening#HasHeader), [`secret`](crate::specs::format#secret),
    /// [`header_of`](crate::specs::opening#header_of).
    ///
    /// </details>
    pub fn is_of(&self, header: &[u8]) -> bool {
        cipher_of(VERSION, self, &[], header).is_ok()
    }

    /// Returns the commitment to this key, in the headers of the same files.
    ///
    /// <details><summary>Contract</summary>
    ///
    /// ```text
    /// ensures { result ≡ commitment self.now context.now }
    /// ```
    ///
    /// Definitions: [`commitment`](crate::specs::derivation#commitment).
    ///
    /// </details>
    pub fn commitment(&self, context: &Context) -> [u8; AES_256_KEY_LEN] {
        commitment(&self.xaes(), context)
    }
}
