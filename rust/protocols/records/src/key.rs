// Written by tools/rust from crates/records/src/key.rt. Don't edit.
//! A key that seals and opens records under the numbers that the caller gives.

use crate::content_type::ContentType;
use crate::header::{Header, header_in, header_of, header_of_payload, is_within};
use crate::inner::{content_of, inner_len, write_type_and_padding};
use crate::record_error::RecordError;
use crate::{HEADER_LEN, MAX_SIZE_LIMIT, MIN_SIZE_LIMIT, TAG_LEN};
use aead_ciphers::aead::{
    AES_128_GCM, AES_256_GCM, Aad, Algorithm, NONCE_LEN, Tag, UnboundKey, nonce_of,
};
use aead_ciphers_wide::aead::LessSafeKey;
use deerlapse::memory::AllocError;
use deerlapse::memory::TryGrow;
use key_derivation::{Secret, Suite};

/// Returns the AEAD algorithm of a suite.
// ensures { result.now ≡ suite_algorithm suite }
fn algorithm_of(suite: Suite) -> &'static Algorithm {
    match suite {
        Suite::Aes128Gcm => &AES_128_GCM,
        Suite::Aes256Gcm => &AES_256_GCM,
    }
}

/// A key and IV of one direction, which seals and opens records by their numbers, in place or from one buffer to another, and
/// without allocating.
///
/// A `RecordKey` doesn't count records: the caller must not seal two records under one number. `Writer` and `Reader` count.
///
/// # Examples
///
/// Seals the close_notify of the client of RFC 8448 section 3, its record 1, and opens it again. The caller counts the records: the
/// record doesn't open under another number.
///
/// ```
/// use deerlapse::aead::AES_128_GCM;
/// use deerlapse_tls::{CLOSE_NOTIFY, ContentType, HEADER_LEN, RecordError, RecordKey};
///
/// fn main() -> Result<(), RecordError> {
///     let key = 0x17422dda_596ed5d9_acd890e3_c63f5051_u128.to_be_bytes();
///     let iv = *b"\x5b\x78\x92\x3d\xee\x08\x57\x90\x33\xe5\x23\xd9";
///     let key = RecordKey::new(&AES_128_GCM, &key, iv)?;
///
///     // The content is sealed where the record has it, after its header.
///     let mut bytes = [0; 24];
///     bytes[HEADER_LEN..HEADER_LEN + 2].copy_from_slice(&CLOSE_NOTIFY);
///     let len = key.seal_at(1, ContentType::Alert, &mut bytes, 2, 0)?;
///     assert_eq!(len, 24);
///     let record = b"\x17\x03\x03\x00\x13\xc9\x87\x27\x60\x65\x56\x66\
///         \xb7\x4d\x7f\xf1\x15\x3e\xfd\x6d\xb6\xd0\xb0\xe3";
///     assert_eq!(&bytes, record);
///
///     assert_eq!(key.open_at(2, &mut bytes), Err(RecordError::Refused));
///     let (content_type, len) = key.open_at(1, &mut bytes)?;
///     assert_eq!(content_type, ContentType::Alert);
///     assert_eq!(bytes[HEADER_LEN..HEADER_LEN + len], CLOSE_NOTIFY);
///     Ok(())
/// }
/// ```
///
/// <details><summary>Model</summary>
///
/// ```text
/// ghost Value = { KeyState };
/// ghost view = { key_state };
/// ghost invariant = { λ key. key.size_limit ≤ 2 ^ 14 + 1 };
/// ```
///
/// Definitions: [`KeyState`](crate::specs::keys#KeyState), [`key_state`](crate::specs::keys#key_state).
///
/// </details>
pub struct RecordKey {
    key: LessSafeKey,
    iv: [u8; NONCE_LEN],
    size_limit: usize,
}

impl RecordKey {
    /// Creates a key from 16 or 32 bytes, the key length of the algorithm. `iv` is the write_iv (RFC 8446 section 7.3). The
    /// size limit is 2^14 + 1 bytes.
    ///
    /// # Errors
    ///
    /// Fails with `KeyLength` if `key` is not as long.
    ///
    /// <details><summary>Contract</summary>
    ///
    /// ```text
    /// ensures accepted { IsOk result ↔ (length key.now ≡ key_len algorithm.now) }
    /// ensures refused { IsOkUnless result RecordError.KeyLength }
    /// ensures made { IfOk result (λ made. made ≡ new_key algorithm.now key.now iv) }
    /// ```
    ///
    /// Definitions: [`key_len`](aead_ciphers::specs::algorithm#key_len), [`new_key`](crate::specs::keys#new_key).
    ///
    /// </details>
    pub fn new(
        algorithm: &'static Algorithm,
        key: &[u8],
        iv: [u8; NONCE_LEN],
    ) -> Result<Self, RecordError> {
        let key = UnboundKey::new(algorithm, key).map_err(|_| RecordError::KeyLength)?;
        Ok(RecordKey {
            key: LessSafeKey::new(key),
            iv,
            size_limit: MAX_SIZE_LIMIT,
        })
    }

    /// Returns the key of a traffic secret (RFC 8446 section 7.3).
    // ensures { result ≡ secret_key secret.now }
    pub(crate) fn from_secret(secret: &Secret) -> Self {
        let algorithm = algorithm_of(secret.suite());
        let keys = secret.record_keys();
        let Ok(key) = RecordKey::new(algorithm, keys.key.as_slice(), keys.iv) else {
            unreachable!();
        };
        key
    }

    /// Returns the key of `secret`, the next traffic secret of the direction, with the size limit of this key.
    // requires { self.now.algorithm ≡ suite_algorithm secret.now.suite }
    // ensures { result ≡ rekeyed self.now (record_key secret.now) (record_iv secret.now) }
    pub(crate) fn from_next_secret(&self, secret: &Secret) -> Self {
        let mut next = RecordKey::from_secret(secret);
        next.size_limit = self.size_limit;
        next
    }

    /// Returns whether this key has these bytes and this IV.
    // ensures { IsTrue result ↔ HasKey self.now key.now iv.now }
    pub(crate) fn has(&self, key: &[u8], iv: &[u8; NONCE_LEN]) -> bool {
        self.key.expanded().is_of(key) && self.iv == *iv
    }

    /// Returns the next key of the direction, with the algorithm and the size limit of this key.
    // ensures accepted { IsOk result ↔ (length key.now ≡ key_len self.now.algorithm) }
    // ensures refused { IsOkUnless result RecordError.KeyLength }
    // ensures made { IfOk result (λ made. made ≡ rekeyed self.now key.now iv) }
    pub(crate) fn next(&self, key: &[u8], iv: [u8; NONCE_LEN]) -> Result<Self, RecordError> {
        let mut next = RecordKey::new(self.key.algorithm(), key, iv)?;
        next.size_limit = self.size_limit;
        Ok(next)
    }

    /// Returns the size limit: the most bytes that an inner plaintext may have, including its content type and padding.
    ///
    /// <details><summary>Contract</summary>
    ///
    /// ```text
    /// ensures limit { result ≡ self.now.size_limit }
    /// ensures most { result ≤ 2 ^ 14 + 1 }
    /// ```
    ///
    /// </details>
    pub fn size_limit(&self) -> usize {
        self.size_limit
    }

    /// Sets the size limit, from 64 to 2^14 + 1 bytes (RFC 8449 section 4).
    ///
    /// For a key that seals, this is the RecordSizeLimit that the peer sent; for a key that opens, the one that was sent to the
    /// peer. Fails with `SizeLimit` for any other limit, and the key is then unchanged.
    ///
    /// <details><summary>Contract</summary>
    ///
    /// ```text
    /// ensures accepted { IsOk result ↔ ((64 ≤ size_limit) × (size_limit ≤ 2 ^ 14 + 1)) }
    /// ensures refused { IsOkUnless result RecordError.SizeLimit }
    /// ensures set { OnOk result (self.new ≡ record self.old { size_limit = size_limit }) }
    /// ensures kept { OnErr result (self.new ≡ self.old) }
    /// ```
    ///
    /// </details>
    pub fn set_size_limit(&mut self, size_limit: usize) -> Result<(), RecordError> {
        if !(MIN_SIZE_LIMIT..=MAX_SIZE_LIMIT).contains(&size_limit) {
            return Err(RecordError::SizeLimit);
        }
        self.size_limit = size_limit;
        Ok(())
    }

    /// Seals the record with this number in place, and returns its length, `content_len + padding + 22` bytes (RFC 8446
    /// sections 5.2 and 5.4).
    ///
    /// The content is the `content_len` bytes of `bytes` from byte 5 on. The header is written before it, and its type,
    /// `padding` zeros and the tag after it. The bytes after the tag are unchanged. Each number may be used only once.
    ///
    /// # Errors
    ///
    /// Fails with `EmptyContent` for an empty alert or handshake content, with `AlertLength` for an alert of another length than
    /// two bytes, with `ContentTooLong` if content, type and padding exceed the size limit, and with `NoRoom` if `bytes` is too
    /// short for the record. `bytes` is then unchanged.
    ///
    /// <details><summary>Contract</summary>
    ///
    /// ```text
    /// ensures accepted { IsOk result
    ///     ↔ (IsAllowed self.now.size_limit content_type content_len padding
    ///     × (record_len (content_len + padding) ≤ length bytes.old)) }
    /// ensures refused { IfErr result (RefusesToSeal
    ///     self.now.size_limit content_type content_len padding (length bytes.old)) }
    /// ensures len { IfOk result (λ n. n ≡ record_len (content_len + padding)) }
    /// ensures sealed { OnOk result (bytes.new ≡ record_at self.now number (record {
    ///   content_type = content_type;
    ///   content = slice_range bytes.old header_len (header_len + content_len);
    ///   padding = padding;
    /// }) ++ drop (record_len (content_len + padding)) bytes.old) }
    /// ensures kept { OnErr result (bytes.new ≡ bytes.old) }
    /// ```
    ///
    /// Definitions: [`IsAllowed`](crate::specs::record#IsAllowed), [`record_len`](crate::specs::record#record_len),
    /// [`RefusesToSeal`](crate::specs::refusals#RefusesToSeal), [`record_at`](crate::specs::record#record_at),
    /// [`header_len`](crate::specs::record#header_len).
    ///
    /// </details>
    pub fn seal_at(
        &self,
        number: u64,
        content_type: ContentType,
        bytes: &mut [u8],
        content_len: usize,
        padding: usize,
    ) -> Result<usize, RecordError> {
        let len = HEADER_LEN + self.inner_len(content_type, content_len, padding)? + TAG_LEN;
        if bytes.len() < len {
            return Err(RecordError::NoRoom);
        }
        self.seal_whole(number, content_type, &mut bytes[..len], content_len);
        Ok(len)
    }

    /// Like `seal_at` from one buffer to another: writes the record of this content to the front of `out`. The bytes after it
    /// are unchanged.
    ///
    /// # Errors
    ///
    /// Fails as `seal_at` does, with `NoRoom` if `out` is too short for the record. `out` is then unchanged.
    ///
    /// <details><summary>Contract</summary>
    ///
    /// ```text
    /// ensures accepted { IsOk result
    ///     ↔ (IsAllowed self.now.size_limit content_type (length content.now) padding
    ///     × (record_len (length content.now + padding) ≤ length out.old)) }
    /// ensures refused { IfErr result (RefusesToSeal
    ///     self.now.size_limit content_type (length content.now) padding (length out.old)) }
    /// ensures len { IfOk result (λ n. n ≡ record_len (length content.now + padding)) }
    /// ensures sealed { OnOk result (out.new ≡ record_at self.now number (record {
    ///   content_type = content_type;
    ///   content = content.now;
    ///   padding = padding;
    /// }) ++ drop (record_len (length content.now + padding)) out.old) }
    /// ensures kept { OnErr result (out.new ≡ out.old) }
    /// ```
    ///
    /// Definitions: [`IsAllowed`](crate::specs::record#IsAllowed), [`record_len`](crate::specs::record#record_len),
    /// [`RefusesToSeal`](crate::specs::refusals#RefusesToSeal), [`record_at`](crate::specs::record#record_at).
    ///
    /// </details>
    pub fn seal_to(
        &self,
        number: u64,
        content_type: ContentType,
        content: &[u8],
        padding: usize,
        out: &mut [u8],
    ) -> Result<usize, RecordError> {
        let len = HEADER_LEN + self.inner_len(content_type, content.len(), padding)? + TAG_LEN;
        if out.len() < len {
            return Err(RecordError::NoRoom);
        }
        self.seal_from(number, content_type, content, &mut out[..len]);
        Ok(len)
    }

    /// Seals the record with this number and this content. The record is the whole of `bytes`.
    // requires room { record_len (length content.now) ≤ length bytes.old }
    // requires fits { length bytes.old ≤ 2 ^ 15 }
    // ensures { bytes.new ≡ record_at self.now number (record {
    //   content_type = content_type;
    //   content = content.now;
    //   padding = length bytes.old - record_len (length content.now);
    // }) }
    pub(crate) fn seal_from(
        &self,
        number: u64,
        content_type: ContentType,
        content: &[u8],
        bytes: &mut [u8],
    ) {
        bytes[HEADER_LEN..HEADER_LEN + content.len()].copy_from_slice(content);
        self.seal_whole(number, content_type, bytes, content.len());
    }

    /// Appends the record with this number to `out`, which has room for it.
    // requires fits { length content.now + padding ≤ 2 ^ 14 }
    // requires room { vec_len out.old + record_len (length content.now + padding) ≤ vec_capacity out.old }
    // ensures { Appended (record_len (length content.now + padding)) (record_at self.now number
    //     (record { content_type = content_type; content = content.now; padding = padding })) out.old out.new }
    pub(crate) fn append(
        &self,
        number: u64,
        content_type: ContentType,
        content: &[u8],
        padding: usize,
        out: &mut Vec<u8>,
    ) {
        let header = header_of(content.len() + padding + 1 + TAG_LEN);
        let start = out.len() + HEADER_LEN;
        let Ok(()) = append_unsealed(&header, content_type, content, padding, out) else {
            unreachable!();
        };
        let tag = self.seal_message(number, &header, &mut out.as_mut_slice()[start..]);
        let Ok(()) = out.try_extend_from_slice(tag.as_ref()) else {
            unreachable!();
        };
    }

    /// Returns the length of the inner plaintext of a content of this type and length, if it may be sent.
    // ensures accepted { IsOk result
    //     ↔ IsAllowed self.now.size_limit content_type content_len padding }
    // ensures len { IfOk result (λ n. n ≡ content_len + 1 + padding) }
    // ensures refused { IfErr result
    //     (RefusesContent self.now.size_limit content_type content_len padding) }
    // ensures fits { OnOk result (content_len + padding ≤ 2 ^ 14) }
    pub(crate) fn inner_len(
        &self,
        content_type: ContentType,
        content_len: usize,
        padding: usize,
    ) -> Result<usize, RecordError> {
        inner_len(self.size_limit, content_type, content_len, padding)
    }

    /// Seals the payload of the record with this number in place, the bytes after its header, and returns its length,
    /// `content_len + padding + 17` bytes (RFC 8446 sections 5.2 and 5.4). That length gives the header, which is the AAD.
    ///
    /// The content is the first `content_len` bytes of `payload`. Its type, `padding` zeros and the tag are written after it.
    /// The bytes after the tag are unchanged. Each number may be used only once.
    ///
    /// # Errors
    ///
    /// Fails as `seal_at` does, with `NoRoom` if `payload` is too short. `payload` is then unchanged.
    ///
    /// <details><summary>Contract</summary>
    ///
    /// ```text
    /// ensures accepted { IsOk result
    ///     ↔ (IsAllowed self.now.size_limit content_type content_len padding
    ///     × (encrypted_len (content_len + padding) ≤ length payload.old)) }
    /// ensures refused { IfErr result (RefusesToSeal
    ///     self.now.size_limit content_type content_len padding (header_len + length payload.old)) }
    /// ensures len { IfOk result (λ n. n ≡ encrypted_len (content_len + padding)) }
    /// ensures sealed { OnOk result (header (encrypted_len (content_len + padding)) ++ payload.new
    ///     ≡ record_at self.now number (record {
    ///       content_type = content_type;
    ///       content = take content_len payload.old;
    ///       padding = padding;
    ///     }) ++ drop (encrypted_len (content_len + padding)) payload.old) }
    /// ensures kept { OnErr result (payload.new ≡ payload.old) }
    /// ```
    ///
    /// Definitions: [`IsAllowed`](crate::specs::record#IsAllowed),
    /// [`encrypted_len`](crate::specs::record#encrypted_len), [`RefusesToSeal`](crate::specs::refusals#RefusesToSeal),
    /// [`header_len`](crate::specs::record#header_len), [`header`](crate::specs::record#header),
    /// [`record_at`](crate::specs::record#record_at).
    ///
    /// </details>
    pub fn seal_payload(
        &self,
        number: u64,
        content_type: ContentType,
        payload: &mut [u8],
        content_len: usize,
        padding: usize,
    ) -> Result<usize, RecordError> {
        let len = self.inner_len(content_type, content_len, padding)? + TAG_LEN;
        if payload.len() < len {
            return Err(RecordError::NoRoom);
        }
        let header = header_of(len);
        self.seal_body(
            number,
            &header,
            content_type,
            &mut payload[..len],
            content_len,
        );
        Ok(len)
    }

    /// Seals the record with this number, which is the whole of `bytes` and whose content is in its place.
    // requires room { record_len content_len ≤ length bytes.old }
    // requires fits { length bytes.old ≤ 2 ^ 15 }
    // ensures { bytes.new ≡ record_at self.now number (record {
    //   content_type = content_type;
    //   content = take content_len (drop header_len bytes.old);
    //   padding = length bytes.old - record_len content_len;
    // }) }
    pub(crate) fn seal_whole(
        &self,
        number: u64,
        content_type: ContentType,
        bytes: &mut [u8],
        content_len: usize,
    ) {
        let (head, body) = bytes.split_at_mut(HEADER_LEN);
        let header = header_of(body.len());
        head.copy_from_slice(&header);
        self.seal_body(number, &header, content_type, body, content_len);
    }

    /// Seals the payload of the record with this number, which is the whole of `body` and begins with the content.
    // requires aad { aad.now ≡ header (length body.old) }
    // requires room { encrypted_len content_len ≤ length body.old }
    // requires fits { length body.old ≤ 2 ^ 15 }
    // ensures { header (length body.old) ++ body.new ≡ record_at self.now number (record {
    //   content_type = content_type;
    //   content = take content_len body.old;
    //   padding = length body.old - encrypted_len content_len;
    // }) }
    fn seal_body(
        &self,
        number: u64,
        aad: &[u8; HEADER_LEN],
        content_type: ContentType,
        body: &mut [u8],
        content_len: usize,
    ) {
        let message_len = body.len() - TAG_LEN;
        let (message, tag_bytes) = body.split_at_mut(message_len);
        write_type_and_padding(message, content_type.code(), content_len);
        let tag = self.seal_message(number, aad, message);
        tag_bytes.copy_from_slice(tag.as_ref());
    }

    /// Encrypts an inner plaintext in place under the nonce of this number, and returns its tag.
    // requires fits { length message.old ≤ 2 ^ 15 }
    // ensures ciphertext { message.new ≡ gcm_encrypted (aes self.now.bytes) (xored_nonce self.now.iv number) message.old }
    // ensures tag { result ≡ gcm_tag (aes self.now.bytes) (xored_nonce self.now.iv number) aad.now message.new }
    fn seal_message(&self, number: u64, aad: &[u8; HEADER_LEN], message: &mut [u8]) -> Tag {
        let nonce = nonce_of(&self.iv, number);
        let aad = Aad::from(aad.as_slice());
        let Ok(tag) = self.key.seal_in_place_separate_tag(nonce, aad, message) else {
            unreachable!();
        };
        tag
    }

    /// Opens the record with this number, which is the whole of `bytes`, in place, and returns the type of its content and its
    /// length in bytes. The content is then `bytes[5..5 + length]`.
    ///
    /// # Errors
    ///
    /// Fails with `WrongLength` if `bytes` is not as long as its header says; with `UnexpectedRecord`, `EncryptedRecordTooLong`,
    /// `InnerPlaintextTooLong` or `EncryptedRecordTooShort` if no record under this key has that header; and with `Refused` if
    /// the record is not authentic. `bytes` is then unchanged. An authentic record fails with `NoContentType`, `UnexpectedType`,
    /// `EmptyContent` or `AlertLength` for what it contains. Its inner plaintext then begins at byte 5. Header and tag are
    /// unchanged.
    ///
    /// <details><summary>Contract</summary>
    ///
    /// ```text
    /// ensures opens { Opens self.now number bytes.old (content_at header_len bytes.new result) }
    /// ensures within { IfOk result (λ read. record_len read.1 ≤ length bytes.old) }
    /// ensures put { IfOk result
    ///     (LeavesInner (length bytes.old) header_len bytes.old bytes.new) }
    /// ensures kept { IfErr result
    ///     (LeavesRefused self.now number bytes.old header_len bytes.old bytes.new) }
    /// ```
    ///
    /// Definitions: [`Opens`](crate::specs::steps#Opens), [`content_at`](crate::specs::steps#content_at),
    /// [`header_len`](crate::specs::record#header_len), [`record_len`](crate::specs::record#record_len),
    /// [`LeavesInner`](crate::specs::steps#LeavesInner), [`LeavesRefused`](crate::specs::steps#LeavesRefused).
    ///
    /// </details>
    pub fn open_at(
        &self,
        number: u64,
        bytes: &mut [u8],
    ) -> Result<(ContentType, usize), RecordError> {
        let end = bytes.len();
        self.open_within(number, bytes, HEADER_LEN, 0, end)
    }

    /// Opens the payload of the record with this number in place, the bytes after its header, and returns the type of its content
    /// and its length in bytes. The content is then `payload[..length]`. The length of `payload` gives the header, which is the
    /// AAD.
    ///
    /// The tag is unchanged. Fails as `open_at` does for the record with that header, with `EncryptedRecordTooLong` for any
    /// payload of more than 2^14 + 256 bytes. Unless the record is authentic, a failure leaves every byte unchanged. After
    /// `NoContentType`, `UnexpectedType`, `EmptyContent` and `AlertLength`, its inner plaintext is at the front of `payload`.
    ///
    /// <details><summary>Contract</summary>
    ///
    /// ```text
    /// ensures opens { length payload.old ≤ 2 ^ 14 + 256
    ///     → Opens self.now number (header (length payload.old) ++ payload.old)
    ///     (content_at 0 payload.new result) }
    /// ensures too_long { IsErrOf result RecordError.EncryptedRecordTooLong
    ///     ↔ (2 ^ 14 + 256 < length payload.old) }
    /// ensures within { IfOk result (λ read. encrypted_len read.1 ≤ length payload.old) }
    /// ensures put { IfOk result
    ///     (LeavesInner (header_len + length payload.old) 0 payload.old payload.new) }
    /// ensures kept { IfErr result (LeavesRefused self.now number
    ///     (header (length payload.old) ++ payload.old) 0 payload.old payload.new) }
    /// ```
    ///
    /// Definitions: [`Opens`](crate::specs::steps#Opens), [`header`](crate::specs::record#header),
    /// [`content_at`](crate::specs::steps#content_at), [`encrypted_len`](crate::specs::record#encrypted_len),
    /// [`LeavesInner`](crate::specs::steps#LeavesInner), [`header_len`](crate::specs::record#header_len),
    /// [`LeavesRefused`](crate::specs::steps#LeavesRefused).
    ///
    /// </details>
    pub fn open_payload(
        &self,
        number: u64,
        payload: &mut [u8],
    ) -> Result<(ContentType, usize), RecordError> {
        let header = header_of_payload(self.size_limit, payload)?;
        let len = self.open_front(number, &header, payload, 0)?;
        // Matched case by case because the prover does not find `opens` for both cases at once.
        match content_of(&payload[..len]) {
            Ok(found) => Ok(found),
            Err(error) => Err(error),
        }
    }

    /// Like `open_at` from one buffer to another: the content is then `out[..length]`. `out` has room for the inner plaintext,
    /// 21 bytes fewer than the record has, and the bytes after that are unchanged.
    ///
    /// # Errors
    ///
    /// Fails as `open_at` does, and with `NoRoom` if `out` is shorter and the header is right. Nothing is written before the
    /// record is authenticated. After `NoContentType`, `UnexpectedType`, `EmptyContent` and `AlertLength`, the record's inner
    /// plaintext is at the front of `out`; any other failure leaves `out` unchanged.
    ///
    /// <details><summary>Contract</summary>
    ///
    /// ```text
    /// ensures opens { length bytes.now ≤ header_len + length out.old + tag_len
    ///     → Opens self.now number bytes.now (content_at 0 out.new result) }
    /// ensures no_room { header_len + length out.old + tag_len < length bytes.now → (error : RecordError)
    ///     × IsErrOf result error × RefusesToOpenTo self.now.size_limit bytes.now error }
    /// ensures within { IfOk result (λ read. record_len read.1 ≤ length bytes.now) }
    /// ensures put { IfOk result (LeavesInner (length bytes.now) 0 out.old out.new) }
    /// ensures kept { IfErr result
    ///     (LeavesRefused self.now number bytes.now 0 out.old out.new) }
    /// ```
    ///
    /// Definitions: [`header_len`](crate::specs::record#header_len), [`tag_len`](aead_ciphers::specs::gcm#tag_len),
    /// [`Opens`](crate::specs::steps#Opens), [`content_at`](crate::specs::steps#content_at),
    /// [`RefusesToOpenTo`](crate::specs::refusals#RefusesToOpenTo), [`record_len`](crate::specs::record#record_len),
    /// [`LeavesInner`](crate::specs::steps#LeavesInner), [`LeavesRefused`](crate::specs::steps#LeavesRefused).
    ///
    /// </details>
    pub fn open_to(
        &self,
        number: u64,
        bytes: &[u8],
        out: &mut [u8],
    ) -> Result<(ContentType, usize), RecordError> {
        let header = header_in(self.size_limit, bytes)?;
        if out.len() < bytes.len() - HEADER_LEN - TAG_LEN {
            return Err(RecordError::NoRoom);
        }
        let len = self.open_message_to(number, &header, bytes, out)?;
        // Matched case by case because the prover does not find `opens` for both cases at once.
        match content_of(&out[..len]) {
            Ok(found) => Ok(found),
            Err(error) => Err(error),
        }
    }

    /// Opens the inner plaintext of a whole record to the front of `out`, and returns its length.
    // requires whole { IsWhole self.now.size_limit bytes.now }
    // requires header { header.now ≡ take header_len bytes.now }
    // requires room { length bytes.now ≤ header_len + length out.old + tag_len }
    // ensures opened { IfOk result
    //     (OpensMessage self.now number bytes.now 0 out.old out.new) }
    // ensures len { IfOk result (λ n. header_len + n + tag_len ≡ length bytes.now) }
    // ensures refused { IsOkUnless result RecordError.Refused }
    // ensures none { OnErr result ((message : List ℕ) → ¬ Seals self.now number bytes.now message) }
    // ensures kept { OnErr result (out.new ≡ out.old) }
    fn open_message_to(
        &self,
        number: u64,
        header: &[u8; HEADER_LEN],
        bytes: &[u8],
        out: &mut [u8],
    ) -> Result<usize, RecordError> {
        let len = bytes.len() - HEADER_LEN - TAG_LEN;
        let (ciphertext, tag) = bytes[HEADER_LEN..].split_at(len);
        let Ok(tag) = Tag::try_from(tag) else {
            unreachable!();
        };
        let nonce = nonce_of(&self.iv, number);
        let aad = Aad::from(header.as_slice());
        self.key
            .open_to(nonce, aad, tag, ciphertext, &mut out[..len])
            .map_err(|_| RecordError::Refused)?;
        Ok(len)
    }

    /// Opens the record `bytes[at..end]` into the bytes from `filled` on.
    // requires before { filled ≤ at + header_len }
    // requires range { (at ≤ end) × (end ≤ length bytes.old) }
    // ensures opens { Opens self.now number (slice_range bytes.old at end)
    //     (content_at filled bytes.new result) }
    // ensures within { IfOk result (λ read. filled + encrypted_len read.1 ≤ end) }
    // ensures put { IfOk result (LeavesInner (end - at) filled bytes.old bytes.new) }
    // ensures kept { IfErr result (LeavesRefused
    //     self.now number (slice_range bytes.old at end) filled bytes.old bytes.new) }
    pub(crate) fn open_within(
        &self,
        number: u64,
        bytes: &mut [u8],
        filled: usize,
        at: usize,
        end: usize,
    ) -> Result<(ContentType, usize), RecordError> {
        let header = header_in(self.size_limit, &bytes[at..end])?;
        self.open_whole(number, &header, bytes, filled, at, end)
    }

    /// Opens the record that is the whole of `bytes`, whose header was read, to the front of `bytes`.
    // requires header { header.now ≡ take header_len bytes.old }
    // requires begins { BeginsProtected bytes.old (length bytes.old) }
    // ensures opens { Opens self.now number bytes.old (content_at 0 bytes.new result) }
    // ensures within { IfOk result (λ read. encrypted_len read.1 ≤ length bytes.old) }
    // ensures kept { IfErr result (LeavesRefused self.now number bytes.old 0 bytes.old bytes.new) }
    pub(crate) fn open_headed(
        &self,
        number: u64,
        header: &Header,
        bytes: &mut [u8],
    ) -> Result<(ContentType, usize), RecordError> {
        if !is_within(self.size_limit, bytes) {
            return Err(RecordError::InnerPlaintextTooLong);
        }
        let end = bytes.len();
        self.open_whole(number, &header.bytes, bytes, 0, 0, end)
    }

    /// Opens the record `bytes[at..end]`, which has this header, into the bytes from `filled` on.
    // requires before { filled ≤ at + header_len }
    // requires range { (at ≤ end) × (end ≤ length bytes.old) }
    // requires whole { IsWhole self.now.size_limit (slice_range bytes.old at end) }
    // requires header { header.now ≡ take header_len (slice_range bytes.old at end) }
    // ensures opens { Opens self.now number (slice_range bytes.old at end)
    //     (content_at filled bytes.new result) }
    // ensures within { IfOk result (λ read. filled + encrypted_len read.1 ≤ end) }
    // ensures put { IfOk result (LeavesInner (end - at) filled bytes.old bytes.new) }
    // ensures kept { IfErr result (LeavesRefused
    //     self.now number (slice_range bytes.old at end) filled bytes.old bytes.new) }
    #[inline(always)]
    fn open_whole(
        &self,
        number: u64,
        header: &[u8; HEADER_LEN],
        bytes: &mut [u8],
        filled: usize,
        at: usize,
        end: usize,
    ) -> Result<(ContentType, usize), RecordError> {
        let len = self.open_message(number, header, bytes, filled, at, end)?;
        // Matched case by case because the prover does not find `opens` for both cases at once.
        match content_of(&bytes[filled..filled + len]) {
            Ok(read) => Ok(read),
            Err(error) => Err(error),
        }
    }

    /// Opens the inner plaintext of the record `bytes[at..end]`, which has this header, into the bytes from `filled` on, and
    /// returns its length.
    // requires before { filled ≤ at + header_len }
    // requires range { (at ≤ end) × (end ≤ length bytes.old) }
    // requires whole { IsWhole self.now.size_limit (slice_range bytes.old at end) }
    // requires header { header.now ≡ take header_len (slice_range bytes.old at end) }
    // ensures opened { IfOk result (OpensMessage
    //     self.now number (slice_range bytes.old at end) filled bytes.old bytes.new) }
    // ensures within { IfOk result (λ n. filled + n + tag_len ≤ end) }
    // ensures refused { IsOkUnless result RecordError.Refused }
    // ensures none { OnErr result
    //     ((message : List ℕ) → ¬ Seals self.now number (slice_range bytes.old at end) message) }
    // ensures kept { OnErr result (bytes.new ≡ bytes.old) }
    #[inline(always)]
    fn open_message(
        &self,
        number: u64,
        header: &[u8; HEADER_LEN],
        bytes: &mut [u8],
        filled: usize,
        at: usize,
        end: usize,
    ) -> Result<usize, RecordError> {
        self.open_front(
            number,
            header,
            &mut bytes[filled..end],
            at + HEADER_LEN - filled,
        )
    }

    /// Opens the record of this header and the bytes from `start` on, and returns the length of its inner plaintext, which is
    /// then at the front of `bytes`.
    // requires whole { IsWhole self.now.size_limit (header.now ++ drop start bytes.old) }
    // ensures opened { IfOk result (OpensMessage
    //     self.now number (header.now ++ drop start bytes.old) 0 bytes.old bytes.new) }
    // ensures within { IfOk result (λ n. start + n + tag_len ≡ length bytes.old) }
    // ensures refused { IsOkUnless result RecordError.Refused }
    // ensures none { OnErr result ((message : List ℕ)
    //     → ¬ Seals self.now number (header.now ++ drop start bytes.old) message) }
    // ensures kept { OnErr result (bytes.new ≡ bytes.old) }
    #[inline(always)]
    fn open_front(
        &self,
        number: u64,
        header: &[u8; HEADER_LEN],
        bytes: &mut [u8],
        start: usize,
    ) -> Result<usize, RecordError> {
        let nonce = nonce_of(&self.iv, number);
        let aad = Aad::from(header.as_slice());
        match self.key.open_within_to_front(nonce, aad, bytes, start..) {
            Ok(len) => Ok(len),
            Err(_) => Err(RecordError::Refused),
        }
    }
}

/// Appends a header and an inner plaintext to `out`, which has room for them.
// requires room { vec_len out.old + (header_len + length content.now + 1 + padding) ≤ vec_capacity out.old }
// ensures ok { IsOk result }
// ensures appended { Appended (header_len + length content.now + 1 + padding)
//     (header.now ++ plaintext content.now (type_code content_type) padding) out.old out.new }
fn append_unsealed(
    header: &[u8; HEADER_LEN],
    content_type: ContentType,
    content: &[u8],
    padding: usize,
    out: &mut Vec<u8>,
) -> Result<(), AllocError> {
    out.try_extend_from_slice(header)?;
    out.try_extend_from_slice(content)?;
    out.try_extend_from_slice(&[content_type.code()])?;
    out.try_resize(out.len() + padding, 0)
}
