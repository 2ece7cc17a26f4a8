// Written by tools/rust from crates/records/src/reader.rt. Don't edit.
//! Reading the records of one direction, each under the next number, over key updates (RFC 8446 sections 5.2, 5.3 and 7.2).

mod early_data;

use crate::content_type::ContentType;
use crate::header::Header;
use crate::key::RecordKey;
use crate::record_error::RecordError;
use aead_ciphers::aead::{Algorithm, NONCE_LEN};
pub use early_data::EarlyData;
use key_derivation::Secret;

/// The largest number of records that a reader takes under one key, one fewer than there are numbers.
const MAX_RECORDS: u64 = u64::MAX;

/// Reads records, each under the next number, over key updates.
///
/// It cannot be cloned, and does not expose its key. An error that calls for an alert ends the connection (RFC 8446 section
/// 6.2) and closes the reader: every later call that can fail returns `Closed`.
///
/// # Examples
///
/// Reads the records that have arrived, and gathers their contents at the front of the buffer. A record that was changed on its way
/// closes the reader, and the caller ends the connection by the alert of the error.
///
/// ```
/// # use key_derivation as deerlapse_key_derivation;
/// use deerlapse_key_derivation::Secret;
/// use deerlapse_tls::ContentType::ApplicationData;
/// use deerlapse_tls::{AlertDescription, Begins, Reader, RecordError, RecordKind, Writer, classify};
///
/// fn main() -> Result<(), RecordError> {
///     let secret = || Secret::aes_128_gcm([7; 32]);
///     let mut writer = Writer::from_secret(secret());
///     let mut bytes = Vec::new();
///     writer.write(ApplicationData, b"hel", 0, &mut bytes)?;
///     writer.write(ApplicationData, b"lo", 14, &mut bytes)?;
///
///     let mut reader = Reader::from_secret(secret());
///     let (mut filled, mut at) = (0, 0);
///     while let Begins::Record(RecordKind::Protected, len) = classify(&bytes[at..])? {
///         let (content_type, content_len) = reader.gather(&mut bytes, filled, at, at + len)?;
///         assert_eq!(content_type, ApplicationData);
///         filled += content_len;
///         at += len;
///     }
///     assert_eq!(&bytes[..filled], b"hello");
///     assert_eq!(reader.number(), 2);
///
///     let mut record = Vec::new();
///     writer.write(ApplicationData, b"more", 0, &mut record)?;
///     record[5] ^= 1;
///     let error = reader.read(&mut record).unwrap_err();
///     assert_eq!(error, RecordError::Refused);
///     assert_eq!(error.alert(), Some(AlertDescription::BadRecordMac));
///     assert!(reader.is_closed());
///     Ok(())
/// }
/// ```
///
/// <details><summary>Model</summary>
///
/// ```text
/// ghost Value = { ReaderState };
/// ghost view = { λ r. record {
///   key = r.key;
///   secret = r.secret;
///   number = r.number;
///   limit = r.limit;
///   is_closed = r.is_closed;
/// } };
/// ghost invariant = { λ r. IfSome r.secret (λ s. IsKeyOf s r.key) };
/// ```
///
/// Definitions: [`ReaderState`](crate::specs::keys#ReaderState), [`IsKeyOf`](crate::specs::keys#IsKeyOf).
///
/// </details>
pub struct Reader {
    key: RecordKey,
    /// The traffic secret of the key, unless the caller gave the key.
    secret: Option<Secret>,
    number: u64,
    limit: u64,
    is_closed: bool,
}

impl Reader {
    /// Returns whether the key was derived from a traffic secret.
    pub(crate) fn has_secret(&self) -> bool {
        self.secret.is_some()
    }

    /// Creates a reader from a traffic secret, from which the key and the IV are derived, and those after each `update` (RFC 8446
    /// sections 7.2 and 7.3). Its next record is record 0, with the limit of `new`.
    ///
    /// A secret that no `update` reaches from this one, such as that of application data from that of the handshake, needs
    /// another reader.
    ///
    /// <details><summary>Contract</summary>
    ///
    /// ```text
    /// ensures { result ≡ reader_of secret }
    /// ```
    ///
    /// Definitions: [`reader_of`](crate::specs::keys#reader_of).
    ///
    /// </details>
    pub fn from_secret(secret: Secret) -> Self {
        Reader {
            key: RecordKey::from_secret(&secret),
            secret: Some(secret),
            number: 0,
            limit: MAX_RECORDS,
            is_closed: false,
        }
    }

    /// Creates a reader whose next record is record 0, with a limit of 2^64 - 1 records under each key: RFC 8446 section 5.5
    /// limits what is sealed. `key` has 16 or 32 bytes, and `iv` is the write_iv (section 7.3).
    ///
    /// # Errors
    ///
    /// Fails with `KeyLength` if `key` is not as long as the algorithm's keys.
    ///
    /// <details><summary>Contract</summary>
    ///
    /// ```text
    /// ensures accepted { IsOk result ↔ (length key.now ≡ key_len algorithm.now) }
    /// ensures refused { IsOkUnless result RecordError.KeyLength }
    /// ensures made { IfOk result (λ made. made ≡ record {
    ///   key = new_key algorithm.now key.now iv;
    ///   secret = None;
    ///   number = 0;
    ///   limit = 2 ^ 64 - 1;
    ///   is_closed = false;
    /// }) }
    /// ```
    ///
    /// Definitions: [`key_len`](aead_ciphers::specs::algorithm#key_len), [`new_key`](crate::specs::keys#new_key).
    ///
    /// </details>
    pub fn new(
        algorithm: &'static Algorithm,
        key: &[u8],
        iv: [u8; NONCE_LEN],
    ) -> Result<Self, RecordError> {
        Ok(Reader {
            key: RecordKey::new(algorithm, key, iv)?,
            secret: None,
            number: 0,
            limit: MAX_RECORDS,
            is_closed: false,
        })
    }

    /// Lowers the number of records under each key to `limit`. A higher limit has no effect.
    ///
    /// <details><summary>Contract</summary>
    ///
    /// ```text
    /// ensures { result ≡ record self { limit = min self.limit limit } }
    /// ```
    ///
    /// </details>
    pub fn with_limit(mut self, limit: u64) -> Self {
        self.limit = self.limit.min(limit);
        self
    }

    /// Sets the number of the next record, for a reader that takes over from another one. The records before it count towards
    /// the limit.
    ///
    /// <details><summary>Contract</summary>
    ///
    /// ```text
    /// ensures { result ≡ record self { number = number } }
    /// ```
    ///
    /// </details>
    pub fn starting_at(mut self, number: u64) -> Self {
        self.number = number;
        self
    }

    /// Returns the number of the next record.
    ///
    /// <details><summary>Contract</summary>
    ///
    /// ```text
    /// ensures { result ≡ self.now.number }
    /// ```
    ///
    /// </details>
    pub fn number(&self) -> u64 {
        self.number
    }

    /// Returns how many more records may be read under this key.
    ///
    /// <details><summary>Contract</summary>
    ///
    /// ```text
    /// ensures { result ≡ self.now.limit - self.now.number }
    /// ```
    ///
    /// </details>
    pub fn remaining(&self) -> u64 {
        self.limit.saturating_sub(self.number)
    }

    /// Returns whether the reader is closed, because it rejected a record.
    ///
    /// <details><summary>Contract</summary>
    ///
    /// ```text
    /// ensures { result ≡ self.now.is_closed }
    /// ```
    ///
    /// </details>
    pub fn is_closed(&self) -> bool {
        self.is_closed
    }

    /// Returns the size limit: the most bytes that an inner plaintext may have, including its content type and padding.
    ///
    /// <details><summary>Contract</summary>
    ///
    /// ```text
    /// ensures { result ≡ self.now.key.size_limit }
    /// ```
    ///
    /// </details>
    pub fn size_limit(&self) -> usize {
        self.key.size_limit()
    }

    /// Sets the size limit, from 64 to 2^14 + 1 bytes: the RecordSizeLimit that was sent to the peer (RFC 8449 section 4). It
    /// stays over key updates.
    ///
    /// # Errors
    ///
    /// Fails with `SizeLimit` for any other limit, and with `Closed` if the reader is closed. The reader is then unchanged.
    ///
    /// <details><summary>Contract</summary>
    ///
    /// ```text
    /// ensures accepted { IsOk result
    ///     ↔ (IsFalse self.old.is_closed × (64 ≤ size_limit) × (size_limit ≤ 2 ^ 14 + 1)) }
    /// ensures closed { IsTrue self.old.is_closed → IsErrOf result RecordError.Closed }
    /// ensures refused { IsFalse self.old.is_closed → IsOkUnless result RecordError.SizeLimit }
    /// ensures set { OnOk result (self.new
    ///     ≡ record self.old { key = record self.old.key { size_limit = size_limit } }) }
    /// ensures kept { OnErr result (self.new ≡ self.old) }
    /// ```
    ///
    /// </details>
    pub fn set_size_limit(&mut self, size_limit: usize) -> Result<(), RecordError> {
        if self.is_closed {
            return Err(RecordError::Closed);
        }
        self.key.set_size_limit(size_limit)
    }

    /// Continues under the next traffic secret, after a KeyUpdate was read. The number and the count of records start again at 0
    /// (RFC 8446 sections 5.3 and 7.2).
    ///
    /// # Errors
    ///
    /// Fails with `Closed` if the reader is closed, and with `NoSecret` if it was made of a key. It is then unchanged.
    ///
    /// <details><summary>Contract</summary>
    ///
    /// ```text
    /// ensures accepted { IsOk result ↔ (IsFalse self.old.is_closed × IsSome self.old.secret) }
    /// ensures closed { IsTrue self.old.is_closed → IsErrOf result RecordError.Closed }
    /// ensures refused { IsFalse self.old.is_closed → IsOkUnless result RecordError.NoSecret }
    /// ensures updated { OnOk result (self.new ≡ next_reader self.old) }
    /// ensures is_of { IsSome self.old.secret → IsOfSecret self.new.secret self.new.key }
    /// ensures kept { OnErr result (self.new ≡ self.old) }
    /// ```
    ///
    /// Definitions: [`next_reader`](crate::specs::keys#next_reader), [`IsOfSecret`](crate::specs::keys#IsOfSecret).
    ///
    /// </details>
    pub fn update(&mut self) -> Result<(), RecordError> {
        if self.is_closed {
            return Err(RecordError::Closed);
        }
        let Some(secret) = &self.secret else {
            return Err(RecordError::NoSecret);
        };
        let next = secret.next_traffic();
        let key = self.key.from_next_secret(&next);
        self.continue_with_key(key, Some(next));
        Ok(())
    }

    /// Continues with the next key and IV of this direction, after a KeyUpdate or the last record of the handshake was read.
    /// The number and the count of records start again at 0 (RFC 8446 sections 5.3 and 7.2).
    ///
    /// # Errors
    ///
    /// Fails with `Closed` if the reader is closed, with `HasSecret` if it was made of a secret, and with `KeyLength` if `key` is
    /// not as long as the algorithm's keys. The reader is then unchanged.
    ///
    /// <details><summary>Contract</summary>
    ///
    /// ```text
    /// ensures accepted { IsOk result ↔ (IsFalse self.old.is_closed × IsNone self.old.secret
    ///     × (length key.now ≡ key_len self.old.key.algorithm)) }
    /// ensures refused { IfErr result (RefusesReadKey self.old key.now) }
    /// ensures updated { OnOk result (self.new
    ///     ≡ record self.old { key = rekeyed self.old.key key.now iv; number = 0 }) }
    /// ensures kept { OnErr result (self.new ≡ self.old) }
    /// ```
    ///
    /// Definitions: [`key_len`](aead_ciphers::specs::algorithm#key_len),
    /// [`RefusesReadKey`](crate::specs::refusals#RefusesReadKey), [`rekeyed`](crate::specs::keys#rekeyed).
    ///
    /// </details>
    pub fn update_with(&mut self, key: &[u8], iv: [u8; NONCE_LEN]) -> Result<(), RecordError> {
        if self.is_closed {
            return Err(RecordError::Closed);
        }
        if self.secret.is_some() {
            return Err(RecordError::HasSecret);
        }
        let key = self.key.next(key, iv)?;
        self.continue_with_key(key, None);
        Ok(())
    }

    /// Continues with this key and its secret, from number 0 (RFC 8446 section 5.3).
    // requires { IfSome secret (λ s. IsKeyOf s key) }
    // ensures { self.new ≡ record self.old { key = key; secret = secret; number = 0 } }
    fn continue_with_key(&mut self, key: RecordKey, secret: Option<Secret>) {
        self.key = key;
        self.secret = secret;
        self.number = 0;
    }

    /// Opens the next record, which is `bytes[at..end]`, into the bytes from `filled` on, and returns the type of its content
    /// and its length in bytes. The content is then `bytes[filled..filled + length]`.
    ///
    /// With `filled` as the sum of the lengths so far, this gathers the contents of all records in a buffer at its front. The
    /// bytes before `filled` and from `end` on are unchanged.
    ///
    /// A failure does not use up the number, and closes the reader if the error has an alert. Unless the record is authentic,
    /// it leaves every byte unchanged. After `NoContentType`, `UnexpectedType`, `EmptyContent` and `AlertLength`, its inner
    /// plaintext begins at `filled`.
    ///
    /// # Panics
    ///
    /// Panics if `at` and `end` aren't a range of `bytes`, or if `filled` is beyond the header at `at`.
    ///
    /// <details><summary>Contract</summary>
    ///
    /// ```text
    /// requires before { filled ≤ at + header_len }
    /// requires range { (at ≤ end) × (end ≤ length bytes.old) }
    /// ensures reads { Reads self.old self.new (slice_range bytes.old at end)
    ///     (content_at filled bytes.new result) }
    /// ensures within { IfOk result (λ read. filled + encrypted_len read.1 ≤ end) }
    /// ensures put { IfOk result (LeavesInner (end - at) filled bytes.old bytes.new) }
    /// ensures kept { IfErr result (LeavesRefused self.old.key self.old.number
    ///     (slice_range bytes.old at end) filled bytes.old bytes.new) }
    /// ensures closed { IsTrue self.old.is_closed → IsErrOf result RecordError.Closed }
    /// ensures closes { IfErr result (λ error. self.new ≡ after_error self.old error) }
    /// ```
    ///
    /// Definitions: [`header_len`](crate::specs::record#header_len), [`Reads`](crate::specs::steps#Reads),
    /// [`content_at`](crate::specs::steps#content_at), [`encrypted_len`](crate::specs::record#encrypted_len),
    /// [`LeavesInner`](crate::specs::steps#LeavesInner), [`LeavesRefused`](crate::specs::steps#LeavesRefused),
    /// [`after_error`](crate::specs::steps#after_error).
    ///
    /// </details>
    pub fn gather(
        &mut self,
        bytes: &mut [u8],
        filled: usize,
        at: usize,
        end: usize,
    ) -> Result<(ContentType, usize), RecordError> {
        assert!(
            at <= end && end <= bytes.len(),
            "at and end aren't a range of bytes"
        );
        assert!(
            filled <= at + crate::HEADER_LEN,
            "filled is beyond the header at at"
        );

        if let Some(error) = self.refusal() {
            return Err(error);
        }
        let opened = self.key.open_within(self.number, bytes, filled, at, end);
        self.settle(opened)
    }

    /// Opens the next record, which is the whole of `bytes` and whose header was read, to the front of `bytes`.
    // requires header { header.now ≡ take header_len bytes.old }
    // requires begins { BeginsProtected bytes.old (length bytes.old) }
    // ensures reads { Reads self.old self.new bytes.old (content_at 0 bytes.new result) }
    // ensures within { IfOk result (λ read. encrypted_len read.1 ≤ length bytes.old) }
    // ensures kept { IfErr result
    //     (LeavesRefused self.old.key self.old.number bytes.old 0 bytes.old bytes.new) }
    pub(crate) fn read_headed(
        &mut self,
        header: &Header,
        bytes: &mut [u8],
    ) -> Result<(ContentType, usize), RecordError> {
        if let Some(error) = self.refusal() {
            return Err(error);
        }
        let opened = self.key.open_headed(self.number, header, bytes);
        self.settle(opened)
    }

    /// Returns why the next record is not read, if the reader is closed or its key is used up.
    // ensures none { IfNone result ((self.now.number < self.now.limit)
    //     × (self.now.number + 1 < 2 ^ 64) × IsFalse self.now.is_closed) }
    // ensures closed { IsTrue self.now.is_closed → result ≡ Some RecordError.Closed }
    // ensures reads { IfSome result (λ error. (bytes : List ℕ) → Reads self.now self.now bytes (Err error)) }
    // ensures kept { IfSome result (λ error. (bytes buffer : List ℕ) (at : ℕ)
    //     → LeavesRefused self.now.key self.now.number bytes at buffer buffer error) }
    fn refusal(&self) -> Option<RecordError> {
        if self.is_closed {
            return Some(RecordError::Closed);
        }
        if self.number >= self.limit {
            return Some(RecordError::KeyUsedUp);
        }
        None
    }

    /// Counts the record that was opened, or closes the reader if the error has an alert.
    // requires open { IsFalse self.old.is_closed }
    // requires next { self.old.number + 1 < 2 ^ 64 }
    // ensures same { result ≡ opened }
    // ensures counted { OnOk opened (self.new ≡ record self.old { number = self.old.number + 1 }) }
    // ensures stands { IfErr opened (λ error. self.new ≡ after_error self.old error) }
    fn settle(
        &mut self,
        opened: Result<(ContentType, usize), RecordError>,
    ) -> Result<(ContentType, usize), RecordError> {
        match &opened {
            Ok(_) => self.number += 1,
            Err(error) => self.is_closed = error.alert().is_some(),
        }
        opened
    }

    /// Opens the next record, which is the whole of `bytes`, and returns its type and its content, which is then at the front
    /// of `bytes`.
    ///
    /// This call does what `gather` does for one record. The clauses of `gather` say what the buffer then holds.
    ///
    /// <details><summary>Contract</summary>
    ///
    /// ```text
    /// ensures reads { Reads self.old self.new bytes.old (lent_content result) }
    /// ensures closed { IsTrue self.old.is_closed → IsErrOf result RecordError.Closed }
    /// ensures closes { IfErr result (λ error. self.new ≡ after_error self.old error) }
    /// ```
    ///
    /// Definitions: [`Reads`](crate::specs::steps#Reads), [`lent_content`](crate::specs::steps#lent_content),
    /// [`after_error`](crate::specs::steps#after_error).
    ///
    /// </details>
    pub fn read<'a>(
        &mut self,
        bytes: &'a mut [u8],
    ) -> Result<(ContentType, &'a [u8]), RecordError> {
        let end = bytes.len();
        let (content_type, len) = self.gather(bytes, 0, 0, end)?;
        Ok((content_type, &bytes[..len]))
    }
}
