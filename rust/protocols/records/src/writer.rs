// Written by tools/rust from crates/records/src/writer.rt. Don't edit.
//! Writing the records of one direction, each under the next number, over key updates (RFC 8446 sections 5.2, 5.3 and 7.2).

mod content;

use crate::content_type::ContentType;
use crate::key::RecordKey;
use crate::record_error::RecordError;
use crate::{DEFAULT_LIMIT, HEADER_LEN, TAG_LEN};
use aead_ciphers::aead::{Algorithm, NONCE_LEN};
use deerlapse::memory::TryGrow;
use key_derivation::Secret;

/// Writes records, each under the next number, over key updates. It cannot be cloned, and does not expose its key.
///
/// # Examples
///
/// Writes a server's handshake messages in records that the client's RecordSizeLimit allows, and then application data under a secret
/// of its own, over a KeyUpdate.
///
/// ```
/// # use key_derivation as deerlapse_key_derivation;
/// use deerlapse::tls_messages::message_type::KEY_UPDATE;
/// use deerlapse_key_derivation::Secret;
/// use deerlapse_tls::{ContentType, RecordError, Side, Writer};
///
/// fn main() -> Result<(), RecordError> {
///     let size_limit = Side::Server.size_limit_of(512)?; // what the client sent
///     let messages = [0; 1000]; // in place of EncryptedExtensions to Finished
///     let mut out = Vec::new();
///     let mut writer = Writer::from_secret(Secret::aes_128_gcm([7; 32]));
///     writer.set_size_limit(size_limit)?;
///     writer.write_content(ContentType::Handshake, &messages, 0, &mut out)?;
///     assert_eq!(writer.number(), 2);
///     assert_eq!(out.len(), 1000 + 2 * 22);
///
///     let mut writer = Writer::from_secret(Secret::aes_128_gcm([8; 32]));
///     writer.set_size_limit(size_limit)?;
///     writer.write(ContentType::ApplicationData, b"hello", 11, &mut out)?; // as long as 16 bytes
///     let not_requested = [KEY_UPDATE, 0, 0, 1, 0];
///     writer.write(ContentType::Handshake, &not_requested, 0, &mut out)?;
///     writer.update()?;
///     assert_eq!(writer.number(), 0);
///     writer.close_notify(&mut out)
/// }
/// ```
///
/// <details><summary>Model</summary>
///
/// ```text
/// ghost Value = { WriterState };
/// ghost view = { λ w. record {
///   key = w.key;
///   secret = w.secret;
///   number = w.number;
///   limit = w.limit;
/// } };
/// ghost invariant = { λ w. IfSome w.secret (λ s. IsKeyOf s w.key) × (w.limit < 2 ^ 64) };
/// ```
///
/// Definitions: [`WriterState`](crate::specs::keys#WriterState), [`IsKeyOf`](crate::specs::keys#IsKeyOf).
///
/// </details>
pub struct Writer {
    key: RecordKey,
    /// The traffic secret of the key, unless the caller gave the key.
    secret: Option<Secret>,
    number: u64,
    limit: u64,
}

impl Writer {
    /// Returns whether the key was derived from a traffic secret.
    pub(crate) fn has_secret(&self) -> bool {
        self.secret.is_some()
    }

    /// Creates a writer from a traffic secret, from which the key and the IV are derived, and those after each `update` (RFC 8446
    /// sections 7.2 and 7.3). Its next record is record 0, with the limit of `new`.
    ///
    /// A secret that no `update` reaches from this one, such as that of application data from that of the handshake, needs
    /// another writer.
    ///
    /// <details><summary>Contract</summary>
    ///
    /// ```text
    /// ensures { result ≡ writer_of secret }
    /// ```
    ///
    /// Definitions: [`writer_of`](crate::specs::keys#writer_of).
    ///
    /// </details>
    pub fn from_secret(secret: Secret) -> Self {
        Writer {
            key: RecordKey::from_secret(&secret),
            secret: Some(secret),
            number: 0,
            limit: DEFAULT_LIMIT,
        }
    }

    /// Creates a writer whose next record is record 0, with a limit of 2^24 records under each key (RFC 8446 section 5.5).
    /// `key` has 16 or 32 bytes, and `iv` is the write_iv (section 7.3).
    ///
    /// # Errors
    ///
    /// Fails with `KeyLength` if `key` is not as long as the algorithm's keys.
    ///
    /// <details><summary>Contract</summary>
    ///
    /// ```text
    /// ensures accepted { IsOk result ↔ (length key.now ≡ key_len algorithm.now) }
    /// ensures refused { IsOkUnless result RecordError.KeyLength }
    /// ensures made { IfOk result (λ made. made ≡ record {
    ///   key = new_key algorithm.now key.now iv;
    ///   secret = None;
    ///   number = 0;
    ///   limit = 2 ^ 24;
    /// }) }
    /// ```
    ///
    /// Definitions: [`key_len`](aead_ciphers::specs::algorithm#key_len), [`new_key`](crate::specs::keys#new_key).
    ///
    /// </details>
    pub fn new(
        algorithm: &'static Algorithm,
        key: &[u8],
        iv: [u8; NONCE_LEN],
    ) -> Result<Self, RecordError> {
        Ok(Writer {
            key: RecordKey::new(algorithm, key, iv)?,
            secret: None,
            number: 0,
            limit: DEFAULT_LIMIT,
        })
    }

    /// Lowers the number of records under each key to `limit`. A higher limit has no effect.
    ///
    /// At its limit, a writer can send neither a KeyUpdate nor close_notify, so the caller keeps the last two numbers of a key
    /// for them. `connection::Connection` does so.
    ///
    /// <details><summary>Contract</summary>
    ///
    /// ```text
    /// ensures { result ≡ record self { limit = min self.limit limit } }
    /// ```
    ///
    /// </details>
    pub fn with_limit(mut self, limit: u64) -> Self {
        self.limit = self.limit.min(limit);
        self
    }

    /// Returns the number of the next record, which is the number of records written under this key.
    ///
    /// <details><summary>Contract</summary>
    ///
    /// ```text
    /// ensures { result ≡ self.now.number }
    /// ```
    ///
    /// </details>
    pub fn number(&self) -> u64 {
        self.number
    }

    /// Returns the number of records that may be written under each key.
    ///
    /// <details><summary>Contract</summary>
    ///
    /// ```text
    /// ensures { result ≡ self.now.limit }
    /// ```
    ///
    /// </details>
    pub fn limit(&self) -> u64 {
        self.limit
    }

    /// Returns how many more records may be written under this key.
    ///
    /// <details><summary>Contract</summary>
    ///
    /// ```text
    /// ensures { result ≡ self.now.limit - self.now.number }
    /// ```
    ///
    /// </details>
    pub fn remaining(&self) -> u64 {
        self.limit.saturating_sub(self.number)
    }

    /// Returns the size limit: the most bytes that an inner plaintext may have, including its content type and padding.
    ///
    /// <details><summary>Contract</summary>
    ///
    /// ```text
    /// ensures { result ≡ self.now.key.size_limit }
    /// ```
    ///
    /// </details>
    pub fn size_limit(&self) -> usize {
        self.key.size_limit()
    }

    /// Sets the size limit, from 64 to 2^14 + 1 bytes: the RecordSizeLimit that the peer sent (RFC 8449 section 4), as
    /// `Side::size_limit_of` gives it. A longer content is cut by `write_content` and `seal_content`, and rejected by `write` and
    /// `seal`. The limit stays over key updates.
    ///
    /// # Errors
    ///
    /// Fails with `SizeLimit` for any other limit, and the writer is then unchanged.
    ///
    /// <details><summary>Contract</summary>
    ///
    /// ```text
    /// ensures accepted { IsOk result ↔ ((64 ≤ size_limit) × (size_limit ≤ 2 ^ 14 + 1)) }
    /// ensures refused { IsOkUnless result RecordError.SizeLimit }
    /// ensures set { OnOk result (self.new
    ///     ≡ record self.old { key = record self.old.key { size_limit = size_limit } }) }
    /// ensures kept { OnErr result (self.new ≡ self.old) }
    /// ```
    ///
    /// </details>
    pub fn set_size_limit(&mut self, size_limit: usize) -> Result<(), RecordError> {
        self.key.set_size_limit(size_limit)
    }

    /// Continues under the next traffic secret, after a KeyUpdate was written. The number and the count of records start again at
    /// 0 (RFC 8446 sections 5.3 and 7.2).
    ///
    /// # Errors
    ///
    /// Fails with `NoSecret` if the writer was made of a key. It is then unchanged.
    ///
    /// <details><summary>Contract</summary>
    ///
    /// ```text
    /// ensures accepted { IsOk result ↔ IsSome self.old.secret }
    /// ensures refused { IsOkUnless result RecordError.NoSecret }
    /// ensures updated { OnOk result (self.new ≡ next_writer self.old) }
    /// ensures is_of { IsSome self.old.secret → IsOfSecret self.new.secret self.new.key }
    /// ensures kept { OnErr result (self.new ≡ self.old) }
    /// ```
    ///
    /// Definitions: [`next_writer`](crate::specs::keys#next_writer), [`IsOfSecret`](crate::specs::keys#IsOfSecret).
    ///
    /// </details>
    pub fn update(&mut self) -> Result<(), RecordError> {
        let Some(secret) = &self.secret else {
            return Err(RecordError::NoSecret);
        };
        let next = secret.next_traffic();
        let key = self.key.from_next_secret(&next);
        self.continue_with_key(key, Some(next));
        Ok(())
    }

    /// Continues with the next key and IV of this direction, after a KeyUpdate or the last record of the handshake was written.
    /// The number and the count of records start again at 0 (RFC 8446 sections 5.3 and 7.2).
    ///
    /// # Errors
    ///
    /// Fails with `HasSecret` if the writer was made of a secret, with `SameKey` if it has this key and this IV, whose numbers
    /// from 0 on it has used or will use, and with `KeyLength` if `key` is not as long as the algorithm's keys. The writer is
    /// then unchanged. Keys before the current one are not remembered: the caller must not give one of them again.
    ///
    /// <details><summary>Contract</summary>
    ///
    /// ```text
    /// ensures accepted { IsOk result ↔ (IsNone self.old.secret × (¬ HasKey self.old.key key.now iv)
    ///     × (length key.now ≡ key_len self.old.key.algorithm)) }
    /// ensures refused { IfErr result (RefusesWriteKey self.old key.now iv) }
    /// ensures updated { OnOk result (self.new
    ///     ≡ record self.old { key = rekeyed self.old.key key.now iv; number = 0 }) }
    /// ensures kept { OnErr result (self.new ≡ self.old) }
    /// ```
    ///
    /// Definitions: [`HasKey`](crate::specs::keys#HasKey), [`key_len`](aead_ciphers::specs::algorithm#key_len),
    /// [`RefusesWriteKey`](crate::specs::refusals#RefusesWriteKey), [`rekeyed`](crate::specs::keys#rekeyed).
    ///
    /// </details>
    pub fn update_with(&mut self, key: &[u8], iv: [u8; NONCE_LEN]) -> Result<(), RecordError> {
        if self.secret.is_some() {
            return Err(RecordError::HasSecret);
        }
        if self.key.has(key, &iv) {
            return Err(RecordError::SameKey);
        }
        let key = self.key.next(key, iv)?;
        self.continue_with_key(key, None);
        Ok(())
    }

    /// Continues with this key and its secret, from number 0 (RFC 8446 section 5.3).
    // requires { IfSome secret (λ s. IsKeyOf s key) }
    // ensures { self.new ≡ record self.old { key = key; secret = secret; number = 0 } }
    fn continue_with_key(&mut self, key: RecordKey, secret: Option<Secret>) {
        self.key = key;
        self.secret = secret;
        self.number = 0;
    }

    /// Seals the next record in place, as `RecordKey::seal_at` does, and returns its length in bytes.
    ///
    /// A failure changes nothing and does not use up the number.
    ///
    /// <details><summary>Contract</summary>
    ///
    /// ```text
    /// ensures accepted { IsOk result ↔ ((self.old.number < self.old.limit)
    ///     × IsAllowed self.old.key.size_limit content_type content_len padding
    ///     × (record_len (content_len + padding) ≤ length bytes.old)) }
    /// ensures refused { IfErr result
    ///     (RefusesToSealNext self.old content_type content_len padding (length bytes.old)) }
    /// ensures len { IfOk result (λ n. n ≡ record_len (content_len + padding)) }
    /// ensures sealed { OnOk result (bytes.new ≡ record_at self.old.key self.old.number (record {
    ///   content_type = content_type;
    ///   content = slice_range bytes.old header_len (header_len + content_len);
    ///   padding = padding;
    /// }) ++ drop (record_len (content_len + padding)) bytes.old) }
    /// ensures counted { OnOk result
    ///     (self.new ≡ record self.old { number = self.old.number + 1 }) }
    /// ensures kept { OnErr result (bytes.new ≡ bytes.old) }
    /// ensures unchanged { OnErr result (self.new ≡ self.old) }
    /// ```
    ///
    /// Definitions: [`IsAllowed`](crate::specs::record#IsAllowed), [`record_len`](crate::specs::record#record_len),
    /// [`RefusesToSealNext`](crate::specs::refusals#RefusesToSealNext), [`record_at`](crate::specs::record#record_at),
    /// [`header_len`](crate::specs::record#header_len).
    ///
    /// </details>
    pub fn seal(
        &mut self,
        content_type: ContentType,
        bytes: &mut [u8],
        content_len: usize,
        padding: usize,
    ) -> Result<usize, RecordError> {
        if self.number >= self.limit {
            return Err(RecordError::KeyUsedUp);
        }
        let len = self
            .key
            .seal_at(self.number, content_type, bytes, content_len, padding)?;
        self.number += 1;
        Ok(len)
    }

    /// Appends the next record to `out`: the content, its type and `padding` zeros, sealed. The record is 22 bytes longer than
    /// content and padding, and only its length reveals the padding.
    ///
    /// A failure appends nothing and does not use up the number. Fails with `OutOfMemory` only if the capacity of `out` is too
    /// small for the record.
    ///
    /// <details><summary>Contract</summary>
    ///
    /// ```text
    /// ensures outcome { AppendOutcome ((self.old.number < self.old.limit)
    ///     × IsAllowed self.old.key.size_limit content_type (length content.now) padding)
    ///     (RefusesToWriteNext self.old content_type (length content.now) padding)
    ///     (record_at self.old.key self.old.number
    ///     (record { content_type = content_type; content = content.now; padding = padding }))
    ///     out.old out.new result self.old self.new (record self.old { number = self.old.number + 1 }) }
    /// ```
    ///
    /// Definitions: [`AppendOutcome`](crate::specs::appending#AppendOutcome),
    /// [`IsAllowed`](crate::specs::record#IsAllowed),
    /// [`RefusesToWriteNext`](crate::specs::refusals#RefusesToWriteNext),
    /// [`record_at`](crate::specs::record#record_at).
    ///
    /// </details>
    pub fn write(
        &mut self,
        content_type: ContentType,
        content: &[u8],
        padding: usize,
        out: &mut Vec<u8>,
    ) -> Result<(), RecordError> {
        if self.number >= self.limit {
            return Err(RecordError::KeyUsedUp);
        }
        let len = HEADER_LEN + self.key.inner_len(content_type, content.len(), padding)? + TAG_LEN;
        out.try_grow(len)?;
        self.append(content_type, content, padding, out);
        Ok(())
    }

    /// Appends the next record to `out`, which has room for it.
    // requires numbers { self.old.number < self.old.limit }
    // requires fits { length content.now + padding ≤ 2 ^ 14 }
    // requires room { vec_len out.old + record_len (length content.now + padding) ≤ vec_capacity out.old }
    // ensures appended { Appended (record_len (length content.now + padding)) (record_at self.old.key self.old.number
    //     (record { content_type = content_type; content = content.now; padding = padding })) out.old out.new }
    // ensures counted { self.new ≡ record self.old { number = self.old.number + 1 } }
    pub(crate) fn append(
        &mut self,
        content_type: ContentType,
        content: &[u8],
        padding: usize,
        out: &mut Vec<u8>,
    ) {
        self.key
            .append(self.number, content_type, content, padding, out);
        self.number += 1;
    }
}
