//! Records of TLS 1.2 (RFC 5246 section 6.2.3.3, RFC 5288 section 3).

use crate::gcm::{bytes, Gcm};
use deerlapse::{nonce_of, LessSafeKey, Nonce, NONCE_LEN, TAG_LEN};
use rustls::crypto::cipher::{
    make_tls12_aad, AeadKey, InboundOpaqueMessage, InboundPlainMessage, Iv, KeyBlockShape,
    MessageDecrypter, MessageEncrypter, OutboundOpaqueMessage, OutboundPlainMessage,
    PrefixedPayload, Tls12AeadAlgorithm, UnsupportedOperationError,
};
use rustls::{ConnectionTrafficSecrets, Error};

/// The part of the nonce that comes with the keys (RFC 5288 section 3).
const SALT_LEN: usize = 4;
/// The part of the nonce that a record begins with (RFC 5288 section 3).
const EXPLICIT_LEN: usize = NONCE_LEN - SALT_LEN;
const OVERHEAD: usize = EXPLICIT_LEN + TAG_LEN;
/// The length of the longest content, in bytes (RFC 5246 section 6.2.1).
const MAX_CONTENT_LEN: usize = 1 << 14;

struct Encrypter {
    key: LessSafeKey,
    iv: [u8; NONCE_LEN],
}

struct Decrypter {
    key: LessSafeKey,
    salt: [u8; SALT_LEN],
}

/// Expands a key, whose length is that of a suite.
fn expanded(key: &AeadKey) -> LessSafeKey {
    LessSafeKey::new(key.as_ref()).expect("a suite's key has 16 or 32 bytes")
}

impl Tls12AeadAlgorithm for Gcm {
    fn encrypter(&self, key: AeadKey, salt: &[u8], explicit: &[u8]) -> Box<dyn MessageEncrypter> {
        Box::new(Encrypter {
            key: expanded(&key),
            iv: bytes(&joined(salt, explicit)),
        })
    }

    fn decrypter(&self, key: AeadKey, salt: &[u8]) -> Box<dyn MessageDecrypter> {
        Box::new(Decrypter {
            key: expanded(&key),
            salt: salt.try_into().expect("the length in the shape"),
        })
    }

    fn key_block_shape(&self) -> KeyBlockShape {
        KeyBlockShape {
            enc_key_len: self.len(),
            fixed_iv_len: SALT_LEN,
            explicit_nonce_len: EXPLICIT_LEN,
        }
    }

    fn extract_keys(
        &self,
        key: AeadKey,
        salt: &[u8],
        explicit: &[u8],
    ) -> Result<ConnectionTrafficSecrets, UnsupportedOperationError> {
        Ok(self.secrets(key, joined(salt, explicit)))
    }
}

/// The two parts of a nonce, put together.
fn joined(salt: &[u8], explicit: &[u8]) -> Iv {
    Iv::copy(&[salt, explicit].concat())
}

impl MessageEncrypter for Encrypter {
    fn encrypt(
        &mut self,
        message: OutboundPlainMessage<'_>,
        number: u64,
    ) -> Result<OutboundOpaqueMessage, Error> {
        let len = message.payload.len();
        let mut payload = PrefixedPayload::with_capacity(len + OVERHEAD);
        let nonce = nonce_of(&self.iv, number);
        payload.extend_from_slice(&nonce.as_ref()[SALT_LEN..]);
        payload.extend_from_chunks(&message.payload);
        let aad = make_tls12_aad(number, message.typ, message.version, len);
        let content = &mut payload.as_mut()[EXPLICIT_LEN..];
        let tag = self
            .key
            .seal_in_place_separate_tag(nonce, &aad, content)
            .map_err(|_| Error::EncryptError)?;
        payload.extend_from_slice(&tag);
        Ok(OutboundOpaqueMessage::new(
            message.typ,
            message.version,
            payload,
        ))
    }

    fn encrypted_payload_len(&self, payload_len: usize) -> usize {
        payload_len + OVERHEAD
    }
}

impl MessageDecrypter for Decrypter {
    fn decrypt<'a>(
        &mut self,
        mut message: InboundOpaqueMessage<'a>,
        number: u64,
    ) -> Result<InboundPlainMessage<'a>, Error> {
        let payload = &mut message.payload;
        let len = payload.len().checked_sub(OVERHEAD);
        let len = len.ok_or(Error::DecryptError)?;
        let mut nonce = [0; NONCE_LEN];
        nonce[..SALT_LEN].copy_from_slice(&self.salt);
        nonce[SALT_LEN..].copy_from_slice(&payload[..EXPLICIT_LEN]);
        let aad = make_tls12_aad(number, message.typ, message.version, len);
        self.key
            .open_within(
                Nonce::assume_unique_for_key(nonce),
                &aad,
                payload,
                EXPLICIT_LEN..,
            )
            .map_err(|_| Error::DecryptError)?;
        if len > MAX_CONTENT_LEN {
            return Err(Error::PeerSentOversizedRecord);
        }
        payload.truncate(len);
        Ok(message.into_plain_message())
    }
}
