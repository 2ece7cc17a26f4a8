//! Records of TLS 1.3 (RFC 8446 section 5.2).

use crate::gcm::{bytes, Gcm};
use deerlapse::{nonce_of, LessSafeKey, RecordKey, NONCE_LEN, TAG_LEN};
use rustls::crypto::cipher::{
    make_tls13_aad, AeadKey, InboundOpaqueMessage, InboundPlainMessage, Iv, MessageDecrypter,
    MessageEncrypter, OutboundOpaqueMessage, OutboundPlainMessage, PrefixedPayload,
    Tls13AeadAlgorithm, UnsupportedOperationError,
};
use rustls::{ConnectionTrafficSecrets, ContentType, Error, PeerMisbehaved, ProtocolVersion};
use std::ops::RangeInclusive;

/// The byte of the type after the content, and the tag.
const OVERHEAD: usize = 1 + TAG_LEN;
/// The length of the longest content, in bytes (RFC 8446 section 5.1).
const MAX_CONTENT_LEN: usize = 1 << 14;
/// The lengths of a payload, in bytes (RFC 8446 section 5.2).
const PAYLOAD_LENS: RangeInclusive<usize> = OVERHEAD..=MAX_CONTENT_LEN + 256;

struct Encrypter(RecordKey);

struct Decrypter {
    key: RecordKey,
    /// The bytes of the key and the IV, for payloads that `key` doesn't take.
    bytes: AeadKey,
    iv: [u8; NONCE_LEN],
}

/// Expands a key, whose length is that of a suite.
fn expanded(key: &AeadKey, iv: &Iv) -> RecordKey {
    RecordKey::new(key.as_ref(), &bytes(iv)).expect("a suite's key has 16 or 32 bytes")
}

impl Tls13AeadAlgorithm for Gcm {
    fn encrypter(&self, key: AeadKey, iv: Iv) -> Box<dyn MessageEncrypter> {
        Box::new(Encrypter(expanded(&key, &iv)))
    }

    fn decrypter(&self, key: AeadKey, iv: Iv) -> Box<dyn MessageDecrypter> {
        Box::new(Decrypter {
            key: expanded(&key, &iv),
            bytes: key,
            iv: bytes(&iv),
        })
    }

    fn key_len(&self) -> usize {
        self.len()
    }

    fn extract_keys(
        &self,
        key: AeadKey,
        iv: Iv,
    ) -> Result<ConnectionTrafficSecrets, UnsupportedOperationError> {
        Ok(self.secrets(key, iv))
    }
}

impl MessageEncrypter for Encrypter {
    fn encrypt(
        &mut self,
        message: OutboundPlainMessage<'_>,
        number: u64,
    ) -> Result<OutboundOpaqueMessage, Error> {
        let content_len = message.payload.len();
        let mut payload = PrefixedPayload::with_capacity(self.encrypted_payload_len(content_len));
        payload.extend_from_chunks(&message.payload);
        payload.extend_from_slice(&[0; OVERHEAD]);
        let Encrypter(key) = self;
        key.seal_in_place(number, message.typ.into(), payload.as_mut(), content_len)
            .map_err(|_| Error::EncryptError)?;
        // Every record has the type and the version of RFC 8446 section 5.2.
        let (typ, version) = (ContentType::ApplicationData, ProtocolVersion::TLSv1_2);
        Ok(OutboundOpaqueMessage::new(typ, version, payload))
    }

    fn encrypted_payload_len(&self, payload_len: usize) -> usize {
        payload_len + OVERHEAD
    }
}

impl MessageDecrypter for Decrypter {
    fn decrypt<'a>(
        &mut self,
        mut message: InboundOpaqueMessage<'a>,
        number: u64,
    ) -> Result<InboundPlainMessage<'a>, Error> {
        let payload = &mut message.payload;
        let sealed_len = payload.len();
        let Ok((content_type, content)) = self.key.open_in_place(number, payload) else {
            return Err(self.fault(number, payload));
        };
        let len = content.len();
        if sealed_len > MAX_CONTENT_LEN + OVERHEAD {
            return Err(Error::PeerSentOversizedRecord);
        }
        if content_type == 0 {
            return Err(PeerMisbehaved::IllegalTlsInnerPlaintext.into());
        }
        payload.truncate(len);
        message.typ = content_type.into();
        message.version = ProtocolVersion::TLSv1_3;
        Ok(message.into_plain_message())
    }
}

impl Decrypter {
    /// Why a payload isn't opened. `RecordKey` takes none that is too short for a type, or longer than TLS permits. rustls asks
    /// of these too whether they are authentic: it passes over early data that isn't.
    fn fault(&self, number: u64, payload: &mut [u8]) -> Error {
        if PAYLOAD_LENS.contains(&payload.len()) {
            return Error::DecryptError;
        }
        let key = LessSafeKey::new(self.bytes.as_ref()).expect("the length of `key`");
        let aad = make_tls13_aad(payload.len());
        match key.open_in_place(nonce_of(&self.iv, number), &aad, payload) {
            Err(_) => Error::DecryptError,
            Ok([]) => PeerMisbehaved::IllegalTlsInnerPlaintext.into(),
            Ok(_) => Error::PeerSentOversizedRecord,
        }
    }
}
