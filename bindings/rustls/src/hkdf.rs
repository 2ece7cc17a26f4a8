//! HKDF and HMAC (RFC 5869, RFC 2104), by which rustls derives the secrets of TLS 1.3 and QUIC.

use crate::gcm::Gcm;
use deerlapse::{hkdf_expand, hkdf_extract, hmac};
use rustls::crypto::hmac::Tag;
use rustls::crypto::tls13::{Hkdf, HkdfExpander, OkmBlock, OutputLengthError};

/// The length of an output of SHA-384, in bytes, which is the longer.
const MAX_HASH_LEN: usize = 48;
const ZEROS: [u8; MAX_HASH_LEN] = [0; MAX_HASH_LEN];

/// A pseudorandom key, which is as long as an output of the hash function.
struct Expander(OkmBlock);

impl Hkdf for Gcm {
    fn extract_from_zero_ikm(&self, salt: Option<&[u8]>) -> Box<dyn HkdfExpander> {
        self.extract_from_secret(salt, &ZEROS[..self.hash_len()])
    }

    fn extract_from_secret(&self, salt: Option<&[u8]>, secret: &[u8]) -> Box<dyn HkdfExpander> {
        let salt = salt.unwrap_or(&ZEROS[..self.hash_len()]);
        let prk = &mut [0; MAX_HASH_LEN][..self.hash_len()];
        hkdf_extract(salt, secret, prk).expect("the length of a hash");
        Box::new(Expander(OkmBlock::new(prk)))
    }

    /// # Panics
    ///
    /// Panics if the block is not as long as an output of the hash function, as each is that comes from it.
    fn expander_for_okm(&self, okm: &OkmBlock) -> Box<dyn HkdfExpander> {
        let len = okm.as_ref().len();
        assert_eq!(len, self.hash_len(), "a block of another hash function");
        Box::new(Expander(okm.clone()))
    }

    fn hmac_sign(&self, key: &OkmBlock, message: &[u8]) -> Tag {
        let code = &mut [0; MAX_HASH_LEN][..self.hash_len()];
        hmac(key.as_ref(), message, code).expect("the length of a hash");
        Tag::new(code)
    }
}

impl HkdfExpander for Expander {
    fn expand_slice(&self, info: &[&[u8]], output: &mut [u8]) -> Result<(), OutputLengthError> {
        let Expander(prk) = self;
        hkdf_expand(prk.as_ref(), &info.concat(), output).map_err(|_| OutputLengthError)
    }

    fn expand_block(&self, info: &[&[u8]]) -> OkmBlock {
        let okm = &mut [0; MAX_HASH_LEN][..self.hash_len()];
        self.expand_slice(info, okm).expect("the length of a hash");
        OkmBlock::new(okm)
    }

    fn hash_len(&self) -> usize {
        self.0.as_ref().len()
    }
}
