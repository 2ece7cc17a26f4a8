#![doc = include_str!("../README.md")]
#![no_std]
#![warn(missing_docs)]
#![forbid(unsafe_code)]

pub use aead;

use aead::consts::{U0, U12, U16, U24, U32};
use aead::{AeadCore, AeadInPlace, Error, Key, KeyInit, KeySizeUser, Nonce, Tag};
use deerlapse::{LessSafeKey, XaesNonce};

/// Expands a key of AES-GCM.
fn aes_gcm(key: &[u8]) -> LessSafeKey {
    LessSafeKey::new(key).expect("a key of these types has 16 or 32 bytes")
}

/// Expands a key of XAES-256-GCM.
fn xaes_256_gcm(key: &[u8]) -> deerlapse::Xaes256Gcm {
    deerlapse::Xaes256Gcm::new(key.try_into().expect("a key of this type has 32 bytes"))
}

/// Defines a key type over one of `deerlapse`, with the traits, by the function that expands a key and the type of its nonces.
macro_rules! cipher {
    (
        $(#[$documented:meta])*
        $name:ident($expanded:ty), $key_size:ty, $expand:path, $nonce_size:ty, $nonce:ty
    ) => {
        $(#[$documented])*
        #[derive(Clone, Debug)]
        pub struct $name($expanded);

        impl KeySizeUser for $name {
            type KeySize = $key_size;
        }

        impl KeyInit for $name {
            fn new(key: &Key<Self>) -> Self {
                $name($expand(key))
            }
        }

        impl AeadCore for $name {
            type NonceSize = $nonce_size;
            type TagSize = U16;
            type CiphertextOverhead = U0;
        }

        impl AeadInPlace for $name {
            fn encrypt_in_place_detached(
                &self,
                nonce: &Nonce<Self>,
                associated_data: &[u8],
                buffer: &mut [u8],
            ) -> Result<Tag<Self>, Error> {
                let nonce = <$nonce>::try_assume_unique_for_key(nonce).map_err(|_| Error)?;
                self.0
                    .seal_in_place_separate_tag(nonce, associated_data, buffer)
                    .map(Into::into)
                    .map_err(|_| Error)
            }

            fn decrypt_in_place_detached(
                &self,
                nonce: &Nonce<Self>,
                associated_data: &[u8],
                buffer: &mut [u8],
                tag: &Tag<Self>,
            ) -> Result<(), Error> {
                let nonce = <$nonce>::try_assume_unique_for_key(nonce).map_err(|_| Error)?;
                self.0
                    .open_in_place_separate_tag(nonce, associated_data, (*tag).into(), buffer, 0..)
                    .map(|_| ())
                    .map_err(|_| Error)
            }
        }
    };
}

cipher! {
    /// AES-128-GCM.
    ///
    /// ```no_run
    /// use deerlapse_aead::aead::KeyInit;
    /// use deerlapse_aead::Aes128Gcm;
    ///
    /// assert!(Aes128Gcm::new_from_slice(&[0; 16]).is_ok());
    /// assert!(Aes128Gcm::new_from_slice(&[0; 32]).is_err());
    /// ```
    Aes128Gcm(LessSafeKey), U16, aes_gcm, U12, deerlapse::Nonce
}

cipher! {
    /// AES-256-GCM.
    ///
    /// ```no_run
    /// use deerlapse_aead::aead::KeyInit;
    /// use deerlapse_aead::Aes256Gcm;
    ///
    /// assert!(Aes256Gcm::new_from_slice(&[0; 32]).is_ok());
    /// assert!(Aes256Gcm::new_from_slice(&[0; 16]).is_err());
    /// ```
    Aes256Gcm(LessSafeKey), U32, aes_gcm, U12, deerlapse::Nonce
}

cipher! {
    /// XAES-256-GCM (`c2sp.org/XAES-256-GCM`), whose nonces have 24 bytes: enough to be drawn at random for each message.
    ///
    /// ```no_run
    /// use deerlapse_aead::aead::{AeadInPlace, KeyInit};
    /// use deerlapse_aead::Xaes256Gcm;
    ///
    /// // The first vector of the specification
    /// let cipher = Xaes256Gcm::new(&[1; 32].into());
    /// let mut message = *b"XAES-256-GCM";
    /// let nonce = b"ABCDEFGHIJKLMNOPQRSTUVWX".into();
    /// let tag = cipher.encrypt_in_place_detached(nonce, b"", &mut message)?;
    /// assert_eq!(tag[..8], 0xb33a9a1974e96e52_u64.to_be_bytes());
    /// # Ok::<(), deerlapse_aead::aead::Error>(())
    /// ```
    Xaes256Gcm(deerlapse::Xaes256Gcm), U32, xaes_256_gcm, U24, XaesNonce
}
