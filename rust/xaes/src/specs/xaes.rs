// Written by tools/rust from crates/xaes/specs/Xaes.antt. Don't edit.
//! XAES-256-GCM (a specification of C2SP, c2sp.org/XAES-256-GCM): a key of 32 bytes and a nonce of 24. A message is sealed by AES-256-GCM
//! (NIST SP 800-38D) under a key that is derived for the first 12 bytes of the nonce, and the last 12 bytes as the nonce.
//!
//! The definitions of `crates/xaes/specs/Xaes.antt` of the repository.
//!
//! <div id="message_key"></div>
//!
//! ```text
//! -- the AES-256-GCM key of a message
//! abbrev pub message_key : (key nonce : List ℕ) → List ℕ
//! message_key key nonce = derived_key key (take 12 nonce)
//! ```
//!
//! Definitions: [`derived_key`](crate::specs::derivation#derived_key).
//!
//! <div id="message_nonce"></div>
//!
//! ```text
//! -- the AES-256-GCM nonce of a message
//! abbrev pub message_nonce : (nonce : List ℕ) → List ℕ
//! message_nonce nonce = drop 12 nonce
//! ```
//!
//! <div id="xaes_encrypted"></div>
//!
//! ```text
//! module _ (key nonce : List ℕ) where
//!   -- the ciphertext of a plaintext
//!   abbrev pub xaes_encrypted : (plaintext : List ℕ) → List ℕ
//!   xaes_encrypted plaintext = gcm_encrypted (aes (message_key key nonce)) (message_nonce nonce) plaintext
//! ```
//!
//! Definitions: [`gcm_encrypted`](aead_ciphers::specs::gcm#gcm_encrypted),
//! [`aes`](aead_ciphers_base::specs::aes#aes), [`message_key`](crate::specs::xaes#message_key),
//! [`message_nonce`](crate::specs::xaes#message_nonce).
//!
//! <div id="xaes_decrypted"></div>
//!
//! ```text
//! module _ (key nonce : List ℕ) where
//!   -- the plaintext of a ciphertext
//!   abbrev pub xaes_decrypted : (ciphertext : List ℕ) → List ℕ
//!   xaes_decrypted ciphertext = gcm_decrypted (aes (message_key key nonce)) (message_nonce nonce) ciphertext
//! ```
//!
//! Definitions: [`gcm_decrypted`](aead_ciphers::specs::gcm#gcm_decrypted),
//! [`aes`](aead_ciphers_base::specs::aes#aes), [`message_key`](crate::specs::xaes#message_key),
//! [`message_nonce`](crate::specs::xaes#message_nonce).
//!
//! <div id="xaes_tag"></div>
//!
//! ```text
//! module _ (key nonce : List ℕ) where
//!   module _ (aad : List ℕ) where
//!     -- the tag of a ciphertext
//!     abbrev pub xaes_tag : (ciphertext : List ℕ) → List ℕ
//!     xaes_tag ciphertext = gcm_tag (aes (message_key key nonce)) (message_nonce nonce) aad ciphertext
//! ```
//!
//! Definitions: [`gcm_tag`](aead_ciphers::specs::gcm#gcm_tag), [`aes`](aead_ciphers_base::specs::aes#aes),
//! [`message_key`](crate::specs::xaes#message_key), [`message_nonce`](crate::specs::xaes#message_nonce).
//!
//! <div id="xaes_sealed"></div>
//!
//! ```text
//! module _ (key nonce : List ℕ) where
//!   module _ (aad : List ℕ) where
//!     -- the ciphertext of a plaintext followed by its tag
//!     abbrev pub xaes_sealed : (plaintext : List ℕ) → List ℕ
//!     xaes_sealed plaintext = gcm_sealed (aes (message_key key nonce)) (message_nonce nonce) aad plaintext
//! ```
//!
//! Definitions: [`gcm_sealed`](aead_ciphers::specs::gcm#gcm_sealed), [`aes`](aead_ciphers_base::specs::aes#aes),
//! [`message_key`](crate::specs::xaes#message_key), [`message_nonce`](crate::specs::xaes#message_nonce).
//!
//! <div id="XaesOpened"></div>
//!
//! ```text
//! module _ (key nonce : List ℕ) where
//!   module _ (aad : List ℕ) where
//!     -- whether opening accepts, and what the buffer then holds, if the tag is received separately (`Opens` of `Gcm.antt`)
//!     abbrev pub XaesOpened : (tag : List ℕ) (start : ℕ) (old : List ℕ) (accepts : Bool) (new : List ℕ) → Type 0
//!     XaesOpened tag start old accepts new =
//!         Opened (aes (message_key key nonce)) (message_nonce nonce) aad tag start old accepts new
//! ```
//!
//! Definitions: [`Opened`](aead_ciphers::specs::gcm#Opened), [`aes`](aead_ciphers_base::specs::aes#aes),
//! [`message_key`](crate::specs::xaes#message_key), [`message_nonce`](crate::specs::xaes#message_nonce).
//!
//! <div id="XaesOpenedAttached"></div>
//!
//! ```text
//! module _ (key nonce : List ℕ) where
//!   module _ (aad : List ℕ) where
//!     -- whether opening accepts, and what the buffer then holds, if the tag is the end of the buffer (`OpenedAttached` of `Gcm.antt`)
//!     abbrev pub XaesOpenedAttached : (start : ℕ) (old : List ℕ) (accepts : Bool) (new : List ℕ) → Type 0
//!     XaesOpenedAttached start old accepts new =
//!         OpenedAttached (aes (message_key key nonce)) (message_nonce nonce) aad start old accepts new
//! ```
//!
//! Definitions: [`OpenedAttached`](aead_ciphers::specs::gcm#OpenedAttached),
//! [`aes`](aead_ciphers_base::specs::aes#aes), [`message_key`](crate::specs::xaes#message_key),
//! [`message_nonce`](crate::specs::xaes#message_nonce).
