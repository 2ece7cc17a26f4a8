// Written by tools/rust from crates/aead_ciphers/specs/ExpandedKey.antt. Don't edit.
//! What a contract sees of an expanded AES-GCM key.
//!
//! The definitions of `crates/aead_ciphers/specs/ExpandedKey.antt` of the repository.
//!
//! <div id="bytes_of"></div>
//!
//! ```text
//! -- the bytes of the key, with which its round keys begin (FIPS 197 section 5.2)
//! abbrev pub bytes_of : ExpandedKey → List ℕ
//! bytes_of key = key_of key.round_keys key.rounds
//! ```
//!
//! Definitions: [`key_of`](aead_ciphers_base::specs::key_schedule#key_of).
//!
//! <div id="IsExpanded"></div>
//!
//! ```text
//! -- the fields are those of a key: its round keys (FIPS 197 section 5.2), and the multiples of its hash subkey, which is
//! -- the encrypted zero block (SP 800-38D sections 6.3 and 7.1 step 1)
//! pub record IsExpanded (key : ExpandedKey) : Type 0 where
//!   pub schedule : IsSchedule key.round_keys key.rounds
//!   pub subkey : to_be_bytes w128 (entry key.multiples 0) ≡ aes (bytes_of key) zero_block
//!   pub multiples : AreMultiples (to_be_bytes w128 (entry key.multiples 0)) key.multiples
//! ```
//!
//! Definitions: [`IsSchedule`](aead_ciphers_base::specs::key_schedule#IsSchedule),
//! [`entry`](crate::specs::multiples#entry), [`aes`](aead_ciphers_base::specs::aes#aes),
//! [`bytes_of`](crate::specs::expanded_key#bytes_of), [`zero_block`](aead_ciphers_base::specs::bytes#zero_block),
//! [`AreMultiples`](crate::specs::multiples#AreMultiples).
//!
//! <div id="zero_key"></div>
//!
//! ```text
//! -- the fields before a key is expanded: all zeros, which no key has
//! abbrev pub zero_key : ExpandedKey
//! zero_key = record { round_keys = replicate 15 (replicate 8 0); rounds = 0; multiples = replicate 512 0 }
//! ```
