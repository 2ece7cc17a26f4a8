// Written by tools/rust from crates/xaes/specs/Expanded.antt. Don't edit.
//! What a contract sees of an expanded key of XAES-256-GCM that is plain data.
//!
//! The definitions of `crates/xaes/specs/Expanded.antt` of the repository.
//!
//! <div id="bytes_of"></div>
//!
//! ```text
//! -- the bytes of the key, with which its round keys begin (FIPS 197 section 5.2)
//! abbrev pub bytes_of : ExpandedKey → List ℕ
//! bytes_of key = key_of key.round_keys key.rounds
//! ```
//!
//! Definitions: [`key_of`](aead_ciphers_wide::specs::wide_schedule#key_of).
//!
//! <div id="IsExpanded"></div>
//!
//! ```text
//! -- the fields are those of a key: its round keys, of 14 rounds, and the first subkey of CMAC under it (SP 800-38B section 6.1)
//! pub record IsExpanded (key : ExpandedKey) : Type 0 where
//!   pub rounds : key.rounds ≡ 14
//!   pub schedule : IsSchedule key.round_keys key.rounds
//!   pub subkey : key.subkey ≡ first_subkey (aes (bytes_of key) zero_block)
//! ```
//!
//! Definitions: [`IsSchedule`](aead_ciphers_wide::specs::wide_schedule#IsSchedule),
//! [`first_subkey`](crate::specs::derivation#first_subkey), [`aes`](aead_ciphers_base::specs::aes#aes),
//! [`bytes_of`](crate::specs::expanded#bytes_of), [`zero_block`](aead_ciphers_base::specs::bytes#zero_block).
//!
//! <div id="message_width"></div>
//!
//! ```text
//! -- the width of the planes on which batches of a message are encrypted, in bits
//! abbrev pub message_width : ExpandedKey → ℕ
//! message_width key = if key.width == 256 then 256 else 128
//! ```
//!
//! <div id="zero_key"></div>
//!
//! ```text
//! -- the fields before a key is expanded: all zeros, which no key has
//! abbrev pub zero_key : ExpandedKey
//! zero_key = record { rounds = 0; width = 0; round_keys = replicate 15 (replicate 16 0); subkey = replicate 16 0 }
//! ```
