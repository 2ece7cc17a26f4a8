// Written by tools/rust from crates/aead_ciphers_wide/specs/ExpandedKey.antt. Don't edit.
//! What a contract sees of an expanded AES-GCM key that is plain data.
//!
//! The definitions of `crates/aead_ciphers_wide/specs/ExpandedKey.antt` of the repository.
//!
//! <div id="bytes_of"></div>
//!
//! ```text
//! -- the bytes of the key, with which its round keys begin (FIPS 197 section 5.2)
//! abbrev pub bytes_of : ExpandedKey → List ℕ
//! bytes_of key = key_of key.round_keys key.rounds
//! ```
//!
//! Definitions: [`key_of`](crate::specs::wide_schedule#key_of).
//!
//! <div id="IsExpanded"></div>
//!
//! ```text
//! -- the fields are those of a key: its round keys (FIPS 197 section 5.2) and their planes, and the products of its hash subkey and of the
//! -- square of it, where the subkey is the encrypted zero block (SP 800-38D sections 6.3 and 7.1 step 1)
//! pub record IsExpanded (key : ExpandedKey) : Type 0 where
//!   pub schedule : IsSchedule key.round_keys key.rounds
//!   pub planes : HoldsPlanes key.planes key.round_keys (key.rounds + 1)
//!   pub subkey : products_subkey key.products ≡ aes (bytes_of key) zero_block
//!   pub products : ArePowers key.products key.squares
//! ```
//!
//! Definitions: [`IsSchedule`](crate::specs::wide_schedule#IsSchedule),
//! [`HoldsPlanes`](crate::specs::wide_schedule#HoldsPlanes),
//! [`products_subkey` (`subkey`)](crate::specs::products#subkey), [`aes`](aead_ciphers_base::specs::aes#aes),
//! [`bytes_of`](crate::specs::expanded_key#bytes_of), [`zero_block`](aead_ciphers_base::specs::bytes#zero_block),
//! [`ArePowers`](crate::specs::products#ArePowers).
//!
//! <div id="HasZerosAfter"></div>
//!
//! ```text
//! -- the places after the last round key and after its planes, which a key of fewer rounds doesn't use, are zeros
//! pub record HasZerosAfter (key : ExpandedKey) : Type 0 where
//!   pub round_keys : AreZerosAfter key.round_keys key.rounds
//!   pub planes : AreZerosAfter key.planes key.rounds
//! ```
//!
//! Definitions: [`AreZerosAfter`](crate::specs::wide_schedule#AreZerosAfter).
//!
//! <div id="zero_key"></div>
//!
//! ```text
//! -- the fields before a key is expanded: all zeros, which no key has
//! abbrev pub zero_key : ExpandedKey
//! zero_key = record {
//!   planes = replicate 15 (replicate 16 0);
//!   round_keys = replicate 15 (replicate 16 0);
//!   rounds = 0;
//!   width = 0;
//!   products = replicate 512 0;
//!   squares = replicate 512 0;
//! }
//! ```
