// Written by tools/rust from crates/aead_ciphers_base/specs/Mask.antt. Don't edit.
//! The header protection masks of QUIC (RFC 9001).
//!
//! The definitions of `crates/aead_ciphers_base/specs/Mask.antt` of the repository.
//!
//! <div id="aes_mask"></div>
//!
//! ```text
//! -- the first five bytes of the encrypted sample (sections 5.4.1 and 5.4.3)
//! unfoldable pub aes_mask : List ℕ → List ℕ → List ℕ
//! aes_mask key sample = take 5 (aes key sample)
//! ```
//!
//! Definitions: [`aes`](crate::specs::aes#aes).
//!
//! <div id="chacha_mask"></div>
//!
//! ```text
//! -- the first five bytes of the block whose counter is the first four bytes of the sample, in little-endian order, and
//! -- whose nonce is the other twelve bytes (section 5.4.4)
//! unfoldable pub chacha_mask : List ℕ → List ℕ → List ℕ
//! chacha_mask key sample =
//!     take 5 (chacha20_block key (from_le_bytes w32 (take 4 sample)) (drop 4 sample))
//! ```
//!
//! Definitions: [`chacha20_block`](crate::specs::cha_cha20#chacha20_block).
