// Written by tools/rust from crates/key_derivation/specs/Hmac.antt. Don't edit.
//! HMAC (RFC 2104).
//!
//! The definitions of `crates/key_derivation/specs/Hmac.antt` of the repository.
//!
//! <div id="short_key"></div>
//!
//! ```text
//! -- the key, or its digest if it is longer than a block (section 2)
//! abbrev pub short_key : HashFunction → List ℕ → List ℕ
//! short_key h key = if nat_lt h.block_len (length key) then h.hash key else key
//! ```
//!
//! Definitions: [`HashFunction`](crate::specs::hash#HashFunction).
//!
//! <div id="block_key"></div>
//!
//! ```text
//! -- the short key with zeros after it, up to the length of a block (section 2, step 1)
//! abbrev pub block_key : HashFunction → List ℕ → List ℕ
//! block_key h key = let short = short_key h key in short ++ replicate (h.block_len - length short) 0
//! ```
//!
//! Definitions: [`HashFunction`](crate::specs::hash#HashFunction), [`short_key`](crate::specs::hmac#short_key).
//!
//! <div id="inner_block"></div>
//!
//! ```text
//! -- the block of the key, XORed with ipad (section 2, step 2)
//! unfoldable pub inner_block : HashFunction → List ℕ → List ℕ
//! inner_block h key = map (bit_xor 0x36) (block_key h key)
//! ```
//!
//! Definitions: [`HashFunction`](crate::specs::hash#HashFunction), [`block_key`](crate::specs::hmac#block_key).
//!
//! <div id="outer_block"></div>
//!
//! ```text
//! -- the block of the key, XORed with opad (section 2, step 5)
//! unfoldable pub outer_block : HashFunction → List ℕ → List ℕ
//! outer_block h key = map (bit_xor 0x5c) (block_key h key)
//! ```
//!
//! Definitions: [`HashFunction`](crate::specs::hash#HashFunction), [`block_key`](crate::specs::hmac#block_key).
//!
//! <div id="hmac"></div>
//!
//! ```text
//! -- H(K XOR opad, H(K XOR ipad, text)) (section 2)
//! unfoldable pub hmac : HashFunction → (key text : List ℕ) → List ℕ
//! hmac h key text = h.hash (outer_block h key ++ h.hash (inner_block h key ++ text))
//! ```
//!
//! Definitions: [`HashFunction`](crate::specs::hash#HashFunction), [`outer_block`](crate::specs::hmac#outer_block),
//! [`inner_block`](crate::specs::hmac#inner_block).
