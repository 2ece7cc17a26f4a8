// Written by tools/rust from crates/aead_ciphers_base/specs/CounterMode.antt. Don't edit.
//! Counter mode over a block cipher (SP 800-38D section 6.5).
//!
//! The definitions of `crates/aead_ciphers_base/specs/CounterMode.antt` of the repository.
//!
//! <div id="counter_block"></div>
//!
//! ```text
//! -- the counter block of a 12-byte nonce and a number: the nonce, then the number modulo 2^32 in four big-endian
//! -- bytes (inc32 of section 6.2 adds one to the number)
//! unfoldable pub counter_block : List ℕ → ℕ → List ℕ
//! counter_block nonce k = nonce ++ to_be_bytes w32 (k % 2 ^ 32)
//! ```
//!
//! <div id="counter_byte"></div>
//!
//! ```text
//! -- byte i of the keystream: byte i mod 16 of the encryption of counter block k + i/16 (section 6.5)
//! unfoldable pub counter_byte : (List ℕ → List ℕ) → List ℕ → ℕ → ℕ → ℕ
//! counter_byte cipher nonce k i = slice_index (cipher (counter_block nonce (k + i / 16))) (i % 16)
//! ```
//!
//! Definitions: [`counter_block`](crate::specs::counter_mode#counter_block).
//!
//! <div id="counter_mode"></div>
//!
//! ```text
//! -- GCTR: the text XORed with the keystream (section 6.5)
//! unfoldable pub counter_mode : (List ℕ → List ℕ) → List ℕ → ℕ → List ℕ → List ℕ
//! counter_mode cipher nonce k text = xored (counter_byte cipher nonce k) text
//! ```
//!
//! Definitions: [`xored`](crate::specs::bytes#xored), [`counter_byte`](crate::specs::counter_mode#counter_byte).
//!
//! <div id="IsCounter"></div>
//!
//! ```text
//! -- the block is the counter block of a 12-byte nonce and the number k (sections 6.2 and 7.1)
//! pub record IsCounter (block nonce : List ℕ) (k : ℕ) : Type 0 where
//!   pub size : length nonce ≡ 12
//!   pub value : block ≡ counter_block nonce k
//! ```
//!
//! Definitions: [`counter_block`](crate::specs::counter_mode#counter_block).
//!
//! <div id="Advances"></div>
//!
//! ```text
//! -- the number of a counter block grows by n: if `was` is the counter block of a nonce and k, `now` is that of the nonce
//! -- and k + n
//! abbrev pub Advances : List ℕ → List ℕ → ℕ → Type 0
//! Advances was now n = (nonce : List ℕ) (k : ℕ) → IsCounter was nonce k → IsCounter now nonce (k + n)
//! ```
//!
//! Definitions: [`IsCounter`](crate::specs::counter_mode#IsCounter).
//!
//! <div id="InCounterMode"></div>
//!
//! ```text
//! -- if `counter` is the counter block of a nonce and k, `Says` holds of the text in counter mode from that block on
//! abbrev pub InCounterMode : (List ℕ → List ℕ) → List ℕ → List ℕ → (List ℕ → Type 0) → Type 0
//! InCounterMode cipher counter text Says =
//!     (nonce : List ℕ) (k : ℕ) → IsCounter counter nonce k → Says (counter_mode cipher nonce k text)
//! ```
//!
//! Definitions: [`IsCounter`](crate::specs::counter_mode#IsCounter),
//! [`counter_mode`](crate::specs::counter_mode#counter_mode).
//!
//! <div id="EncryptsToFront"></div>
//!
//! ```text
//! -- the new buffer begins with the old bytes from `start` on, in counter mode; the bytes after those are unchanged
//! abbrev pub EncryptsToFront : (List ℕ → List ℕ) → List ℕ → ℕ → List ℕ → List ℕ → Type 0
//! EncryptsToFront cipher counter start old new =
//!     InCounterMode cipher counter (drop start old) (λ text. new ≡ text ++ drop (length old - start) old)
//! ```
//!
//! Definitions: [`InCounterMode`](crate::specs::counter_mode#InCounterMode).
