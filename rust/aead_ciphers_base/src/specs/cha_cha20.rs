// Written by tools/rust from crates/aead_ciphers_base/specs/ChaCha20.antt. Don't edit.
//! ChaCha20 (RFC 8439). A word is a number below 2 ^ 32, and a state is a list of 16 words. Keys, nonces, blocks,
//! keystreams and messages are lists of bytes.
//!
//! The definitions of `crates/aead_ciphers_base/specs/ChaCha20.antt` of the repository.
//!
//! <div id="add32"></div>
//!
//! ```text
//! -- the sum of two words modulo 2 ^ 32 (section 2.1)
//! abbrev pub add32 : ℕ → ℕ → ℕ
//! add32 x y = (x + y) % 2 ^ 32
//! ```
//!
//! <div id="xor_rotate"></div>
//!
//! ```text
//! -- x ^= y; x <<<= n (section 2.1)
//! abbrev pub xor_rotate : ℕ → ℕ → ℕ → ℕ
//! xor_rotate x y n = rotate_left w32 (bit_xor x y) n
//! ```
//!
//! <div id="quarter_round"></div>
//!
//! ```text
//! -- the quarter round of four words (section 2.1)
//! unfoldable pub quarter_round : ℕ → ℕ → ℕ → ℕ → ℕ × ℕ × ℕ × ℕ
//! quarter_round a b c d =
//!     let a1 = add32 a b in
//!     let d1 = xor_rotate d a1 16 in
//!     let c1 = add32 c d1 in
//!     let b1 = xor_rotate b c1 12 in
//!     let a2 = add32 a1 b1 in
//!     let d2 = xor_rotate d1 a2 8 in
//!     let c2 = add32 c1 d2 in
//!     let b2 = xor_rotate b1 c2 7 in
//!     (a2, b2, c2, d2)
//! ```
//!
//! Definitions: [`add32`](crate::specs::cha_cha20#add32), [`xor_rotate`](crate::specs::cha_cha20#xor_rotate).
//!
//! <div id="quarter_round_at"></div>
//!
//! ```text
//! -- QUARTERROUND(x, y, z, w): the quarter round of the words of a state at four indices (section 2.2)
//! abbrev pub quarter_round_at : List ℕ → ℕ × ℕ × ℕ × ℕ → List ℕ
//! quarter_round_at s p =
//!     let q = quarter_round (slice_index s p.0) (slice_index s p.1) (slice_index s p.2) (slice_index s p.3) in
//!     slice_set (slice_set (slice_set (slice_set s p.0 q.0) p.1 q.1) p.2 q.2) p.3 q.3
//! ```
//!
//! Definitions: [`quarter_round`](crate::specs::cha_cha20#quarter_round).
//!
//! <div id="double_round"></div>
//!
//! ```text
//! -- four quarter rounds on the columns of the state, then four on its diagonals (section 2.3)
//! unfoldable pub double_round : List ℕ → List ℕ
//! double_round s =
//!     fold quarter_round_at s
//!     ((0, 4, 8, 12) ∷ (1, 5, 9, 13) ∷ (2, 6, 10, 14) ∷ (3, 7, 11, 15)
//!     ∷ (0, 5, 10, 15) ∷ (1, 6, 11, 12) ∷ (2, 7, 8, 13) ∷ (3, 4, 9, 14) ∷ [])
//! ```
//!
//! Definitions: [`quarter_round_at`](crate::specs::cha_cha20#quarter_round_at).
//!
//! <div id="le_words"></div>
//!
//! ```text
//! -- bytes, read four at a time as little-endian words (section 2.3)
//! unfoldable pub le_words : List ℕ → List ℕ
//! le_words (a ∷ b ∷ c ∷ d ∷ bytes) = from_le_bytes w32 (a ∷ b ∷ c ∷ d ∷ []) ∷ le_words bytes
//! le_words _ = []
//! ```
//!
//! <div id="le_bytes"></div>
//!
//! ```text
//! -- words, written as bytes, each in little-endian order (section 2.3)
//! unfoldable pub le_bytes : List ℕ → List ℕ
//! le_bytes words = flat_map (to_le_bytes w32) words
//! ```
//!
//! <div id="initial_state"></div>
//!
//! ```text
//! -- the initial state: four constants, the key, the block counter and the nonce (section 2.3)
//! unfoldable pub initial_state : List ℕ → ℕ → List ℕ → List ℕ
//! initial_state key counter nonce =
//!     0x61707865 ∷ 0x3320646e ∷ 0x79622d32 ∷ 0x6b206574 ∷ le_words key ++ counter ∷ le_words nonce
//! ```
//!
//! Definitions: [`le_words`](crate::specs::cha_cha20#le_words).
//!
//! <div id="state_block"></div>
//!
//! ```text
//! -- the block of an initial state: after 20 rounds, the initial words are added, and the sums are written as bytes
//! -- (section 2.3)
//! unfoldable pub state_block : List ℕ → List ℕ
//! state_block s = le_bytes (zip2 add32 (iterate double_round 10 s) s)
//! ```
//!
//! Definitions: [`le_bytes`](crate::specs::cha_cha20#le_bytes), [`add32`](crate::specs::cha_cha20#add32),
//! [`double_round`](crate::specs::cha_cha20#double_round).
//!
//! <div id="chacha20_block"></div>
//!
//! ```text
//! -- the block function: a block of the keystream (section 2.3)
//! unfoldable pub chacha20_block : List ℕ → ℕ → List ℕ → List ℕ
//! chacha20_block key counter nonce = state_block (initial_state key counter nonce)
//! ```
//!
//! Definitions: [`state_block`](crate::specs::cha_cha20#state_block),
//! [`initial_state`](crate::specs::cha_cha20#initial_state).
//!
//! <div id="stream_byte"></div>
//!
//! ```text
//! -- byte i of the keystream: the blocks from the counter on, one after another, where each number is below 2^32 (section 2.4)
//! unfoldable pub stream_byte : List ℕ → ℕ → List ℕ → ℕ → ℕ
//! stream_byte key counter nonce i = slice_index (chacha20_block key (counter + i / 64) nonce) (i % 64)
//! ```
//!
//! Definitions: [`chacha20_block`](crate::specs::cha_cha20#chacha20_block).
//!
//! <div id="chacha20_encrypted"></div>
//!
//! ```text
//! -- the message XORed with the keystream (section 2.4)
//! unfoldable pub chacha20_encrypted : List ℕ → ℕ → List ℕ → List ℕ → List ℕ
//! chacha20_encrypted key counter nonce message = xored (stream_byte key counter nonce) message
//! ```
//!
//! Definitions: [`xored`](crate::specs::bytes#xored), [`stream_byte`](crate::specs::cha_cha20#stream_byte).
//!
//! <div id="Position"></div>
//!
//! ```text
//! -- what a contract sees of a `Counter`: the block counter, and the bytes of the nonce
//! pub record Position : Type 0 where
//!   pub number : ℕ
//!   pub nonce : List ℕ
//! ```
