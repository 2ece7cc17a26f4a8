// Written by tools/rust from crates/xaes/specs/Derivation.antt. Don't edit.
//! Deriving keys by CMAC (NIST SP 800-38B) over AES-256 in counter mode (NIST SP 800-108r1), as XAES-256-GCM (a specification of C2SP,
//! c2sp.org/XAES-256-GCM) does.
//!
//! The definitions of `crates/xaes/specs/Derivation.antt` of the repository.
//!
//! <div id="first_subkey"></div>
//!
//! ```text
//! -- the first subkey K1 from the encrypted zero block L: L as a number whose highest bit is the block's first, shifted left by
//! -- one bit, and XORed with 10000111 if the bit shifted out was 1 (SP 800-38B sections 5.3 and 6.1)
//! unfoldable pub first_subkey : List ℕ → List ℕ
//! first_subkey cipher_of_zero =
//!     let l = from_be_bytes w128 cipher_of_zero in
//!     let shifted = l * 2 % 2 ^ 128 in
//!     to_be_bytes w128 (if nat_lt l (2 ^ 127) then shifted else bit_xor shifted 0x87)
//! ```
//!
//! <div id="cmac_of_block"></div>
//!
//! ```text
//! -- CMAC of a message of one whole block (SP 800-38B section 6.2)
//! unfoldable pub cmac_of_block : (key block : List ℕ) → List ℕ
//! cmac_of_block key block = aes key (first_subkey (aes key zero_block) ⊕ block)
//! ```
//!
//! Definitions: [`aes`](aead_ciphers_base::specs::aes#aes),
//! [`first_subkey`](crate::specs::derivation#first_subkey),
//! [`zero_block`](aead_ciphers_base::specs::bytes#zero_block), [`⊕`](aead_ciphers_base::specs::bytes#⊕).
//!
//! <div id="input_block"></div>
//!
//! ```text
//! -- what iteration i of the derivation takes: i in two bytes, the label `X`, a zero byte, and a context of 12 bytes (SP 800-108r1
//! -- section 4.1). Of iterations 1 and 2 it is M1, 00 01 58 00 and the context, and M2, 00 02 58 00 and the context.
//! abbrev pub input_block : (i : ℕ) (context : List ℕ) → List ℕ
//! input_block i context = to_be_bytes w16 i ++ 88 ∷ 0 ∷ context
//! ```
//!
//! <div id="derived_block"></div>
//!
//! ```text
//! -- iteration i of the derivation
//! unfoldable pub derived_block : (key context : List ℕ) (i : ℕ) → List ℕ
//! derived_block key context i = cmac_of_block key (input_block i context)
//! ```
//!
//! Definitions: [`cmac_of_block`](crate::specs::derivation#cmac_of_block),
//! [`input_block`](crate::specs::derivation#input_block).
//!
//! <div id="derived_key"></div>
//!
//! ```text
//! -- the key that XAES-256-GCM derives for the nonces that begin with the context, from iterations 1 and 2
//! abbrev pub derived_key : (key context : List ℕ) → List ℕ
//! derived_key key context = derived_block key context 1 ++ derived_block key context 2
//! ```
//!
//! Definitions: [`derived_block`](crate::specs::derivation#derived_block).
