// Written by tools/rust from crates/aead_ciphers/specs/Gcm.antt. Don't edit.
//! Authenticated encryption with a block cipher of 16-byte blocks, 12-byte nonces and 16-byte tags (SP 800-38D
//! section 7). A cipher is a function on blocks. Bytes are taken by index, and are 0 past the end.
//!
//! The definitions of `crates/aead_ciphers/specs/Gcm.antt` of the repository.
//!
//! <div id="tag_len"></div>
//!
//! ```text
//! -- the length of a tag in bytes: 128 bits, the longest that the standard allows (section 5.2.1.2)
//! abbrev pub tag_len : ℕ
//! tag_len = 16
//! ```
//!
//! <div id="padded_block"></div>
//!
//! ```text
//! -- the 16 bytes from byte 16 i on, with zeros past the end (section 7.1 step 4)
//! unfoldable pub padded_block : List ℕ → ℕ → List ℕ
//! padded_block bytes i = each_below 16 (λ j. slice_index bytes (16 * i + j))
//! ```
//!
//! Definitions: [`each_below`](aead_ciphers_base::specs::bytes#each_below).
//!
//! <div id="padded_blocks"></div>
//!
//! ```text
//! -- the bytes in blocks, the last of which is padded with zeros (section 7.1 step 4)
//! unfoldable pub padded_blocks : List ℕ → List (List ℕ)
//! padded_blocks bytes = each_below ((length bytes + 15) / 16) (padded_block bytes)
//! ```
//!
//! Definitions: [`each_below`](aead_ciphers_base::specs::bytes#each_below),
//! [`padded_block`](crate::specs::gcm#padded_block).
//!
//! <div id="length_block"></div>
//!
//! ```text
//! -- the lengths of a bytes of AAD and n bytes of ciphertext, in bits, in eight big-endian bytes each (section 7.1 step 5)
//! unfoldable pub length_block : ℕ → ℕ → List ℕ
//! length_block a n = to_be_bytes w64 (8 * a) ++ to_be_bytes w64 (8 * n)
//! ```
//!
//! <div id="hashed"></div>
//!
//! ```text
//! -- the blocks that a tag hashes: those of the AAD and of the ciphertext, each padded by itself, and that of their
//! -- lengths (section 7.1 step 5)
//! unfoldable pub hashed : List ℕ → List ℕ → List (List ℕ)
//! hashed aad ciphertext =
//!     padded_blocks aad ++ padded_blocks ciphertext ++ length_block (length aad) (length ciphertext) ∷ []
//! ```
//!
//! Definitions: [`padded_blocks`](crate::specs::gcm#padded_blocks),
//! [`length_block`](crate::specs::gcm#length_block).
//!
//! <div id="Fits"></div>
//!
//! ```text
//! -- the lengths of AAD and plaintext are within the limits, in bytes (section 5.2.1.1)
//! pub record Fits (a n : ℕ) : Type 0 where
//!   pub aad : a < 2 ^ 61
//!   pub message : n ≤ 2 ^ 36 - 32
//! ```
//!
//! <div id="gcm_encrypted"></div>
//!
//! ```text
//! -- the ciphertext of a plaintext: counter mode from counter block 2, which is inc32 of J0, on (section 7.1 step 3)
//! abbrev pub gcm_encrypted : (List ℕ → List ℕ) → List ℕ → List ℕ → List ℕ
//! gcm_encrypted cipher nonce message = counter_mode cipher nonce 2 message
//! ```
//!
//! Definitions: [`counter_mode`](aead_ciphers_base::specs::counter_mode#counter_mode).
//!
//! <div id="gcm_decrypted"></div>
//!
//! ```text
//! -- the plaintext of a ciphertext, by the same counter mode (section 7.2 step 4)
//! abbrev pub gcm_decrypted : (List ℕ → List ℕ) → List ℕ → List ℕ → List ℕ
//! gcm_decrypted cipher nonce ciphertext = counter_mode cipher nonce 2 ciphertext
//! ```
//!
//! Definitions: [`counter_mode`](aead_ciphers_base::specs::counter_mode#counter_mode).
//!
//! <div id="gcm_tag"></div>
//!
//! ```text
//! -- the tag of a ciphertext; the hash subkey is the encrypted zero block, and J0 is counter block 1 (section 7.1 steps 1, 2 and 6)
//! unfoldable pub gcm_tag : (List ℕ → List ℕ) → List ℕ → List ℕ → List ℕ → List ℕ
//! gcm_tag cipher nonce aad ciphertext =
//!     ghash (cipher zero_block) (hashed aad ciphertext) ⊕ cipher (counter_block nonce 1)
//! ```
//!
//! Definitions: [`ghash`](crate::specs::ghash#ghash), [`zero_block`](aead_ciphers_base::specs::bytes#zero_block),
//! [`hashed`](crate::specs::gcm#hashed), [`⊕`](aead_ciphers_base::specs::bytes#⊕),
//! [`counter_block`](aead_ciphers_base::specs::counter_mode#counter_block).
//!
//! <div id="gcm_sealed"></div>
//!
//! ```text
//! -- the ciphertext of a plaintext followed by its tag (section 7.1; RFC 5116 section 5.1)
//! abbrev pub gcm_sealed : (List ℕ → List ℕ) → List ℕ → List ℕ → List ℕ → List ℕ
//! gcm_sealed cipher nonce aad message =
//!     let ciphertext = gcm_encrypted cipher nonce message in ciphertext ++ gcm_tag cipher nonce aad ciphertext
//! ```
//!
//! Definitions: [`gcm_encrypted`](crate::specs::gcm#gcm_encrypted), [`gcm_tag`](crate::specs::gcm#gcm_tag).
//!
//! <div id="Opens"></div>
//!
//! ```text
//! module _ (cipher : List ℕ → List ℕ) (nonce aad : List ℕ) where
//!   -- Whether opening accepts, and what the buffer then holds (section 7.2). It accepts exactly if the ciphertext is in
//!   -- range, the lengths are within the limits, and the received tag is the tag of the ciphertext. The plaintext is then at
//!   -- the front of the buffer, and the bytes after it are unchanged. If it rejects, the buffer is unchanged.
//!   pub record Opens (tag ciphertext : List ℕ) (in_range : Type 0) (old : List ℕ) (accepts : Bool)
//!       (new : List ℕ) : Type 0 where
//!     pub accepted : IsTrue accepts ↔ (in_range × Fits (length aad) (length ciphertext)
//!         × (tag ≡ gcm_tag cipher nonce aad ciphertext))
//!     pub buffer : new ≡ (if accepts
//!         then gcm_decrypted cipher nonce ciphertext ++ drop (length ciphertext) old else old)
//! ```
//!
//! Definitions: [`Fits`](crate::specs::gcm#Fits), [`gcm_tag`](crate::specs::gcm#gcm_tag),
//! [`gcm_decrypted`](crate::specs::gcm#gcm_decrypted).
//!
//! <div id="Opened"></div>
//!
//! ```text
//! module _ (cipher : List ℕ → List ℕ) (nonce aad : List ℕ) where
//!   -- the tag is received separately, and the ciphertext is the buffer from `start` on
//!   abbrev pub Opened : List ℕ → ℕ → List ℕ → Bool → List ℕ → Type 0
//!   Opened tag start old accepts new = Opens tag (drop start old) (start ≤ length old) old accepts new
//! ```
//!
//! Definitions: [`Opens`](crate::specs::gcm#Opens).
//!
//! <div id="OpenedAttached"></div>
//!
//! ```text
//! module _ (cipher : List ℕ → List ℕ) (nonce aad : List ℕ) where
//!   -- the tag is the end of the buffer and is unchanged, and the ciphertext is before it, from `start` on; a buffer that is
//!   -- shorter than a tag, of which n would be 0, is never in range
//!   abbrev pub OpenedAttached : ℕ → List ℕ → Bool → List ℕ → Type 0
//!   OpenedAttached start old accepts new =
//!       let n = length old - tag_len in
//!       Opens (drop n old) (drop start (take n old)) (start + tag_len ≤ length old) old accepts new
//! ```
//!
//! Definitions: [`tag_len`](crate::specs::gcm#tag_len), [`Opens`](crate::specs::gcm#Opens).
//!
//! <div id="sealing_blocks"></div>
//!
//! ```text
//! -- the cipher blocks of sealing n bytes of plaintext, or of opening them with success: one for each block of the
//! -- plaintext, and one for the tag (section 7.1 steps 3 and 6)
//! abbrev pub sealing_blocks : ℕ → ℕ
//! sealing_blocks n = (n + 15) / 16 + 1
//! ```
//!
//! <div id="sealing_products"></div>
//!
//! ```text
//! -- the field products of sealing or opening a bytes of AAD and n bytes of plaintext: one for each block that is hashed
//! -- (sections 6.4 and 7.1 step 5)
//! abbrev pub sealing_products : ℕ → ℕ → ℕ
//! sealing_products a n = (a + 15) / 16 + (n + 15) / 16 + 1
//! ```
//!
//! <div id="CanSeal"></div>
//!
//! ```text
//! -- the tallies have room for sealing n bytes of plaintext with a bytes of AAD, if the lengths are within the limits
//! abbrev pub CanSeal : Tallies → ℕ → ℕ → Type 0
//! CanSeal work a n = Fits a n → CanAdd work (sealing_blocks n) (sealing_products a n)
//! ```
//!
//! Definitions: [`Tallies`](aead_ciphers_base::specs::work#Tallies), [`Fits`](crate::specs::gcm#Fits),
//! [`CanAdd`](aead_ciphers_base::specs::work#CanAdd), [`sealing_blocks`](crate::specs::gcm#sealing_blocks),
//! [`sealing_products`](crate::specs::gcm#sealing_products).
//!
//! <div id="CanOpen"></div>
//!
//! ```text
//! -- the same for opening the bytes from `start` on of a buffer of len bytes, if the start is in range
//! abbrev pub CanOpen : Tallies → ℕ → ℕ → ℕ → Type 0
//! CanOpen work a start len = start ≤ len → CanSeal work a (len - start)
//! ```
//!
//! Definitions: [`Tallies`](aead_ciphers_base::specs::work#Tallies), [`CanSeal`](crate::specs::gcm#CanSeal).
//!
//! <div id="SealWork"></div>
//!
//! ```text
//! -- the tallies of sealing n bytes of plaintext with a bytes of AAD; a call that fails counts nothing
//! pub record SealWork {T E : Type 0} (a n : ℕ) (result : Result T E) (was now : Tallies) : Type 0 where
//!   pub worked : OnOk result (Adds was now (sealing_blocks n) (sealing_products a n))
//!   pub idle : OnErr result (Adds was now 0 0)
//! ```
//!
//! Definitions: [`Tallies`](aead_ciphers_base::specs::work#Tallies), [`Adds`](aead_ciphers_base::specs::work#Adds),
//! [`sealing_blocks`](crate::specs::gcm#sealing_blocks), [`sealing_products`](crate::specs::gcm#sealing_products).
//!
//! <div id="OpenWork"></div>
//!
//! ```text
//! -- The tallies of opening the bytes from `start` on of a buffer of len bytes. A false tag costs all products but only
//! -- one block. If the start is out of range or the lengths exceed the limits, nothing is counted.
//! pub record OpenWork {T E : Type 0} (a start len : ℕ) (result : Result T E) (was now : Tallies) : Type 0 where
//!   pub worked : let n = len - start in OnOk result (Adds was now (sealing_blocks n) (sealing_products a n))
//!   pub false_tag : start ≤ len → let n = len - start in
//!       Fits a n → OnErr result (Adds was now 1 (sealing_products a n))
//!   pub out_of_range : len < start → Adds was now 0 0
//!   pub too_long : start ≤ len → ¬ Fits a (len - start) → Adds was now 0 0
//! ```
//!
//! Definitions: [`Tallies`](aead_ciphers_base::specs::work#Tallies), [`Adds`](aead_ciphers_base::specs::work#Adds),
//! [`sealing_blocks`](crate::specs::gcm#sealing_blocks), [`sealing_products`](crate::specs::gcm#sealing_products),
//! [`Fits`](crate::specs::gcm#Fits).
