// Written by tools/rust from crates/quic_packets/specs/Header.antt. Don't edit.
//! Header protection (RFC 9001 section 5.4). Bytes are taken by index.
//!
//! The definitions of `crates/quic_packets/specs/Header.antt` of the repository.
//!
//! <div id="number_len"></div>
//!
//! ```text
//! -- the length of the packet number in bytes, from the low two bits of the unmasked first byte (section 5.4.1)
//! abbrev pub number_len : ℕ → ℕ
//! number_len first = bit_and first 0x03 + 1
//! ```
//!
//! <div id="first_mask"></div>
//!
//! ```text
//! -- the mask of the first byte: four bits in a long header, whose highest bit is set, and five in a short one (section 5.4.1)
//! abbrev pub first_mask : ℕ → ℕ → ℕ
//! first_mask first mask = if bit_and first 0x80 == 0x80 then bit_and mask 0x0f else bit_and mask 0x1f
//! ```
//!
//! <div id="HasSample"></div>
//!
//! ```text
//! -- The packet number doesn't begin at the first byte, and the packet is long enough for a sample (section 5.4.2).
//! pub record HasSample (number_at len : ℕ) : Type 0 where
//!   pub first_byte : 0 < number_at
//!   pub sampled : number_at + 20 ≤ len
//! ```
//!
//! <div id="mask_of"></div>
//!
//! ```text
//! -- the mask for the sample of 16 bytes that begins 4 bytes after the start of the packet number (sections 5.4.1 and 5.4.2)
//! abbrev pub mask_of : HeaderKey → ℕ → List ℕ → List ℕ
//! mask_of key number_at packet = header_protection key.algorithm key.bytes (slice_range packet (number_at + 4) (number_at + 20))
//! ```
//!
//! Definitions: [`HeaderKey`](aead_ciphers::specs::header_protection#HeaderKey),
//! [`header_protection`](aead_ciphers::specs::header_protection#header_protection).
//!
//! <div id="Masked"></div>
//!
//! ```text
//! -- Masking a packet whose number is the n bytes from `number_at` on (section 5.4.1): the first byte is XORed with its bits of
//! -- the mask's first byte, and byte i of the packet number with byte i + 1 of the mask. No other byte changes.
//! pub record Masked (mask : List ℕ) (number_at n : ℕ) (old new : List ℕ) : Type 0 where
//!   pub first : slice_index new 0 ≡ bit_xor (slice_index old 0) (first_mask (slice_index old 0) (slice_index mask 0))
//!   pub number : (i : ℕ) → i < n
//!       → slice_index new (number_at + i) ≡ bit_xor (slice_index old (number_at + i)) (slice_index mask (i + 1))
//!   pub others : (i : ℕ) → 0 < i → (i < number_at) ⊎ (number_at + n ≤ i) → slice_index new i ≡ slice_index old i
//!   pub len : length new ≡ length old
//! ```
//!
//! Definitions: [`first_mask`](crate::specs::header#first_mask).
//!
//! <div id="MaskedParts"></div>
//!
//! ```text
//! -- Masking a header by its parts (section 5.4.1): the first byte, and the bytes of the packet number, of which the first n are
//! -- masked.
//! pub record MaskedParts (mask : List ℕ) (n was : ℕ) (number_was : List ℕ) (now : ℕ) (number_now : List ℕ) : Type 0 where
//!   pub first : now ≡ bit_xor was (first_mask was (slice_index mask 0))
//!   pub number : (i : ℕ) → i < n → i < length number_was
//!       → slice_index number_now i ≡ bit_xor (slice_index number_was i) (slice_index mask (i + 1))
//!   pub others : (i : ℕ) → n ≤ i → slice_index number_now i ≡ slice_index number_was i
//!   pub len : length number_now ≡ length number_was
//! ```
//!
//! Definitions: [`first_mask`](crate::specs::header#first_mask).
//!
//! <div id="Protected"></div>
//!
//! ```text
//! -- Protecting reads the length of the packet number before the first byte is masked (section 5.4.1).
//! abbrev pub Protected : HeaderKey → ℕ → List ℕ → List ℕ → Type 0
//! Protected key number_at old new = Masked (mask_of key number_at old) number_at (number_len (slice_index old 0)) old new
//! ```
//!
//! Definitions: [`HeaderKey`](aead_ciphers::specs::header_protection#HeaderKey),
//! [`Masked`](crate::specs::header#Masked), [`mask_of`](crate::specs::header#mask_of),
//! [`number_len`](crate::specs::header#number_len).
//!
//! <div id="Unprotected"></div>
//!
//! ```text
//! -- Unprotecting reads the length after the first byte is unmasked (section 5.4.1).
//! abbrev pub Unprotected : HeaderKey → ℕ → List ℕ → List ℕ → Type 0
//! Unprotected key number_at old new = Masked (mask_of key number_at old) number_at (number_len (slice_index new 0)) old new
//! ```
//!
//! Definitions: [`HeaderKey`](aead_ciphers::specs::header_protection#HeaderKey),
//! [`Masked`](crate::specs::header#Masked), [`mask_of`](crate::specs::header#mask_of),
//! [`number_len`](crate::specs::header#number_len).
//!
//! <div id="HasMaskedBytes"></div>
//!
//! ```text
//! -- A mask may change these bytes of a header: the first byte, and the four from the start of the packet number on (section
//! -- 5.4.1).
//! pub record HasMaskedBytes (bytes : List ℕ) (number_at : ℕ) (packet : List ℕ) : Type 0 where
//!   pub first : slice_index bytes 0 ≡ slice_index packet 0
//!   pub number : (i : ℕ) → i < 4 → slice_index bytes (i + 1) ≡ slice_index packet (number_at + i)
//! ```
