// Written by tools/rust from crates/quic_packets/specs/Packet.antt. Don't edit.
//! Packet protection (RFC 9001 section 5.3). A packet is its header, which ends with the packet number, its payload, and 16
//! bytes for the tag.
//!
//! The definitions of `crates/quic_packets/specs/Packet.antt` of the repository.
//!
//! <div id="IsNumber"></div>
//!
//! ```text
//! -- a packet number is below 2^62 (RFC 9000 section 12.3)
//! abbrev pub IsNumber : ℕ → Type 0
//! IsNumber number = number < 2 ^ 62
//! ```
//!
//! <div id="EndsWithTag"></div>
//!
//! ```text
//! -- the last 16 bytes are the tag of the ciphertext before them, with the header as AAD
//! abbrev pub EndsWithTag : (key nonce header : List ℕ) → List ℕ → Type 0
//! EndsWithTag key nonce header body = let n = length body - tag_len in drop n body ≡ gcm_tag (aes key) nonce header (take n body)
//! ```
//!
//! Definitions: [`tag_len`](aead_ciphers::specs::gcm#tag_len), [`gcm_tag`](aead_ciphers::specs::gcm#gcm_tag),
//! [`aes`](aead_ciphers_base::specs::aes#aes).
//!
//! <div id="IsGenuine"></div>
//!
//! ```text
//! -- the packet ends with the tag of its ciphertext, with the header as AAD
//! abbrev pub IsGenuine : (key nonce : List ℕ) (header_len : ℕ) → List ℕ → Type 0
//! IsGenuine key nonce header_len packet = EndsWithTag key nonce (take header_len packet) (drop header_len packet)
//! ```
//!
//! Definitions: [`EndsWithTag`](crate::specs::packet#EndsWithTag).
//!
//! <div id="HasNumber"></div>
//!
//! ```text
//! -- The packet number is the end of the header, from byte `start` up to `end`. It begins after the first byte, and is as long as
//! -- that byte says (RFC 9000 sections 17.2 and 17.3.1).
//! pub record HasNumber (start end : ℕ) (packet : List ℕ) : Type 0 where
//!   pub first_byte : 0 < start
//!   pub len : end ≡ start + number_len (slice_index packet 0)
//! ```
//!
//! Definitions: [`number_len`](crate::specs::header#number_len).
//!
//! <div id="low_bytes"></div>
//!
//! ```text
//! -- the n low bytes of a number, highest first
//! unfoldable pub low_bytes : ℕ → ℕ → List ℕ
//! low_bytes n number = drop (8 - n) (to_be_bytes w64 number)
//! ```
//!
//! <div id="CarriesNumber"></div>
//!
//! ```text
//! -- the header holds the low bytes of this number (RFC 9000 section 17.1)
//! abbrev pub CarriesNumber : (number start end : ℕ) → List ℕ → Type 0
//! CarriesNumber number start end packet = slice_range packet start end ≡ low_bytes (end - start) number
//! ```
//!
//! Definitions: [`low_bytes`](crate::specs::packet#low_bytes).
