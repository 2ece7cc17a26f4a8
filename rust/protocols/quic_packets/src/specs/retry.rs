// Written by tools/rust from crates/quic_packets/specs/Retry.antt. Don't edit.
//! The integrity of Retry packets (RFC 9001 section 5.8, RFC 9369 section 3.3.3). A Retry packet ends with its tag of 16 bytes.
//!
//! The definitions of `crates/quic_packets/specs/Retry.antt` of the repository.
//!
//! <div id="retry_key"></div>
//!
//! ```text
//! -- the key of the tag
//! abbrev pub retry_key : Version → List ℕ
//! retry_key One =
//!     0xbe ∷ 0x0c ∷ 0x69 ∷ 0x0b ∷ 0x9f ∷ 0x66 ∷ 0x57 ∷ 0x5a ∷ 0x1d ∷ 0x76 ∷ 0x6b ∷ 0x54 ∷ 0xe3 ∷ 0x68 ∷ 0xc8 ∷ 0x4e ∷ []
//! retry_key Two =
//!     0x8f ∷ 0xb4 ∷ 0xb0 ∷ 0x1b ∷ 0x56 ∷ 0xac ∷ 0x48 ∷ 0xe2 ∷ 0x60 ∷ 0xfb ∷ 0xcb ∷ 0xce ∷ 0xad ∷ 0x7c ∷ 0xcc ∷ 0x92 ∷ []
//! ```
//!
//! <div id="retry_nonce"></div>
//!
//! ```text
//! -- The nonce of the tag.
//! abbrev pub retry_nonce : Version → List ℕ
//! retry_nonce One = 0x46 ∷ 0x15 ∷ 0x99 ∷ 0xd3 ∷ 0x5d ∷ 0x63 ∷ 0x2b ∷ 0xf2 ∷ 0x23 ∷ 0x98 ∷ 0x25 ∷ 0xbb ∷ []
//! retry_nonce Two = 0xd8 ∷ 0x69 ∷ 0x69 ∷ 0xbc ∷ 0x2d ∷ 0x7c ∷ 0x6d ∷ 0x99 ∷ 0x90 ∷ 0xef ∷ 0xb0 ∷ 0x4a ∷ []
//! ```
//!
//! <div id="pseudo_packet"></div>
//!
//! ```text
//! -- the pseudo-packet: the length of the destination connection ID of the client's first packet, in one byte; that ID; and the
//! -- Retry packet without its tag
//! abbrev pub pseudo_packet : (original_id retry : List ℕ) → List ℕ
//! pseudo_packet original_id retry = (length original_id ∷ original_id) ++ retry
//! ```
//!
//! <div id="integrity_tag"></div>
//!
//! ```text
//! -- the tag of AES-128-GCM for an empty plaintext, with the pseudo-packet as AAD
//! abbrev pub integrity_tag : Version → (original_id retry : List ℕ) → List ℕ
//! integrity_tag version original_id retry = gcm_tag (aes (retry_key version)) (retry_nonce version) (pseudo_packet original_id retry) []
//! ```
//!
//! Definitions: [`gcm_tag`](aead_ciphers::specs::gcm#gcm_tag), [`aes`](aead_ciphers_base::specs::aes#aes),
//! [`retry_key`](crate::specs::retry#retry_key), [`retry_nonce`](crate::specs::retry#retry_nonce),
//! [`pseudo_packet`](crate::specs::retry#pseudo_packet).
//!
//! <div id="IsShortPseudoPacket"></div>
//!
//! ```text
//! -- the pseudo-packet is shorter than the limit of an AAD (SP 800-38D section 5.2.1.1)
//! abbrev pub IsShortPseudoPacket : (original_id retry : List ℕ) → Type 0
//! IsShortPseudoPacket original_id retry = length (pseudo_packet original_id retry) < 2 ^ 61
//! ```
//!
//! Definitions: [`pseudo_packet`](crate::specs::retry#pseudo_packet).
//!
//! <div id="IsGenuineRetry"></div>
//!
//! ```text
//! -- the packet ends with the tag of the bytes before it
//! pub record IsGenuineRetry (version : Version) (original_id packet : List ℕ) : Type 0 where
//!   pub tagged : tag_len ≤ length packet
//!   pub short : IsShortPseudoPacket original_id (take (length packet - tag_len) packet)
//!   pub tag : drop (length packet - tag_len) packet ≡ integrity_tag version original_id (take (length packet - tag_len) packet)
//! ```
//!
//! Definitions: [`tag_len`](aead_ciphers::specs::gcm#tag_len),
//! [`IsShortPseudoPacket`](crate::specs::retry#IsShortPseudoPacket),
//! [`integrity_tag`](crate::specs::retry#integrity_tag).
