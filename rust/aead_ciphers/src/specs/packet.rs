// Written by tools/rust from crates/aead_ciphers/specs/Packet.antt. Don't edit.
//! A packet that is sealed or opened in place: a header, then the plaintext or ciphertext, then the tag or room for it.
//!
//! The definitions of `crates/aead_ciphers/specs/Packet.antt` of the repository.
//!
//! <div id="PacketFits"></div>
//!
//! ```text
//! -- n bytes have room for a header of h bytes and a tag, and the lengths of header and plaintext are within the limits
//! pub record PacketFits (h n : ℕ) : Type 0 where
//!   pub room : h + tag_len ≤ n
//!   pub lengths : Fits h (n - tag_len - h)
//! ```
//!
//! Definitions: [`tag_len`](crate::specs::gcm#tag_len), [`Fits`](crate::specs::gcm#Fits).
//!
//! <div id="packet_message"></div>
//!
//! ```text
//! -- the bytes between the header and the tag
//! abbrev pub packet_message : ℕ → List ℕ → List ℕ
//! packet_message h packet = take (length packet - tag_len - h) (drop h packet)
//! ```
//!
//! Definitions: [`tag_len`](crate::specs::gcm#tag_len).
//!
//! <div id="sealed_packet"></div>
//!
//! ```text
//! -- the sealed packet: its header, which is the AAD, then the ciphertext and the tag (SP 800-38D section 7.1)
//! abbrev pub sealed_packet : (key nonce : List ℕ) → ℕ → List ℕ → List ℕ
//! sealed_packet key nonce h packet = take h packet ++ gcm_sealed (aes key) nonce (take h packet) (packet_message h packet)
//! ```
//!
//! Definitions: [`gcm_sealed`](crate::specs::gcm#gcm_sealed), [`aes`](aead_ciphers_base::specs::aes#aes),
//! [`packet_message`](crate::specs::packet#packet_message).
//!
//! <div id="OpenedPacket"></div>
//!
//! ```text
//! -- Whether opening a packet accepts, and what the packet then holds. The header, which is the AAD, is unchanged, and the
//! -- bytes after it are opened with the tag attached.
//! pub record OpenedPacket (key nonce : List ℕ) (h : ℕ) (old : List ℕ) (accepts : Bool) (new : List ℕ) : Type 0 where
//!   pub header : take h new ≡ take h old
//!   pub body : OpenedAttached (aes key) nonce (take h old) 0 (drop h old) accepts (drop h new)
//! ```
//!
//! Definitions: [`OpenedAttached`](crate::specs::gcm#OpenedAttached), [`aes`](aead_ciphers_base::specs::aes#aes).
