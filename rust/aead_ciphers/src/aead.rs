// Written by tools/rust from crates/aead_ciphers/src/aead.rt. Don't edit.
//! Authenticated encryption with additional authenticated data (AEAD), by AES-GCM (SP 800-38D).
//!
//! Read `LessSafeKey` first, whose calls take the nonce. `SealingKey` and `OpeningKey` take theirs from a
//! `NonceSequence`.

mod algorithm;
mod bound_key;
mod counter_sequence;
mod in_out;
pub mod lend;
mod less_safe_key;
mod nonce_sequence;
mod opening_key;
pub mod quic;
mod sealing_key;
mod unbound_key;
mod xored_sequence;

use crate::aes_gcm::ExpandedKey;
pub use aead_ciphers_base::error::Unspecified;
pub use aead_ciphers_base::values::{Aad, MAX_TAG_LEN, NONCE_LEN, Nonce, Tag};
pub use algorithm::{AES_128_GCM, AES_256_GCM, Algorithm};
pub use bound_key::BoundKey;
pub use counter_sequence::CounterSequence;
pub use in_out::InOut;
pub use nonce_sequence::NonceSequence;
pub use unbound_key::UnboundKey;
pub use xored_sequence::{XoredSequence, nonce_of};

/// The same keys over any expanded AES-GCM key.
pub mod generic {
    pub use super::less_safe_key::LessSafeKey;
    pub use super::opening_key::OpeningKey;
    pub use super::sealing_key::SealingKey;
}

/// A key whose calls take the nonce as an argument. It is [`generic::LessSafeKey`], which has the methods, over
/// [`ExpandedKey`].
pub type LessSafeKey = less_safe_key::LessSafeKey<ExpandedKey>;

/// A key that seals each message under the next nonce of its sequence. It is [`generic::SealingKey`], which has the
/// methods, over [`ExpandedKey`].
pub type SealingKey<N> = sealing_key::SealingKey<ExpandedKey, N>;

/// A key that opens each message under the next nonce of its sequence. It is [`generic::OpeningKey`], which has the
/// methods, over [`ExpandedKey`].
pub type OpeningKey<N> = opening_key::OpeningKey<ExpandedKey, N>;
