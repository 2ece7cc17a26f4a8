//! AES-GCM, XAES-256-GCM, ChaCha20 and QUIC header protection, from sources that are proved.
//!
//! The packages that this one re-exports are plain Rust, which a tool writes from sources in Rattle. Rattle is Rust with contracts,
//! and the sources are proved: for every key, nonce and message they compute what the standards define. The tool deletes the
//! contracts, replaces what Rust writes otherwise, and adds the choice of vector instructions and the wiping of keys. The package
//! [`simd`], which has the vector instructions and all `unsafe` code, is written by hand. The Rust is reviewed and tested, and not
//! proved.
//!
//! The documentation of a public function shows its contract, under *Contract*. [The first page](aead_ciphers#contracts) of each
//! package says how to read one.
//!
//! - [`aead`] has AES-GCM (SP 800-38D) under ring's names. Begin with [`aead::LessSafeKey`], whose calls take the nonce, or with
//!   [`aead::SealingKey`] and [`aead::OpeningKey`], which take theirs from a sequence, one after the other. Packets that may be lost,
//!   reordered or forged need a `LessSafeKey`, which has [`seal_packet_in_place`] and [`open_packet_in_place_after_header`].
//! - [`xaes`] has XAES-256-GCM, whose nonces of 24 bytes may be drawn at random.
//! - [`aead::quic`] has the masks of QUIC's header protection (RFC 9001 section 5.4).
//! - [`aes_gcm`] has the expanded key as plain data, and messages that are sealed in pieces.
//! - [`chacha`] has the ChaCha20 stream (RFC 8439), without authentication. ChaCha20-Poly1305 isn't in this package.
//! - [`session`] seals and opens a list of messages, in order, by one call.
//! - [`tls_messages`] joins the handshake messages of TLS 1.3.
//! - [`memory`] grows a `Vec`, or returns an error if the memory isn't there.
//!
//! [`seal_packet_in_place`]: aead::generic::LessSafeKey::seal_packet_in_place
//! [`open_packet_in_place_after_header`]: aead::generic::LessSafeKey::open_packet_in_place_after_header
//!
//! ```
//! use deerlapse::aead::{AES_256_GCM, Aad, LessSafeKey, Nonce, UnboundKey, Unspecified};
//!
//! fn main() -> Result<(), Unspecified> {
//!     let bytes = [7; 32]; // not a real key, which is drawn at random and kept secret
//!     let key = LessSafeKey::new(UnboundKey::new(&AES_256_GCM, &bytes)?);
//!
//!     let mut buffer = b"hello".to_vec();
//!     let nonce = || Nonce::assume_unique_for_key([1; 12]); // another for each message
//!     key.seal_in_place_append_tag(nonce(), Aad::from(&b"v1"[..]), &mut buffer)?;
//!     assert_eq!(buffer.len(), 5 + 16);
//!
//!     let plaintext = key.open_in_place(nonce(), Aad::from(&b"v1"[..]), &mut buffer)?;
//!     assert_eq!(plaintext, b"hello");
//!     Ok(())
//! }
//! ```
//!
//! # Security
//!
//! - The caller is responsible for using no nonce twice under one key. No call draws random bytes. Under random nonces of 12
//!   bytes, a key may seal 2^32 messages (SP 800-38D section 8.3), and under those of XAES-256-GCM 2^80. The caller counts them.
//! - On x86-64, no branch and no address of the calls that take a key depended on a secret, except for the branch on whether a tag
//!   is right. This was tested with valgrind, in the code that rustc 1.95 and 1.85 make with cargo's release profile. It isn't
//!   proved, and other targets weren't tested.
//! - A key is overwritten with zeros when it is dropped. What a call keeps on its stack isn't.
//!
//! `SECURITY.md` of the repository says more about the caller's responsibilities.
//!
//! # Features and targets
//!
//! Both features are on by default. With `std`, the vector instructions are chosen at run time, by what the processor has. Without
//! it, only those are used for which the program is compiled (`-C target-feature`, `-C target-cpu`). `alloc` adds
//! [`InOut`](aead::InOut) for `Vec<u8>` and the modules [`session`] and [`memory`]. Without either the packages need no allocator
//! and no operating system. The `usize` of a target must have 64 bits.
//!
//! In a build without optimization these calls take some 270 times as long. `[profile.dev.package."*"] opt-level = 3` in a
//! program's `Cargo.toml` optimizes its dependencies alone.

#![no_std]
#![forbid(unsafe_code)]

#[cfg(feature = "alloc")]
extern crate alloc;
#[cfg(feature = "std")]
extern crate std;

#[cfg(feature = "alloc")]
pub mod memory;

#[cfg(feature = "alloc")]
pub use aead_ciphers::session;
pub use aead_ciphers_base::{chacha, error};
pub use tls_messages;
pub use xaes;

pub mod aead {
    //! AES-GCM (SP 800-38D) under ring's names.
    //!
    //! Take [`LessSafeKey`] if a protocol says which nonce a message has, and for messages that may be lost, reordered or forged. Take
    //! [`SealingKey`] and [`OpeningKey`] if messages are opened in the order in which they were sealed.
    //!
    //! The keys are those of [`aead_ciphers_wide`](aead_ciphers_wide::aead). On a target without vector instructions in stable Rust,
    //! such as riscv64, they take two to four times as many instructions as the keys of [`aead_ciphers`](aead_ciphers::aead). These are
    //! the same generic types over another expanded key, with the same calls. A program for such a target alone can take them.
    //!
    //! # Differences from ring
    //!
    //! - Opening compares the tags before it decrypts, and leaves the buffer unchanged if the tag is wrong.
    //! - [`Aad`] is over a slice: an array is passed as `Aad::from(&b"v1"[..])`.
    //! - [`Nonce`], [`Aad`] and [`Tag`] have a method `as_ref`, and don't implement `AsRef`.
    //! - `seal_in_place_append_tag` takes an [`InOut`] in place of an `AsMut<[u8]> + Extend<&u8>`.
    //! - `CHACHA20_POLY1305`, `hkdf::KeyType` of the algorithms and `HeaderProtectionKey::algorithm` are missing.
    //!
    //! `docs/DIFFERENCES.md` of the repository has the others, and what ring doesn't have.

    pub use aead_ciphers::aead::{
        AES_128_GCM, AES_256_GCM, Aad, Algorithm, BoundKey, CounterSequence, InOut, MAX_TAG_LEN,
        NONCE_LEN, Nonce, NonceSequence, Tag, UnboundKey, Unspecified, XoredSequence, generic,
        nonce_of,
    };
    pub use aead_ciphers_wide::aead::{LessSafeKey, OpeningKey, SealingKey};

    /// QUIC header protection (RFC 9001 section 5.4).
    pub mod quic {
        pub use aead_ciphers::aead::quic::{AES_128, AES_256, Algorithm, CHACHA20, Sample};
        pub use aead_ciphers_wide::aead::quic::HeaderProtectionKey;
    }
}

/// The expanded key of AES-GCM as plain data, and messages that are sealed in pieces.
pub mod aes_gcm {
    pub use aead_ciphers::aes_gcm::GcmKey;
    pub use aead_ciphers_base::aes::{KeyBytes, Work};
    pub use aead_ciphers_wide::aes::Width;
    pub use aead_ciphers_wide::aes_gcm::{ExpandedKey, SealState};
}
