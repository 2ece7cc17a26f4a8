// Written by tools/rust from crates/aead_ciphers_base/specs/Work.antt. Don't edit.
//! What a contract sees of a `Work`: the numbers of cipher blocks and field products that were counted.
//!
//! The definitions of `crates/aead_ciphers_base/specs/Work.antt` of the repository.
//!
//! <div id="Tallies"></div>
//!
//! ```text
//! pub record Tallies : Type 0 where
//!   pub blocks : ℕ
//!   pub products : ℕ
//! ```
//!
//! <div id="Adds"></div>
//!
//! ```text
//! -- `now` is `was` with these numbers of blocks and products added
//! abbrev pub Adds : Tallies → Tallies → ℕ → ℕ → Type 0
//! Adds was now blocks products = (now.blocks ≡ was.blocks + blocks) × (now.products ≡ was.products + products)
//! ```
//!
//! Definitions: [`Tallies`](crate::specs::work#Tallies).
//!
//! <div id="CanAdd"></div>
//!
//! ```text
//! -- the tallies with these numbers of blocks and products added fit in 64 bits
//! abbrev pub CanAdd : Tallies → ℕ → ℕ → Type 0
//! CanAdd work blocks products = (work.blocks + blocks < 2 ^ 64) × (work.products + products < 2 ^ 64)
//! ```
//!
//! Definitions: [`Tallies`](crate::specs::work#Tallies).
//!
//! <div id="HasRoom"></div>
//!
//! ```text
//! -- both tallies have room for one seal or open
//! abbrev pub HasRoom : Tallies → Type 0
//! HasRoom work = (work.blocks ≤ 2 ^ 62) × (work.products ≤ 2 ^ 62)
//! ```
//!
//! Definitions: [`Tallies`](crate::specs::work#Tallies).
