// Written by tools/rust from crates/aead_ciphers_wide/specs/Width.antt. Don't edit.
//! The widths of bit planes, in bits.
//!
//! The definitions of `crates/aead_ciphers_wide/specs/Width.antt` of the repository.
//!
//! <div id="width_bits"></div>
//!
//! ```text
//! -- the number of bits of a plane
//! abbrev pub width_bits : Width → ℕ
//! width_bits Bits128 = 128
//! width_bits Bits256 = 256
//! ```
