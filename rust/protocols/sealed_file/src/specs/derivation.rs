// Written by tools/rust from crates/sealed_file/specs/Derivation.antt. Don't edit.
//! The commitment to a key, by the derivation of XAES-256-GCM.
//!
//! The definitions of `crates/sealed_file/specs/Derivation.antt` of the repository.
//!
//! <div id="commitment"></div>
//!
//! ```text
//! -- the commitment to the key, from iterations 3 and 4, which are particular to this format
//! abbrev pub commitment : (key context : List ℕ) → List ℕ
//! commitment key context = derived_block key context 3 ++ derived_block key context 4
//! ```
//!
//! Definitions: [`derived_block`](xaes::specs::derivation#derived_block).
