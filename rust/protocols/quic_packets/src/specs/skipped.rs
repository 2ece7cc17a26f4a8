// Written by tools/rust from crates/quic_packets/specs/Skipped.antt. Don't edit.
//! The packet numbers that a sender has skipped: the eight highest ranges of them, the last one first. Until there are eight,
//! the rest are empty.
//!
//! The definitions of `crates/quic_packets/specs/Skipped.antt` of the repository.
//!
//! <div id="no_gaps"></div>
//!
//! ```text
//! -- no number is skipped
//! abbrev pub no_gaps : List Gap
//! no_gaps = replicate 8 (record { start = 0; end = 0 })
//! ```
//!
//! <div id="is_in_gap"></div>
//!
//! ```text
//! -- the number is in the range
//! abbrev pub is_in_gap : ℕ → Gap → Bool
//! is_in_gap number gap = nat_le gap.start number && nat_lt number gap.end
//! ```
//!
//! <div id="is_skipped"></div>
//!
//! ```text
//! -- the number is in one of the ranges
//! abbrev pub is_skipped : List Gap → ℕ → Bool
//! is_skipped gaps number = list_any (is_in_gap number) gaps
//! ```
//!
//! Definitions: [`is_in_gap`](crate::specs::skipped#is_in_gap).
//!
//! <div id="with_gap"></div>
//!
//! ```text
//! -- The ranges once the numbers from `start` up to `end` are skipped too. The last range is longer if it ends at `start`. Otherwise
//! -- there is another one, and the lowest of eight is forgotten.
//! abbrev pub with_gap : List Gap → (start end : ℕ) → List Gap
//! with_gap [] start end = record { start = start; end = end } ∷ []
//! with_gap (last ∷ lower) start end =
//!     if last.end == start then record last { end = end } ∷ lower else record { start = start; end = end } ∷ take 7 (last ∷ lower)
//! ```
//!
//! <div id="highest_end"></div>
//!
//! ```text
//! -- the highest end of these ranges, or 0
//! abbrev pub highest_end : List Gap → ℕ
//! highest_end [] = 0
//! highest_end (gap ∷ gaps) = max gap.end (highest_end gaps)
//! ```
//!
//! <div id="forgotten"></div>
//!
//! ```text
//! -- The end of the range that is then forgotten, or 0 if none is.
//! abbrev pub forgotten : List Gap → (start : ℕ) → ℕ
//! forgotten [] start = 0
//! forgotten (last ∷ lower) start = if last.end == start then 0 else highest_end (drop 7 (last ∷ lower))
//! ```
//!
//! Definitions: [`highest_end`](crate::specs::skipped#highest_end).
