// Written by tools/rust from crates/quic_packets/specs/Space.antt. Don't edit.
//! The packet numbers that were received in one packet number space (RFC 9000 section 12.3).
//!
//! The definitions of `crates/quic_packets/specs/Space.antt` of the repository.
//!
//! <div id="Space"></div>
//!
//! ```text
//! -- A space: `next` is the expected number, which is one more than the largest that was received, or 0 (RFC 9000 appendix A.3).
//! -- `seen` says which of the numbers below it were received, with 64 numbers in each word.
//! pub record Space : Type 0 where
//!   pub next : ℕ
//!   pub seen : List ℕ
//! ```
//!
//! <div id="bit_of"></div>
//!
//! ```text
//! -- The bit of a number. Each 64 consecutive numbers share one word, and the words are used in turn.
//! abbrev pub bit_of : List ℕ → ℕ → ℕ
//! bit_of seen number = bit_at (slice_index seen (number / 64 % length seen)) (number % 64)
//! ```
//!
//! <div id="ShareBit"></div>
//!
//! ```text
//! -- Two numbers share one bit.
//! pub record ShareBit (words m n : ℕ) : Type 0 where
//!   pub word : m / 64 % words ≡ n / 64 % words
//!   pub bit : m % 64 ≡ n % 64
//! ```
//!
//! <div id="new_space"></div>
//!
//! ```text
//! -- no number was received
//! abbrev pub new_space : ℕ → Space
//! new_space words = record { next = 0; seen = replicate words 0 }
//! ```
//!
//! Definitions: [`Space`](crate::specs::space#Space).
//!
//! <div id="IsNew"></div>
//!
//! ```text
//! -- the number was not received: it is not below the window, and its bit is not set
//! pub record IsNew (space : Space) (number : ℕ) : Type 0 where
//!   pub in_window : space.next ≤ number + 64 * length space.seen
//!   pub unseen : number < space.next → bit_of space.seen number ≡ 0
//! ```
//!
//! Definitions: [`Space`](crate::specs::space#Space), [`bit_of`](crate::specs::space#bit_of).
//!
//! <div id="Marks"></div>
//!
//! ```text
//! -- The space after this number was received. A number is new afterwards if it was new before, is another number, and is not
//! -- below the window, which ends with the largest number.
//! pub record Marks (old : Space) (number : ℕ) (new : Space) : Type 0 where
//!   pub next : new.next ≡ max old.next (number + 1)
//!   pub words : length new.seen ≡ length old.seen
//!   pub left : (n : ℕ) → IsNew new n ↔ (IsNew old n × (n ≢ number) × (new.next ≤ n + 64 * length old.seen))
//! ```
//!
//! Definitions: [`Space`](crate::specs::space#Space), [`IsNew`](crate::specs::space#IsNew).
//!
//! <div id="IsReceived"></div>
//!
//! ```text
//! -- the number was received, and the window reaches it
//! pub record IsReceived (space : Space) (number : ℕ) : Type 0 where
//!   pub below : number < space.next
//!   pub in_window : space.next ≤ number + 64 * length space.seen
//!   pub not_new : ¬ IsNew space number
//! ```
//!
//! Definitions: [`Space`](crate::specs::space#Space), [`IsNew`](crate::specs::space#IsNew).
//!
//! <div id="RangesBelow"></div>
//!
//! ```text
//! -- The ranges of received numbers that are still to be returned: those below a number.
//! pub record RangesBelow : Type 0 where
//!   pub space : Space
//!   pub below : ℕ
//! ```
//!
//! Definitions: [`Space`](crate::specs::space#Space).
//!
//! <div id="IsHighestRange"></div>
//!
//! ```text
//! -- The highest range of received numbers below `below`. It has at least one number. Each of its numbers was received, and
//! -- neither the number before it nor any from its end up to `below` was.
//! pub record IsHighestRange (space : Space) (below : ℕ) (range : Range ℕ) : Type 0 where
//!   pub some : range.start < range.end
//!   pub under : range.end ≤ below
//!   pub received : (n : ℕ) → range.start ≤ n → n < range.end → IsReceived space n
//!   pub before : (n : ℕ) → n + 1 ≡ range.start → ¬ IsReceived space n
//!   pub after : (n : ℕ) → range.end ≤ n → n < below → ¬ IsReceived space n
//! ```
//!
//! Definitions: [`Space`](crate::specs::space#Space), [`IsReceived`](crate::specs::space#IsReceived).
//!
//! <div id="GivesRange"></div>
//!
//! ```text
//! -- One step over the ranges returns the highest of those that remain, or nothing if no number remains.
//! abbrev pub GivesRange : RangesBelow → Option (Range ℕ) → RangesBelow → Type 0
//! GivesRange was None now = (now ≡ was) × ((n : ℕ) → n < was.below → ¬ IsReceived was.space n)
//! GivesRange was (Some range) now = (now ≡ record was { below = range.start }) × IsHighestRange was.space was.below range
//! ```
//!
//! Definitions: [`RangesBelow`](crate::specs::space#RangesBelow), [`IsReceived`](crate::specs::space#IsReceived),
//! [`IsHighestRange`](crate::specs::space#IsHighestRange).
