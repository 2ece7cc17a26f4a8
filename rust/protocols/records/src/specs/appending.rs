// Written by tools/rust from crates/records/specs/Appending.antt. Don't edit.
//! What a call that appends records to a `Vec` leaves.
//!
//! The definitions of `crates/records/specs/Appending.antt` of the repository.
//!
//! <div id="AppendOutcome"></div>
//!
//! ```text
//! -- The outcome of a call that appends these bytes to a `Vec`. Either they are appended, and the caller's state becomes `after`. Or
//! -- the call is refused for a reason, which may depend on how many bytes more the `Vec` has room for, and neither the bytes of the
//! -- `Vec` nor the state change. The capacity of the `Vec` never falls.
//! pub record AppendOutcome {T State Z : Type 0} (Accepts : Type 0) (Refuses : (spare : ℕ) → RecordError → Type 0) (bytes : List ℕ)
//!     (old new : Vec ℕ Z) (result : Result T RecordError) (before now after : State) : Type 0 where
//!   pub accepted : OnOk result Accepts
//!   pub refused : IfErr result (Refuses (vec_capacity old - vec_len old))
//!   pub appended : OnOk result (new.items ≡ old.items ++ bytes)
//!   pub counted : OnOk result (now ≡ after)
//!   pub kept : OnErr result ((new.items ≡ old.items) × (now ≡ before))
//!   pub capacity : vec_capacity old ≤ vec_capacity new
//! ```
//!
//! <div id="Appended"></div>
//!
//! ```text
//! -- these bytes, of which there are n, were appended to a `Vec` that had room for them
//! pub record Appended {Z : Type 0} (n : ℕ) (bytes : List ℕ) (old new : Vec ℕ Z) : Type 0 where
//!   pub items : new.items ≡ old.items ++ bytes
//!   pub len : vec_len new ≡ vec_len old + n
//!   pub capacity : vec_capacity old ≤ vec_capacity new
//! ```
