// Written by tools/rust from crates/sealed_file/specs. Don't edit.
//! The definitions that contracts of this crate cite, from the files of `crates/sealed_file/specs` of the repository.
//!
//! A definition is its type and then its equations, of which the first that fits the arguments counts. `A → B` is the type of
//! the functions from A to B. A struct or an enum is that of the same name in the crate.
//!
//! - A fact has the type `Type 0`. A `record` of facts holds if each of its fields does, and a `data` if one of its cases does.
//!   A case is a line `name : P → Q → D ..`, and holds if P and Q do. If it begins with `(x : A) →`, it holds if they do for
//!   some x.
//! - Each definition below the line `module _ (x : A) where` takes x as its first argument. Inside the module, this argument
//!   isn't written. A contract writes it first: `Opened (aes key) nonce aad` begins with the arguments of the module.
//! - An argument in braces, such as `{E : Type 0}`, isn't written where the definition is used.
//! - `(a, b)` is a pair, and `p.0` and `p.1` are its parts. Where A and B aren't facts, `A × B` is the type of such pairs.
//! - `◌` is the place of an operator's argument, and `infixl 40` says how tightly the operator binds. `abbrev` and `unfoldable`
//!   matter to proofs alone, and so does what comes after `=` if the type of the definition is a fact.
//!
//! # Words
//!
//! The [first page](crate#contracts) explains the words that are in most contracts. These are the others of Rattle's standard
//! library that the pages of this crate use:
//!
//! - `List A`: the type of the lists of values of the type A.
//! - `slice_index xs i`: item i of a list of numbers, or 0 if there is none. The first item is item 0.
//!   `slice_index_or xs i d`: item i of any list, or d if there is none.
//! - `concat xss`: the lists of a list, joined. `flat_map f xs`: the lists f of each item, joined.
//! - `Any P xs`: P of some item.
//! - `min a b` and `max a b`: the lesser and the greater number. `div_ceil a b`: a / b, rounded up.
//! - `to_be_bytes w n`, `to_le_bytes w n`, `from_be_bytes w xs`, `from_le_bytes w xs` and `rotate_left w n k`:
//!   what Rust's methods of these names return for an unsigned integer of the width w, which is `w16`, `w32`,
//!   `w64` or `w128`. Of a number that is too large, the first two have the lowest bytes.
//! - `Bool`: the type of `true` and `false`. `IsFalse b`: b is `false`. `not b`, `a && b` and `a || b`: Rust's
//!   `!b`, `a && b` and `a || b`.
//! - `nat_eq a b` and `a == b`, `nat_lt a b`, `nat_le a b` and `leb a b`: whether a is b, is less than b, is at
//!   most b, as a `Bool`.
//! - `if b then x else y` and `cond b x y`: x if b is `true`, and y if it is `false`.
//! - `Option`, `Result` and their variants: those of Rust.
//! - `IsSome o`: o is `Some`. `IfSome o (λ v. P)`: if o is `Some` of v, then P. `MatchOption o P (λ v. Q)`: P if
//!   o is `None`, and Q if it is `Some` of v. `unwrap_or o d`: Rust's `o.unwrap_or(d)`.
//! - `is_some o`, `option_map f o` and `option_copied o`: what Rust's `o.is_some()`, `o.map(f)` and `o.copied()`
//!   return.
//! - Of a stream, a contract speaks of `R.remaining`, the bytes that are still to be read, or `W.contents`, those
//!   that were written, each an `Option`, which is `None` where nothing is known of the stream. `Appends a b xs`:
//!   b is a followed by xs. `Keeps a b`: b is a. `ReadConsumes a b r buf`: if the result r of a read is `Ok` of
//!   n, then a is the first n bytes of buf followed by b, and else b is a. `ReadsAtMost r buf`: r is an `Err`, or
//!   `Ok` of at most the length of buf.
//! - `cursor_inner c`: what the `Cursor` c reads, as `c.get_ref()` returns it.
//! - `vec_len v` and `vec_capacity v`: the length and the capacity of a `Vec`. `v.items`: its items.
//!   `with_items v xs`: v with the items xs in place of its own, from the first on. The length stays.
//! - `codes ".."`: the bytes of an ASCII text.

pub mod derivation;
pub mod format;
pub mod opening;
pub mod passphrase;
pub mod reader;
pub mod refusals;
pub mod streams;
