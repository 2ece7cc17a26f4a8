// Written by tools/rust from crates/aead_ciphers_wide/specs. Don't edit.
//! The definitions that contracts of this crate cite, from the files of `crates/aead_ciphers_wide/specs` of the repository.
//!
//! A definition is its type and then its equations, of which the first that fits the arguments counts. `A → B` is the type of
//! the functions from A to B. A struct or an enum is that of the same name in the crate.
//!
//! - A fact has the type `Type 0`. A `record` of facts holds if each of its fields does, and a `data` if one of its cases does.
//!   A case is a line `name : P → Q → D ..`, and holds if P and Q do. If it begins with `(x : A) →`, it holds if they do for
//!   some x.
//! - Each definition below the line `module _ (x : A) where` takes x as its first argument. Inside the module, this argument
//!   isn't written. A contract writes it first: `Opened (aes key) nonce aad` begins with the arguments of the module.
//! - An argument in braces, such as `{E : Type 0}`, isn't written where the definition is used.
//! - `(a, b)` is a pair, and `p.0` and `p.1` are its parts. Where A and B aren't facts, `A × B` is the type of such pairs.
//! - `◌` is the place of an operator's argument, and `infixl 40` says how tightly the operator binds. `abbrev` and `unfoldable`
//!   matter to proofs alone, and so does what comes after `=` if the type of the definition is a fact.
//!
//! # Words
//!
//! The [first page](crate#contracts) explains the words that are in most contracts. These are the others of Rattle's standard
//! library that the pages of this crate use:
//!
//! - `List A`: the type of the lists of values of the type A.
//! - `slice_index xs i`: item i of a list of numbers, or 0 if there is none. The first item is item 0.
//!   `slice_index_or xs i d`: item i of any list, or d if there is none.
//! - `map f xs`: f of each item. `reverse xs`: the items in reverse order.
//! - `concat xss`: the lists of a list, joined. `flat_map f xs`: the lists f of each item, joined.
//! - `All P xs` and `Each1 P xs`: P of each item.
//! - `zero`: 0. `suc n`: n + 1.
//! - `bit_at n i`: bit i of n, of which the lowest is bit 0. `bit_and a b`, `bit_or a b` and `bit_xor a b`:
//!   Rust's `a & b`, `a | b` and `a ^ b`.
//! - `to_be_bytes w n`, `to_le_bytes w n`, `from_be_bytes w xs`, `from_le_bytes w xs` and `rotate_left w n k`:
//!   what Rust's methods of these names return for an unsigned integer of the width w, which is `w16`, `w32`,
//!   `w64` or `w128`. Of a number that is too large, the first two have the lowest bytes.
//! - `number_l p xs`: the number that has the digits xs to the base p, the lowest first. `digits_l p n x`: the n
//!   lowest digits of x.
//! - `nat_eq a b` and `a == b`, `nat_lt a b`, `nat_le a b` and `leb a b`: whether a is b, is less than b, is at
//!   most b, as a `Bool`.
//! - `if b then x else y` and `cond b x y`: x if b is `true`, and y if it is `false`.
//! - `Bor A` and `MutBor A`: the types of a `&` and of a `&mut` to an A. `r.ghost_name`: which loan the `&mut` r
//!   belongs to, a value of the type `GName`.
//! - `refl`, `ap`, `ap₂`, `sym`, `∙`, `omega`, `arith` and `length_refill`: words of proofs.

pub mod expanded_key;
pub mod header_key;
pub mod pieces;
pub mod products;
pub mod wide_planes;
pub mod wide_schedule;
pub mod width;
pub mod word;
