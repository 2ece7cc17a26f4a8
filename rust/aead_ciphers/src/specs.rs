// Written by tools/rust from crates/aead_ciphers/specs. Don't edit.
//! The definitions that contracts of this crate cite, from the files of `crates/aead_ciphers/specs` of the repository.
//!
//! A definition is its type and then its equations, of which the first that fits the arguments counts. `A → B` is the type of
//! the functions from A to B. A struct or an enum is that of the same name in the crate.
//!
//! - A fact has the type `Type 0`. A `record` of facts holds if each of its fields does, and a `data` if one of its cases does.
//!   A case is a line `name : P → Q → D ..`, and holds if P and Q do. If it begins with `(x : A) →`, it holds if they do for
//!   some x.
//! - Each definition below the line `module _ (x : A) where` takes x as its first argument. Inside the module, this argument
//!   isn't written. A contract writes it first: `Opened (aes key) nonce aad` begins with the arguments of the module.
//! - An argument in braces, such as `{E : Type 0}`, isn't written where the definition is used.
//! - `(a, b)` is a pair, and `p.0` and `p.1` are its parts. Where A and B aren't facts, `A × B` is the type of such pairs.
//! - `◌` is the place of an operator's argument, and `infixl 40` says how tightly the operator binds. `abbrev` and `unfoldable`
//!   matter to proofs alone, and so does what comes after `=` if the type of the definition is a fact.
//!
//! # Words
//!
//! The [first page](crate#contracts) explains the words that are in most contracts. These are the others of Rattle's standard
//! library that the pages of this crate use:
//!
//! - `List A`: the type of the lists of values of the type A.
//! - `slice_index xs i`: item i of a list of numbers, or 0 if there is none. The first item is item 0.
//!   `slice_index_or xs i d`: item i of any list, or d if there is none.
//! - `slice_get xs i`: `Some` of item i, or `None`.
//! - `map f xs`: f of each item. `reverse xs`: the items in reverse order.
//! - `concat xss`: the lists of a list, joined. `flat_map f xs`: the lists f of each item, joined.
//! - `zip2 f xs ys`: f of each two items at the same place, as long as both lists have one.
//! - `fold f a xs`: a if xs is empty, and else `fold f (f a x) rest`, where x is the first item. `iterate f n x`:
//!   f, applied n times to x.
//! - `All P xs` and `Each1 P xs`: P of each item.
//! - `AllZip R xs ys`: the lists are equally long, and R holds of each two items at the same place.
//! - `Contains xs x`: x is an item of xs.
//! - `to_be_bytes w n`, `to_le_bytes w n`, `from_be_bytes w xs`, `from_le_bytes w xs` and `rotate_left w n k`:
//!   what Rust's methods of these names return for an unsigned integer of the width w, which is `w16`, `w32`,
//!   `w64` or `w128`. Of a number that is too large, the first two have the lowest bytes.
//! - `Bool`: the type of `true` and `false`. `IsFalse b`: b is `false`. `not b`, `a && b` and `a || b`: Rust's
//!   `!b`, `a && b` and `a || b`.
//! - `nat_eq a b` and `a == b`, `nat_lt a b`, `nat_le a b` and `leb a b`: whether a is b, is less than b, is at
//!   most b, as a `Bool`.
//! - `if b then x else y` and `cond b x y`: x if b is `true`, and y if it is `false`.
//! - `Option`, `Result` and their variants: those of Rust.
//! - `IsSome o`: o is `Some`. `IfSome o (λ v. P)`: if o is `Some` of v, then P. `MatchOption o P (λ v. Q)`: P if
//!   o is `None`, and Q if it is `Some` of v. `unwrap_or o d`: Rust's `o.unwrap_or(d)`.
//! - `vec_len v` and `vec_capacity v`: the length and the capacity of a `Vec`. `v.items`: its items.
//!   `with_items v xs`: v with the items xs in place of its own, from the first on. The length stays.
//! - `codes ".."`: the bytes of an ASCII text.
//! - `Bor A` and `MutBor A`: the types of a `&` and of a `&mut` to an A. `r.ghost_name`: which loan the `&mut` r
//!   belongs to, a value of the type `GName`.
//! - `RattleType`: the type of the names that assertions have for types. `Array u8 0` is the name of `[u8]`, in
//!   which the 0 means nothing. `T.row` is that of a type parameter, and `the_row` that of a struct, with
//!   `record { mir = named n; lft = [] }` for a lifetime. `T.Denot`: the type with the name T. `value_of N`: the
//!   value of a const parameter.
//! - `Fml`: the type of the assertions about loans. `fres name (T.coded.code v)`: the loan ends with the value v
//!   of the type with the name T. `fex A (λ a. F)`: F for some a of the type A.
//! - `LendsIfOk A B s r f v`: if r is `Ok` of q, then `Lends A B s q f`, and if it is an `Err`, then s ends as v.
//!   `LendsBoth A B C s (q, r) f`: s ends as f x y, where q ends as x and r as y. `LendsBothIf`: the same for an
//!   `Option` of the pair. `RestsIfErr A s name r P`: if r is an `Err`, then P holds of what s ends as, and if it
//!   is `Ok`, then r contains s itself.
//! - `refl`, `ap`, `ap₂`, `sym`, `∙`, `omega`, `arith` and `length_refill`: words of proofs.

pub mod aead_key;
pub mod algorithm;
pub mod bound_calls;
pub mod bound_state;
pub mod counting;
pub mod expanded_key;
pub mod fresh_nonces;
pub mod gcm;
pub mod ghash;
pub mod hash_of;
pub mod header_protection;
pub mod lending;
pub mod multiples;
pub mod nonce_sequence;
pub mod packet;
pub mod runs;
pub mod steps;
pub mod unbound_bytes;
