// Written by tools/rust from crates/tls_messages/specs. Don't edit.
//! The definitions that contracts of this crate cite, from the files of `crates/tls_messages/specs` of the repository.
//!
//! A definition is its type and then its equations, of which the first that fits the arguments counts. `A → B` is the type of
//! the functions from A to B. A struct or an enum is that of the same name in the crate.
//!
//! - A fact has the type `Type 0`. A `record` of facts holds if each of its fields does, and a `data` if one of its cases does.
//!   A case is a line `name : P → Q → D ..`, and holds if P and Q do. If it begins with `(x : A) →`, it holds if they do for
//!   some x.
//! - Each definition below the line `module _ (x : A) where` takes x as its first argument. Inside the module, this argument
//!   isn't written. A contract writes it first: `Opened (aes key) nonce aad` begins with the arguments of the module.
//! - An argument in braces, such as `{E : Type 0}`, isn't written where the definition is used.
//! - `(a, b)` is a pair, and `p.0` and `p.1` are its parts. Where A and B aren't facts, `A × B` is the type of such pairs.
//! - `◌` is the place of an operator's argument, and `infixl 40` says how tightly the operator binds. `abbrev` and `unfoldable`
//!   matter to proofs alone, and so does what comes after `=` if the type of the definition is a fact.
//!
//! # Words
//!
//! The [first page](crate#contracts) explains the words that are in most contracts. These are the others of Rattle's standard
//! library that the pages of this crate use:
//!
//! - `List A`: the type of the lists of values of the type A.
//! - `slice_index xs i`: item i of a list of numbers, or 0 if there is none. The first item is item 0.
//!   `slice_index_or xs i d`: item i of any list, or d if there is none.
//! - `concat xss`: the lists of a list, joined. `flat_map f xs`: the lists f of each item, joined.
//! - `All P xs` and `Each1 P xs`: P of each item.
//! - `zero`: 0. `suc n`: n + 1.
//! - `min a b` and `max a b`: the lesser and the greater number. `div_ceil a b`: a / b, rounded up.
//! - `Bool`: the type of `true` and `false`. `IsFalse b`: b is `false`. `not b`, `a && b` and `a || b`: Rust's
//!   `!b`, `a && b` and `a || b`.
//! - `nat_eq a b` and `a == b`, `nat_lt a b`, `nat_le a b` and `leb a b`: whether a is b, is less than b, is at
//!   most b, as a `Bool`.
//! - `if b then x else y` and `cond b x y`: x if b is `true`, and y if it is `false`.
//! - `Option`, `Result` and their variants: those of Rust.
//! - `IsSome o`: o is `Some`. `IfSome o (λ v. P)`: if o is `Some` of v, then P. `MatchOption o P (λ v. Q)`: P if
//!   o is `None`, and Q if it is `Some` of v. `unwrap_or o d`: Rust's `o.unwrap_or(d)`.
//! - `IsErrOf r e`: r is `Err` of e. `IsOkUnless r e`: r is `Ok`, or `Err` of e.
//! - `Bor A` and `MutBor A`: the types of a `&` and of a `&mut` to an A. `r.ghost_name`: which loan the `&mut` r
//!   belongs to, a value of the type `GName`.
//! - `RattleType`: the type of the names that assertions have for types. `Array u8 0` is the name of `[u8]`, in
//!   which the 0 means nothing. `T.row` is that of a type parameter, and `the_row` that of a struct, with
//!   `record { mir = named n; lft = [] }` for a lifetime. `T.Denot`: the type with the name T. `value_of N`: the
//!   value of a const parameter.
//! - `follows A B s r f`: `Lends A B s r f`, where s and r are names of loans. `follows_so A B s r R P`: if r is
//!   the name of a loan, then `R x y` holds, where that ends as x and s as y, and if r is `none`, then P holds of
//!   what s ends as.

pub mod messages;
pub mod steps;
