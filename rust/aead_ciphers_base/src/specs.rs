// Written by tools/rust from crates/aead_ciphers_base/specs. Don't edit.
//! The definitions that contracts of this crate cite, from the files of `crates/aead_ciphers_base/specs` of the repository.
//!
//! A definition is its type and then its equations, of which the first that fits the arguments counts. `A → B` is the type of
//! the functions from A to B. A struct or an enum is that of the same name in the crate.
//!
//! - A fact has the type `Type 0`. A `record` of facts holds if each of its fields does, and a `data` if one of its cases does.
//!   A case is a line `name : P → Q → D ..`, and holds if P and Q do. If it begins with `(x : A) →`, it holds if they do for
//!   some x.
//! - Each definition below the line `module _ (x : A) where` takes x as its first argument. Inside the module, this argument
//!   isn't written. A contract writes it first: `Opened (aes key) nonce aad` begins with the arguments of the module.
//! - An argument in braces, such as `{E : Type 0}`, isn't written where the definition is used.
//! - `(a, b)` is a pair, and `p.0` and `p.1` are its parts. Where A and B aren't facts, `A × B` is the type of such pairs.
//! - `◌` is the place of an operator's argument, and `infixl 40` says how tightly the operator binds. `abbrev` and `unfoldable`
//!   matter to proofs alone, and so does what comes after `=` if the type of the definition is a fact.
//!
//! # Words
//!
//! The [first page](crate#contracts) explains the words that are in most contracts. These are the others of Rattle's standard
//! library that the pages of this crate use:
//!
//! - `List A`: the type of the lists of values of the type A.
//! - `slice_index xs i`: item i of a list of numbers, or 0 if there is none. The first item is item 0.
//!   `slice_index_or xs i d`: item i of any list, or d if there is none.
//! - `slice_set xs i x`: xs with x in place of item i.
//! - `map f xs`: f of each item. `reverse xs`: the items in reverse order.
//! - `concat xss`: the lists of a list, joined. `flat_map f xs`: the lists f of each item, joined.
//! - `zip2 f xs ys`: f of each two items at the same place, as long as both lists have one.
//! - `fold f a xs`: a if xs is empty, and else `fold f (f a x) rest`, where x is the first item. `iterate f n x`:
//!   f, applied n times to x.
//! - `range_with_len a n`: the n numbers from a on.
//! - `find p xs`: `Some` of the first item of which p is `true`, or `None`. `list_any p xs`: whether there is
//!   one.
//! - `first_chunks n k xs`: the first k parts of n items each. `chunk_count n k`: how many parts of k items n
//!   items make. The last part may be shorter.
//! - `FoldsTo R p xs q`: if xs is empty, then p is q. Else `R p x j` and `FoldsTo R j rest q` for some j, where x
//!   is the first item.
//! - `zero`: 0. `suc n`: n + 1.
//! - `min a b` and `max a b`: the lesser and the greater number. `div_ceil a b`: a / b, rounded up.
//! - `bit_at n i`: bit i of n, of which the lowest is bit 0. `bit_and a b`, `bit_or a b` and `bit_xor a b`:
//!   Rust's `a & b`, `a | b` and `a ^ b`.
//! - `to_be_bytes w n`, `to_le_bytes w n`, `from_be_bytes w xs`, `from_le_bytes w xs` and `rotate_left w n k`:
//!   what Rust's methods of these names return for an unsigned integer of the width w, which is `w16`, `w32`,
//!   `w64` or `w128`. Of a number that is too large, the first two have the lowest bytes.
//! - `Bool`: the type of `true` and `false`. `IsFalse b`: b is `false`. `not b`, `a && b` and `a || b`: Rust's
//!   `!b`, `a && b` and `a || b`.
//! - `nat_eq a b` and `a == b`, `nat_lt a b`, `nat_le a b` and `leb a b`: whether a is b, is less than b, is at
//!   most b, as a `Bool`.
//! - `if b then x else y` and `cond b x y`: x if b is `true`, and y if it is `false`.
//! - `Option`, `Result` and their variants: those of Rust.
//! - `IsSome o`: o is `Some`. `IfSome o (λ v. P)`: if o is `Some` of v, then P. `MatchOption o P (λ v. Q)`: P if
//!   o is `None`, and Q if it is `Some` of v. `unwrap_or o d`: Rust's `o.unwrap_or(d)`.
//! - `codes ".."`: the bytes of an ASCII text.
//! - `decimal n`: what `{}` prints of a number. `debug_variant name text`: the name and, in parentheses, the
//!   text. `debug_list f xs`: f of each item, in brackets and with commas.
//! - `at_most n`: a bound of n for a count. `item_count f s`: the bound for which n is the length of the list f
//!   s. `UpTo c n`: the bound c is no more than n. `IsWithinCount n c`: n is no more than the bound c.
//! - `YieldsFirstRef f s r t`: a call of `next` returned r, and s and t are the iterator before and after it. If
//!   r is `Some`, it points to the first item of the list f s, and f t has the others. Else both lists are empty.
//! - `chunks_mut_rest it`: the items that the `ChunksMut` has still to return. `chunks_mut_size it`: the length
//!   of its parts.
//! - `FnOnceTakesAt g f x`: the closure f may be called with a `&` to x. `FnOnceReturnsAt g f x r`: such a call
//!   may return r. `TakesAt g f x` and `CalledAt g f x r h`: the same for a closure that may be called again, and
//!   that is h after the call. g is what a call of a closure of the type F requires and ensures. Its type is
//!   `Once F A R` or `Mut F A R`, where A is the type of the arguments, as in `C × Unit {0}`, and R is that of
//!   the result.
//! - `Bor A` and `MutBor A`: the types of a `&` and of a `&mut` to an A. `r.ghost_name`: which loan the `&mut` r
//!   belongs to, a value of the type `GName`.
//! - `RattleType`: the type of the names that assertions have for types. `Array u8 0` is the name of `[u8]`, in
//!   which the 0 means nothing. `T.row` is that of a type parameter, and `the_row` that of a struct, with
//!   `record { mir = named n; lft = [] }` for a lifetime. `T.Denot`: the type with the name T. `value_of N`: the
//!   value of a const parameter.
//! - `Fml`: the type of the assertions about loans. `fres name (T.coded.code v)`: the loan ends with the value v
//!   of the type with the name T. `fex A (λ a. F)`: F for some a of the type A.
//! - `LendsIfOk A B s r f v`: if r is `Ok` of q, then `Lends A B s q f`, and if it is an `Err`, then s ends as v.
//!   `LendsBoth A B C s (q, r) f`: s ends as f x y, where q ends as x and r as y. `LendsBothIf`: the same for an
//!   `Option` of the pair. `RestsIfErr A s name r P`: if r is an `Err`, then P holds of what s ends as, and if it
//!   is `Ok`, then r contains s itself.
//! - `follows A B s r f`: `Lends A B s r f`, where s and r are names of loans. `follows_so A B s r R P`: if r is
//!   the name of a loan, then `R x y` holds, where that ends as x and s as y, and if r is `none`, then P holds of
//!   what s ends as.
//! - `refl`, `ap`, `ap₂`, `sym`, `∙`, `omega`, `arith` and `length_refill`: words of proofs.

pub mod aes;
pub mod as_chunks_mut;
pub mod blocks;
pub mod byte_field;
pub mod bytes;
pub mod cha_cha20;
pub mod chunks_mut;
pub mod counter_mode;
pub mod key_bytes;
pub mod key_schedule;
pub mod mask;
pub mod overlapping;
pub mod planes;
pub mod polynomial;
pub mod shift;
pub mod values;
pub mod work;
