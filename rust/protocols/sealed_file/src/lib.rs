// Written by tools/rust from crates/sealed_file/src/lib.rt. Don't edit.
//! Sealed files: a header and the file in chunks of 64 KiB, each sealed by AES-256-GCM under a key derived for the file. The
//! nonce is the file's prefix, the chunk's number and whether it is the last (STREAM). `SEALED_FILE.md`, beside the README, has
//! the format.
//!
//! # Contracts
//!
//! A tool wrote this package from sources in Rattle, which is Rust with contracts. It moved the contracts into the
//! documentation, and changed what `rust/README.md` of the repository lists. In Rattle, each function is proved to meet its
//! contract, and to return if its `requires` hold: no index is out of range, no sum overflows, and nothing panics. A generic
//! function returns if the functions of its type parameters do. The Rust is tested, and not proved.
//!
//! The documentation of a function has the contract under *Contract*:
//!
//! - `requires` is what the caller must ensure. Rattle's checker verifies it at each call, and Rust doesn't: a call that breaks
//!   it may panic or return a wrong result. It isn't undefined behavior, since all packages but `simd` forbid `unsafe` code.
//! - `ensures` is what holds when the call returns. `result` is what it returned. `ensures tag { .. }` is the clause named
//!   `tag`.
//! - `x.old` and `x.new` are what a `&mut` argument points to before and after the call. `x.now` is what a `&` points to, and
//!   what a returned `&mut` points to when the call returns.
//! - `x` is the argument x as it was passed. If it is a reference or contains one, as an `Aad` does, an `ensures` writes
//!   `x.entry` for it. `x.exit.0` is what the first field of such an argument is when the call returns.
//! - `ensures*` says what a buffer s holds when a loan of a part of it ends. The result r is or contains the `&mut` to the
//!   part. By `sem 𝓛 (LendsFront s r n)`, s holds what the part holds then, followed by the bytes that s had from n on, and if
//!   r is an `Err`, s is unchanged. By `sem 𝓛 (Lends A B s r f)`, s is f of what the part holds then. A and B are the types of
//!   s and of the part. `Array u8 0` or `Array byte 0` is the type `[u8]`, and the 0 means nothing.
//!
//! The clauses are written in these words:
//!
//! - `f x y` is f of x and y, and `λ x. e` is the closure `|x| e`. `record { f = e }` is the struct whose field f is e, and
//!   `record s { f = e }` is s with e as its field f. `let x = e in y` is y with e for x.
//! - `a ≡ b`: a equals b. `a ≢ b`: it doesn't. `¬ P`: not P. `P × Q`: P and Q. `P ⊎ Q`: P or Q. `P → Q`: if P, then Q. `P ↔ Q`:
//!   P if and only if Q. `⊤` is true, and `⊥` is false. `(x : A) → P`: P for each x of the type A. `(x : A) × P`: P for some x.
//! - `IsOk r`: r is `Ok`. `OnOk r P`: if r is `Ok`, then P. `IfOk r (λ v. P)`: if r is `Ok` of v, then P. `OnErr` and `IfErr`
//!   are the same for `Err`. `is_ok r` is `IsOk r` as a `Bool`, and `IsTrue b`: the `Bool` b is `true`.
//! - A number, whose type is `ℕ`, has no upper bound. `a - b` is 0 if b is greater than a, `a / b` is rounded down, `a % b` is
//!   the remainder, and `a ^ b` is the power. `+`, `*`, `<` and `≤` are as usual.
//! - A slice or an array is a list: `[]`, or `first ∷ rest`. `xs ++ ys` is xs followed by ys. `length xs` is the number of its
//!   items. `take n xs` are the first n, and `drop n xs` the others. `replicate n x` is n times x.
//! - A contract sees the values of some types as their *model*: a nonce as its bytes, a key of AES-GCM as its algorithm and its
//!   bytes. The section *Model* of such a type shows the type of the model (`Value`), how the model is computed from the fields
//!   (`view`), and what holds of the fields of each value (`invariant`). `a ≡ b` compares the models, and a and b may be of two
//!   types. Of other types, a contract sees the fields. Their section *Invariant*, if they have one, shows what holds of these.
//! - `N.spent` is a *ghost item* of the trait that the type parameter `N` implements, and exists for contracts alone. The
//!   section *Ghost items* of the trait has its type and says what it means, and that of an `impl` has its definition for one
//!   type. A ghost item whose type begins with `(x : A) →` is a fact, of which each `impl` has a proof.
//!
//! The links under *Definitions* lead to the definitions that a contract cites. They are in [`specs`], or in the module of this
//! name of a package below this one. [`specs`](specs#words) explains the words that are left. `docs/BELIEVE.md` of the
//! repository says what has to be trusted.

#![forbid(unsafe_code)]

#[cfg(not(target_pointer_width = "64"))]
compile_error!("the proofs of Deerlapse are of 64 bits in a usize");

pub mod specs;

mod aad;
mod chunk;
mod derivation;
mod error;
mod header;
mod in_memory;
mod key;
mod opening;
mod passphrase;
mod random;
mod random_access;
mod read_at;
mod reader;
mod sealing;
mod stream;

pub use self::aad::MAX_AAD_LEN;
pub use self::chunk::{CHUNK_LEN, MAX_CHUNKS, SEALED_CHUNK_LEN};
pub use self::error::FileError;
pub use self::header::{
    CONTEXT_LEN, Context, HEADER_LEN, MAGIC, PREFIX_LEN, RANDOM_LEN, VERSION, check_header,
};
pub use self::in_memory::{open_bytes, seal_bytes};
pub use self::key::FileKey;
pub use self::opening::{open, open_with_aad};
pub use self::passphrase::{
    ITERATIONS, MAX_ITERATIONS, PASSPHRASE_HEADER_LEN, PASSPHRASE_VERSION, iterations_in,
    open_with_passphrase, seal_with_passphrase,
};
pub use self::random::FileRandom;
pub use self::random_access::{open_chunk_at, plaintext_len};
pub use self::read_at::ReadAt;
pub use self::reader::SealedReader;
pub use self::sealing::{seal, seal_with_aad};
