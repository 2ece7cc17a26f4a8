// Written by tools/rust from crates/records/src/lib.rt. Don't edit.
//! The record layer of TLS 1.3 (RFC 8446 section 5), with AES-GCM, under a key and an IV or under the traffic secret from
//! which both are derived.
//!
//! A protected record is a header of 5 bytes and the encrypted record: the content, its type and zeros as padding, sealed under
//! the number of the record with the header as AAD. `Writer` and `Reader` are the two ends of one direction. A
//! `connection::Connection` is one end of a connection after the handshake, and has a `Reader` and a `Writer`. `RECORDS.md`,
//! beside the README, has the format byte by byte.
//!
//! # Contracts
//!
//! A tool wrote this package from sources in Rattle, which is Rust with contracts. It moved the contracts into the
//! documentation, and changed what `rust/README.md` of the repository lists. In Rattle, each function is proved to meet its
//! contract, and to return if its `requires` hold: no index is out of range, no sum overflows, and nothing panics. A generic
//! function returns if the functions of its type parameters do. The Rust is tested, and not proved.
//!
//! The documentation of a function has the contract under *Contract*:
//!
//! - `requires` is what the caller must ensure. Rattle's checker verifies it at each call, and Rust doesn't: a call that breaks
//!   it may panic or return a wrong result. It isn't undefined behavior, since all packages but `simd` forbid `unsafe` code.
//! - `ensures` is what holds when the call returns. `result` is what it returned. `ensures tag { .. }` is the clause named
//!   `tag`.
//! - `x.old` and `x.new` are what a `&mut` argument points to before and after the call. `x.now` is what a `&` points to, and
//!   what a returned `&mut` points to when the call returns.
//! - `x` is the argument x as it was passed. If it is a reference or contains one, as an `Aad` does, an `ensures` writes
//!   `x.entry` for it. `x.exit.0` is what the first field of such an argument is when the call returns.
//! - `ensures*` says what a buffer s holds when a loan of a part of it ends. The result r is or contains the `&mut` to the
//!   part. By `sem 𝓛 (LendsFront s r n)`, s holds what the part holds then, followed by the bytes that s had from n on, and if
//!   r is an `Err`, s is unchanged. By `sem 𝓛 (Lends A B s r f)`, s is f of what the part holds then. A and B are the types of
//!   s and of the part. `Array u8 0` or `Array byte 0` is the type `[u8]`, and the 0 means nothing.
//!
//! The clauses are written in these words:
//!
//! - `f x y` is f of x and y, and `λ x. e` is the closure `|x| e`. `record { f = e }` is the struct whose field f is e, and
//!   `record s { f = e }` is s with e as its field f. `let x = e in y` is y with e for x.
//! - `a ≡ b`: a equals b. `a ≢ b`: it doesn't. `¬ P`: not P. `P × Q`: P and Q. `P ⊎ Q`: P or Q. `P → Q`: if P, then Q. `P ↔ Q`:
//!   P if and only if Q. `⊤` is true, and `⊥` is false. `(x : A) → P`: P for each x of the type A. `(x : A) × P`: P for some x.
//! - `IsOk r`: r is `Ok`. `OnOk r P`: if r is `Ok`, then P. `IfOk r (λ v. P)`: if r is `Ok` of v, then P. `OnErr` and `IfErr`
//!   are the same for `Err`. `is_ok r` is `IsOk r` as a `Bool`, and `IsTrue b`: the `Bool` b is `true`.
//! - A number, whose type is `ℕ`, has no upper bound. `a - b` is 0 if b is greater than a, `a / b` is rounded down, `a % b` is
//!   the remainder, and `a ^ b` is the power. `+`, `*`, `<` and `≤` are as usual.
//! - A slice or an array is a list: `[]`, or `first ∷ rest`. `xs ++ ys` is xs followed by ys. `length xs` is the number of its
//!   items. `take n xs` are the first n, and `drop n xs` the others. `replicate n x` is n times x.
//! - A contract sees the values of some types as their *model*: a nonce as its bytes, a key of AES-GCM as its algorithm and its
//!   bytes. The section *Model* of such a type shows the type of the model (`Value`), how the model is computed from the fields
//!   (`view`), and what holds of the fields of each value (`invariant`). `a ≡ b` compares the models, and a and b may be of two
//!   types. Of other types, a contract sees the fields. Their section *Invariant*, if they have one, shows what holds of these.
//! - `N.spent` is a *ghost item* of the trait that the type parameter `N` implements, and exists for contracts alone. The
//!   section *Ghost items* of the trait has its type and says what it means, and that of an `impl` has its definition for one
//!   type. A ghost item whose type begins with `(x : A) →` is a fact, of which each `impl` has a proof.
//!
//! The links under *Definitions* lead to the definitions that a contract cites. They are in [`specs`], or in the module of this
//! name of a package below this one. [`specs`](specs#words) explains the words that are left. `docs/BELIEVE.md` of the
//! repository says what has to be trusted.

#![forbid(unsafe_code)]

#[cfg(not(target_pointer_width = "64"))]
compile_error!("the proofs of Deerlapse are of 64 bits in a usize");

pub mod specs;

mod alert;
pub mod connection;
mod content_type;
mod header;
mod inner;
mod key;
mod reader;
mod record_error;
mod side;
mod stream;
mod writer;

use aead_ciphers::aead::MAX_TAG_LEN;
pub use alert::{CLOSE_NOTIFY, fatal_alert, plaintext_alert};
pub use content_type::ContentType;
pub use header::{MAX_ENCRYPTED_LEN, header_of};
pub use inner::{last_nonzero, write_type_and_padding};
pub use key::RecordKey;
pub use reader::{EarlyData, Reader};
pub use record_error::RecordError;
pub use side::Side;
pub use stream::{Begins, RecordKind, classify};
pub use tls_messages::AlertDescription;
pub use writer::Writer;

/// The length of a header in bytes.
pub const HEADER_LEN: usize = 5;

/// The longest content of a record in bytes, including its padding, when no lower size limit is set (RFC 8446 section 5.1).
pub const MAX_CONTENT_LEN: usize = 16384;

/// The lowest size limit in bytes (RFC 8449 section 4).
pub const MIN_SIZE_LIMIT: usize = 64;

/// The highest and the default size limit in bytes: a content and its type (RFC 8446 section 5.4).
pub const MAX_SIZE_LIMIT: usize = 16385;

/// The default limit on the records that a writer seals under one key. It is below the 2^24.5 records that keep a margin of
/// safety with AES-GCM (RFC 8446 section 5.5).
pub const DEFAULT_LIMIT: u64 = 1 << 24;

/// The length of a tag in bytes.
const TAG_LEN: usize = MAX_TAG_LEN;

/// The length of a record in bytes without its content and its padding: a header, a content type and a tag.
const RECORD_OVERHEAD: usize = HEADER_LEN + 1 + TAG_LEN;
