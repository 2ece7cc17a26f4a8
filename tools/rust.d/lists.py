"""What `tools/rust` deletes, replaces, leaves out and adds, each with its reason. rust/README.md has these lists."""

import typing


class Entry(typing.NamedTuple):
    """A construct, or a place of the sources, and why it is treated so."""

    what: str
    why: str


class Replaced(typing.NamedTuple):
    """A text of one file, or of each, that stands for another, and how often it stands in the file."""

    file: str
    old: str
    new: str
    why: str
    times: int = 1


# The crates, each with those that it stands on.
CRATES = {
    "aead_ciphers_base": (),
    "aead_ciphers": ("aead_ciphers_base",),
    "aead_ciphers_wide": ("aead_ciphers_base", "aead_ciphers"),
    "xaes": ("aead_ciphers_base", "aead_ciphers", "aead_ciphers_wide"),
    "tls_messages": (),
    "key_derivation": ("aead_ciphers_base",),
    "quic_packets": ("aead_ciphers_base", "aead_ciphers", "aead_ciphers_wide", "key_derivation"),
    "records": ("aead_ciphers_base", "aead_ciphers", "aead_ciphers_wide", "key_derivation", "tls_messages"),
    "sealed_file": ("aead_ciphers_base", "aead_ciphers", "aead_ciphers_wide", "xaes", "key_derivation"),
}
# Those of the workspace rust/protocols, which stand on RustCrypto's `sha2`.
PROTOCOLS = ("key_derivation", "quic_packets", "records", "sealed_file")
# Those that need an allocator, and so the standard library.
WITH_STD = ("records", "sealed_file")


def folder(crate):
    """Returns the folder of a crate below rust/."""
    return f"protocols/{crate}" if crate in PROTOCOLS else crate


# Files that are written by hand, in place of those of the same name or beside them.
BY_HAND = {
    "key_derivation/hash.rs": "RustCrypto's traits have other names and types than those of Rattle's `sha2`",
    "key_derivation/suite_key.rs": "in Rattle, `ArrayVec` holds a key; the packages have no dependency but `sha2`",
}

# What is deleted wherever it stands. The names are those by which the program counts.
DELETED = {
    "clause": Entry("`requires` and `ensures`", "A contract does nothing at run time. That of a public function goes into its doc comment, and that of another function into a comment."),
    "ghost item": Entry("`ghost NAME ..`, in files, traits and `impl` blocks", "Contracts and proofs alone read it. Those of a trait go into its doc comment, and so do those of an `impl` of a trait, but for the proofs of laws."),
    "ghost import": Entry("`ghost use ..`", "It names the definitions of which clauses and ghost items speak. The contracts link to them."),
    "ghost field": Entry("`ghost NAME: { .. }` in a `struct`", "It states the invariant of the struct, and goes into its doc comment."),
    "ghost parameter": Entry("`ghost NAME: { .. }` among the clauses of a function", "It has no value at run time."),
    "tactic": Entry("`#[tactic(..)]` and `#![tactic(..)]`", "It tells the prover what to try."),
    "model": Entry("`impl Model for ..`", "It says which value contracts see in a type, and goes into the doc comment of the type, but for `inverse` and `inverse_ok`."),
    "derived Drop": Entry("`Drop` in `#[derive(..)]`", "In Rattle only a value of a type with `Drop` may be dropped. In Rust every value may."),
    "Drop bound": Entry("`Drop` as a bound", "The same."),
    "allocator": Entry("`alloc: Global` among parameters, and `alloc` among arguments", "A `Vec` of Rust finds the allocator by itself."),
    "label": Entry("the label of a loop that no `break` and no `continue` names", "The proof of the loop names it."),
    "law": Entry("a call of a function of `LAWS` in `tools/rust.d/lists.py`", "It does nothing, and its contract is for the proof."),
}

# The ghost items of an `impl Model` that go into the doc comment of the type, and those that are for proofs alone.
SHOWN_OF_MODEL = ("Value", "view", "invariant")
PROOFS_OF_MODEL = {
    "inverse": "computes the fields from the model",
    "inverse_ok": "proves that `inverse` does so",
}

# Ghost items of traits of the standard library, each with what it says. The doc comments of `impl`s have these sentences.
STD_ITEMS = {
    "from_gives": "What holds of the argument of `from` and of what it returns.",
    "try_from_gives": "What holds of the argument of `try_from` and of what it returns.",
    "is_clone": "What holds of a value and of what `clone` returns for it.",
    "is_infallible": "For which values `clone` doesn't fail.",
    "output": "`Some` of what `{}` prints.",
    "debug_output": "`Some` of what `{:?}` prints.",
    "bitand_gives": "What holds of the operands of `&` and of the result.",
    "bitxor_gives": "What holds of the operands of `^` and of the result.",
    "can_index": "For which values and indices `index` returns.",
    "index_gives": "What holds of a value, of an index, and of what `index` returns.",
    "into_iter_gives": "What holds of a value and of the iterator that is made of it.",
    "next_gives": "What holds of an iterator before a call of `next`, of what this returns, and of the iterator after it.",
    "remaining": "How many items an iterator returns at most.",
}

# Functions without a body, whose contracts are laws. Each is left out, and so are its calls.
LAWS = {
    ("aead_ciphers_base/aes/counter.rt", "is_some_counter"): "states that each block of 16 bytes is a counter block",
}

# Files that are left out, with the line that declares them.
LEFT_OUT_FILES = {
    "aead_ciphers/aeadrun.rt": "the loop of the program `aeadrun`, which reads and writes by Rattle's streams",
    "aead_ciphers/laws.rt": "functions without a body, whose contracts are laws",
    "tls_messages/laws.rt": "functions without a body, whose contracts are laws",
    "quic_packets/laws.rt": "functions without a body, whose contracts are laws",
    "records/laws.rt": "functions without a body, whose contracts are laws",
    "sealed_file/laws.rt": "functions without a body, whose contracts are laws",
}

# Items that are left out: the head of an `impl`, or the name of another item.
LEFT_OUT_ITEMS = {
    ("aead_ciphers/aead/in_out.rt", "impl<const CAP: usize> InOut for ArrayVec<u8, CAP>"): "The packages have no dependency, and so no `ArrayVec`.",
    ("aead_ciphers_wide/aes.rt", "struct Key"): "An owned AES key, which the tests and the bench of Rattle alone make.",
    ("aead_ciphers_wide/aes.rt", "impl Key"): "The same.",
    ("aead_ciphers_wide/aes.rt", "impl EncryptBlock for Key"): "The same.",
    ("aead_ciphers_wide/aes.rt", "impl EncryptCtr32 for Key"): "The same.",
    ("aead_ciphers_wide/gcm.rt", "struct Key"): "An owned key of GHASH, which the tests and the bench of Rattle alone make.",
    ("aead_ciphers_wide/gcm.rt", "impl Key"): "The same.",
    ("aead_ciphers_wide/gcm.rt", "impl UpdateBlock for Key"): "The same.",
    ("aead_ciphers_wide/gcm.rt", "impl UpdateBlocks for Key"): "The same.",
}

# Imports that nothing uses once the rest is deleted.
DROPPED_IMPORTS = {
    "std::marker::Model": "It is the trait of `impl Model`, which is deleted.",
    "std::alloc::AllocError": "It is the error of Rattle's `clone`.",
    "thiserror::Error": "What its derive makes is written out.",
    "arrayvec::ArrayVec": "Its `impl` is left out, and `SuiteKey` stands for it.",
    "std::alloc::Global": "It is the type of Rattle's allocator.",
    "std::convert::AsSlice": "In Rust, digests have `as_ref`.",
    "std::os::unix::fs::FileExt": "The added function names it.",
    "std::random::RandomSource": "Random bytes are drawn from a `Read`.",
    "sha2::Digest": "The trait `Hash` has its methods.",
}

# Names of an import of several that nothing uses once the rest is left out.
OF_KEY = "Only the owned key uses it, which is left out."
DROPPED_NAMES = {
    ("aead_ciphers_wide/aes.rt", "Counter"): OF_KEY,
    ("aead_ciphers_wide/aes.rt", "EncryptCtr32"): OF_KEY,
    ("aead_ciphers_wide/aes.rt", "Overlapping"): OF_KEY,
    ("aead_ciphers_wide/aes.rt", "Unspecified"): OF_KEY,
    ("key_derivation/hmac.rt", "Digest"): "The trait `Hash` has its methods.",
    ("key_derivation/hkdf.rt", "AES_128_KEY_LEN"): "Only `ArrayVec` needed it.",
    ("key_derivation/hkdf.rt", "AES_256_KEY_LEN"): "The same.",
    ("key_derivation/keys.rt", "AES_256_KEY_LEN"): "The same.",
    ("sealed_file/read_at.rt", "AsBytes"): "`AsRef` stands for it.",
}

# Lines that are added before an item or, for `body`, at the beginning of its block.
ALLOC = "`Vec` is of the crate `alloc`, which a program without an allocator doesn't have."
HAS_SECRET = Entry(
    "/// Returns whether the key was derived from a traffic secret.\npub(crate) fn has_secret(&self) -> bool { self.secret.is_some() }\n",
    "`Connection::new` checks it.",
)
GROWS = Entry("use deerlapse::memory::TryGrow;", "The calls of a `Vec` that may fail are its.")
ADDED = {
    ("aead_ciphers_wide/aes.rt", "impl Width", "body"): Entry(
        "/// Returns the width of the planes that are the faster on the running processor.\n"
        "pub fn of_processor() -> Self { if simd::has_256_bits() { Width::Bits256 } else { Width::Bits128 } }\n",
        "Two of the replaced calls pass it.",
    ),
    ("key_derivation/lib.rt", "mod suite"): Entry("mod suite_key;\n", "It is by hand."),
    ("key_derivation/hkdf.rt", "use crate::suite::Suite"): Entry("use crate::suite_key::SuiteKey;", "It stands for `ArrayVec`."),
    ("key_derivation/keys.rt", "use std::fmt"): Entry("use crate::suite_key::SuiteKey;", "The same."),
    ("records/connection.rt", "use crate::writer::Writer"): GROWS,
    ("records/key.rt", "use std::alloc::AllocError"): GROWS,
    ("records/writer.rt", "use crate::record_error::RecordError"): GROWS,
    ("records/writer/content.rt", "use crate::record_error::RecordError"): GROWS,
    ("records/connection/receiving.rt", "use tls_messages::MessageReader"): Entry("use deerlapse::memory::{TryGrow, try_to_vec};", "The calls of a `Vec` that may fail are its."),
    ("sealed_file/chunk.rt", "use std::io"): GROWS,
    ("sealed_file/in_memory.rt", "use crate::random::FileRandom"): GROWS,
    ("sealed_file/passphrase.rt", "use sha2::Sha256"): GROWS,
    ("sealed_file/random_access.rt", "use crate::key::FileKey"): GROWS,
    ("sealed_file/reader.rt", "use aead_ciphers::aead::MAX_TAG_LEN"): Entry("use deerlapse::memory::{TryGrow, try_with_capacity};", "The same."),
    ("sealed_file/stream.rt", "use crate::header::HEADER_LEN"): Entry("use deerlapse::memory::{TryGrow, try_with_capacity};", "The same."),
    ("sealed_file/random.rt", "use std::io"): Entry("use std::io::Read;", "Random bytes are drawn from a `Read`."),
    ("records/reader.rt", "impl Reader", "body"): HAS_SECRET,
    ("records/writer.rt", "impl Writer", "body"): HAS_SECRET,
    ("sealed_file/read_at.rt", "struct FileFrom"): Entry(
        "/// Reads once from a position of a file on.\n"
        "#[cfg(unix)]\n"
        "fn read_file_at(file: &File, buf: &mut [u8], at: u64) -> io::Result<usize> { std::os::unix::fs::FileExt::read_at(file, buf, at) }\n\n"
        "/// Reads once from a position of a file on, which moves its cursor.\n"
        "#[cfg(not(unix))]\n"
        "fn read_file_at(mut file: &File, buf: &mut [u8], at: u64) -> io::Result<usize> { file.seek(SeekFrom::Start(at))?; file.read(buf) }\n\n",
        "Reading at a position is of Unix.",
    ),
    ("aead_ciphers/lib.rt", "mod session"): Entry('#[cfg(feature = "alloc")]', ALLOC),
    ("aead_ciphers/aead/in_out.rt", "impl InOut for Vec<u8>"): Entry('#[cfg(feature = "alloc")]', ALLOC),
    ("aead_ciphers/aead/in_out.rt", "use aead_ciphers_base::values::MAX_TAG_LEN"): Entry('#[cfg(feature = "alloc")]', ALLOC),
    ("aead_ciphers/aead/in_out.rt", "trait InOut"): Entry('#[cfg(feature = "alloc")]\nuse alloc::vec::Vec;\n', ALLOC),
    ("aead_ciphers/session.rt", "enum Operation"): Entry("use alloc::vec::Vec;\n", ALLOC),
    ("aead_ciphers_base/aes.rt", "enum KeyBytes"): Entry("#[allow(non_camel_case_types)]", "The names are ring's."),
    ("aead_ciphers/aead/algorithm.rt", "enum AlgorithmId"): Entry("#[allow(non_camel_case_types)]", "The names are ring's."),
    ("aead_ciphers/aead/quic.rt", "enum AlgorithmId"): Entry("#[allow(non_camel_case_types)]", "The names are ring's."),
    ("aead_ciphers/aead/unbound_key.rt", "enum UnboundBytes"): Entry("#[allow(non_camel_case_types)]", "The names are ring's."),
}

# What stands after the first comment of each lib.rs. Those of `WITH_STD` don't have its first line.
HEAD = """#![no_std]
#![forbid(unsafe_code)]

#[cfg(not(target_pointer_width = "64"))]
compile_error!("the proofs of Deerlapse are of 64 bits in a usize");
"""
# The crates that need an allocator for a part.
NEEDS_ALLOC = {"aead_ciphers": '#[cfg(feature = "alloc")]\nextern crate alloc;\n'}

# Parameters that only clauses read: they get an underscore.
UNDERSCORED = {
    ("aead_ciphers_wide/aes/ctr32.rt", "add_keystream", "key"): "The clauses say whose keystream the blocks are.",
    ("aead_ciphers_wide/aes/ctr32.rt", "add_keystream", "counter"): "The clauses say from which counter on.",
}

# Replacements of tokens, whatever spaces stand between them. Each must be found: once in its file or, for `*`, at least once.
REPLACED = [
    Replaced("*", "fn fmt<W: fmt::Write>(&self, f: &mut fmt::Formatter<W>)", "fn fmt(&self, f: &mut fmt::Formatter<'_>)", "Rust's `Formatter` has no type parameter."),
    Replaced("*", "-> Result<Self, AllocError> {", "-> Self {", "Rust's `clone` doesn't return a `Result`."),
    Replaced("aead_ciphers_base/polyfill/slice/chunks.rt", "-> Result<Self, std::alloc::AllocError> { Ok(*self) }", "-> Self { *self }", "The same."),
    Replaced("aead_ciphers/aead/less_safe_key.rt", "Ok(LessSafeKey { key: self.key.clone()?, algorithm: self.algorithm, })", "LessSafeKey { key: self.key.clone(), algorithm: self.algorithm, }", "The same."),
    Replaced("aead_ciphers/aes_gcm/key.rt", "Ok(Key { expanded: self.expanded.clone()?, })", "Key { expanded: self.expanded.clone(), }", "The same."),
    Replaced("xaes/key.rt", "Ok(Xaes256Gcm { expanded: self.expanded.clone()?, })", "Xaes256Gcm { expanded: self.expanded.clone(), }", "The same."),
    Replaced(
        "aead_ciphers/aead/in_out.rt",
        "self.extend_from_slice(&[0; MAX_TAG_LEN]).map_err(|_| Unspecified)",
        "self.try_reserve(MAX_TAG_LEN).map_err(|_| Unspecified)?; self.extend_from_slice(&[0; MAX_TAG_LEN]); Ok(())",
        "A `Vec` of Rattle returns an error where Rust's ends the program: so the memory is reserved first.",
    ),
    Replaced(
        "aead_ciphers_wide/aes_gcm.rt",
        "self.expand_with_width(bytes, Width::Bits128, work);",
        "self.expand_with_width(bytes, Width::of_processor(), work);",
        "The planes are as wide as the vectors of the running processor. No clause speaks of the width.",
    ),
    Replaced("xaes/key.rt", "expanded.expand(bytes, Width::Bits128);", "expanded.expand(bytes, Width::of_processor());", "The same."),
    Replaced(
        "aead_ciphers_wide/aes/ctr32.rt",
        "let batch_len = if self.width == PLANES_OF_256_BITS {",
        "let batch_len = if V::HAS_256_BITS && self.width == PLANES_OF_256_BITS {",
        "A key may have been made at another level. The compiler then leaves out the path that isn't taken at this one.",
    ),
    Replaced(
        "aead_ciphers_wide/aes/ctr32.rt",
        "for i in 0..count { let at = BLOCK_LEN * i; add_block(in_out, at, start + at, keystream[i]); }",
        "let mut sums = keystream; let len = BLOCK_LEN * count; "
        "for (sum, block) in sums[..count].iter_mut().zip(in_out[start..][..len].chunks_exact(BLOCK_LEN)) { "
        "*sum = (u8x16::from_slice(block) ^ u8x16::from_array(*sum)).to_array(); } "
        "in_out[..len].copy_from_slice(sums[..count].as_flattened());",
        "rustc checks two indices for each block, and leaves a loop over sixteen blocks as it is. Here it checks the lengths once.",
    ),
    Replaced(
        "aead_ciphers_wide/gcm/product.rt",
        "for k in 0..16 { let at = 16 * (15 - k); let (front, back) = moved_by_one(first, second); "
        "let bytes = looked_up(table, at, high, low); first = add(front, bytes); second = back; }",
        "for half in 0..2 { for k in 8 * half..8 * half + 8 { let at = 16 * (15 - k); let (front, back) = moved_by_one(first, second); "
        "let bytes = looked_up(table, at, high, low); first = add(front, bytes); second = back; } }",
        "rustc leaves a loop of sixteen turns as it is, and unrolls one of eight.",
    ),
    Replaced(
        "aead_ciphers_wide/word/wider.rt",
        "low.lanes.shuffle(high.lanes, [0, 1, 2, 3])",
        "low.lanes.followed_by(high.lanes)",
        "Stable Rust can't say that the result of a shuffle has as many lanes as there are numbers.",
    ),
    Replaced("*", "ArrayVec<u8, AES_256_KEY_LEN>", "SuiteKey", "The packages have no dependency but `sha2`, and `SuiteKey` is wiped."),
    Replaced(
        "key_derivation/hkdf.rt",
        "let mut key = ArrayVec::from([0; AES_256_KEY_LEN]); key.truncate(match suite { Suite::Aes128Gcm => AES_128_KEY_LEN, "
        "Suite::Aes256Gcm => AES_256_KEY_LEN, });",
        "let mut key = SuiteKey::zeros(suite);",
        "The same.",
    ),
    Replaced("key_derivation/hkdf.rt", "block.as_slice()", "block.as_ref()", "It is the name of the call in `AsRef`, which a digest has in Rust."),
    Replaced("key_derivation/hmac.rt", "digest.as_slice()", "digest.as_ref()", "The same."),
    Replaced("key_derivation/hmac.rt", "made.as_slice()", "made.as_ref()", "The same."),
    Replaced("key_derivation/pbkdf2.rt", "code.as_slice()", "code.as_ref()", "The same.", 2),
    Replaced("key_derivation/pbkdf2.rt", "for n in 0..further", "for _ in 0..further", "The proof alone names the number."),
    Replaced("records/connection/receiving.rt", "message.to_vec()", "try_to_vec(message)", "Rust's `to_vec` ends the program where there is no memory."),
    Replaced("sealed_file/stream.rt", "Vec::with_capacity(SEALED_CHUNK_LEN)", "try_with_capacity(SEALED_CHUNK_LEN)", "The same.", 2),
    Replaced("sealed_file/reader.rt", "Vec::with_capacity(SEALED_CHUNK_LEN)", "try_with_capacity(SEALED_CHUNK_LEN)", "The same."),
    Replaced("sealed_file/random.rt", "pub fn draw(source: &impl RandomSource)", "pub fn draw(source: &mut impl Read)", "Rust's standard library has no stable source of random bytes."),
    Replaced("sealed_file/random.rt", "source.fill_bytes(&mut bytes)?;", "source.read_exact(&mut bytes)?;", "The same."),
    Replaced("sealed_file/read_at.rt", "impl<T: AsBytes> ReadAt for Cursor<T>", "impl<T: AsRef<[u8]>> ReadAt for Cursor<T>", "`AsBytes` is a trait of Rattle."),
    Replaced("sealed_file/read_at.rt", "self.get_ref().as_byte_slice()", "self.get_ref().as_ref()", "The same.", 2),
    Replaced("sealed_file/read_at.rt", "self.file.read_at(buf, self.at)?", "read_file_at(self.file, buf, self.at)?", "Reading at a position is of Unix."),
]

# Calls of a `Vec` that return an error in Rattle where there is no memory, and those of `TryGrow` that do so in Rust.
GROWING = {
    "reserve": "try_grow",
    "push": "try_push",
    "extend_from_slice": "try_extend_from_slice",
    "resize": "try_resize",
}
# What no source of the crates with an allocator may call: each ends the program where there is no memory.
ENDING = {*GROWING, "to_vec", "with_capacity", "clone", "collect", "to_owned", "to_string", "format", "vec", "Box", "extend"}

# What `erase.py` and `levels.py` replace by their own code, for README.
REWRITTEN = [
    ("`X.push(..)`, and `reserve`, `extend_from_slice`, `resize`", "`X.try_push(..)`, and `try_grow`, `try_extend_from_slice`, `try_resize`", "A `Vec` of Rattle returns an error where there is no memory. Rust's ends the program, so these calls of `deerlapse::memory` reserve it first."),
    ("`std::alloc::AllocError`, `AllocFailed`", "`deerlapse::memory::AllocError`, `AllocFailed`", "Rust has none that are stable."),
    ("`std::`", "`core::`", "The packages need no operating system. `std::simd` is the package `simd`."),
    ("`Fails ..` in a doc comment of `rust/protocols`", "the same under the heading *Errors*", "It is the form of Rust's documentation."),
    ("`X.as_array::<N>()`", "`simd::array_of::<_, N>(X)`", "Rust 1.85 doesn't have `as_array`, nor `as_mut_array`."),
    ("`X.shuffle(Y, [..])`", "`X.shuffle(Y, const { simd::Places::new([..]) })`", "The compiler computes the places once."),
    ("`#[error(..)]`", "an `impl` of `Display` and of `Error`", "The packages don't depend on `thiserror`."),
    ("`u8x16`, `Word`, `KeyRef` and others", "`u8x16<V>`, `Word<V>`, `KeyRef<'_, V>`", "`V` is the level of the vectors."),
    ("`#[inline(never)] fn`", "a call by `V::outlined`", "A function of its own must be compiled for the level."),
    ("`fn`", "`#[inline(always)] fn`", "What jobs reach is compiled for the level only if it is inlined. The files are in `INLINED` of `tools/rust.d/lists.py`."),
]

# What public functions of the packages in rust/protocols require, and check: conditions, each with what isn't so if it fails. Each
# such function with a `requires` has an entry. Those of `numbers` check nothing: each packet passes them before it is known to be
# authentic, and until then no branch may depend on its number (RFC 9001 section 9.5).
OF_AAD = ("aad.len() <= crate::MAX_AAD_LEN", "`aad` has more than `MAX_AAD_LEN` bytes")
OF_WINDOW = ("(2..=64).contains(&W)", "`W` isn't from 2 to 64")
OF_RANGE = (
    ("at <= end && end <= bytes.len()", "`at` and `end` aren't a range of `bytes`"),
    ("filled <= at + crate::HEADER_LEN", "`filled` is beyond the header at `at`"),
)
CHECKED = {
    ("quic_packets/numbers.rt", "decode"): (),
    ("quic_packets/numbers.rt", "truncated"): (),
    ("quic_packets/connection.rt", "new"): (OF_WINDOW,),
    ("quic_packets/space.rt", "new"): (OF_WINDOW,),
    ("records/reader.rt", "gather"): OF_RANGE,
    ("records/reader/early_data.rt", "gather_past_early_data"): OF_RANGE,
    ("records/header.rt", "header_of"): (("len < 65536", "`len` is 65,536 or more"),),
    ("records/inner.rt", "write_type_and_padding"): (("content_len < inner.len()", "`inner` has no byte after the content"),),
    ("records/connection.rt", "new"): (
        ("reader.has_secret()", "`reader` has no secret, which `Reader::from_secret` gives it"),
        ("writer.has_secret()", "`writer` has no secret, which `Writer::from_secret` gives it"),
        ("crate::MIN_SIZE_LIMIT <= writer.size_limit()", "the size limit of `writer` is below `MIN_SIZE_LIMIT`"),
        ("4 <= buffer.len()", "`buffer` has fewer than 4 bytes"),
    ),
    ("sealed_file/opening.rt", "open_with_aad"): (OF_AAD,),
    ("sealed_file/sealing.rt", "seal_with_aad"): (OF_AAD,),
    ("sealed_file/passphrase.rt", "seal_with_passphrase"): (
        ("(1..=MAX_ITERATIONS).contains(&iterations)", "`iterations` is 0 or more than `MAX_ITERATIONS`"),
        OF_AAD,
    ),
    ("sealed_file/passphrase.rt", "open_with_passphrase"): (OF_AAD,),
    ("sealed_file/random_access.rt", "open_chunk_at"): (OF_AAD, ("sealed.len() <= crate::SEALED_CHUNK_LEN", "`sealed` has more than `SEALED_CHUNK_LEN` bytes")),
    ("sealed_file/reader.rt", "new"): (OF_AAD,),
    ("sealed_file/reader.rt", "with_buffer"): (OF_AAD,),
}

# Types of the vectors, whose operations a level chooses.
VECTORS = {"u8x16", "u64x2", "u64x4"}
# Types without a vector in them whose methods reach vectors: they have the level as a parameter.
LEVELED_TYPES = {
    "aead_ciphers_wide": {"KeyRef", "BlockKeyRef"},
    "xaes": {"Cmac"},
}
# The calls that choose a level, each of which is a job of `simd`.
ENTRIES = {
    "aead_ciphers_base/chacha.rt": {"Key": ("encrypt", "new_mask")},
    "aead_ciphers_wide/aes/block_key.rt": {"BlockKey": ("new", "new_mask")},
    "aead_ciphers_wide/aes_gcm.rt": {
        "ExpandedKey": (
            "expand_with_width",
            "open_within_to_front",
            "begin",
            "begin_with_parts",
            "update",
            "finish",
            "new_mask",
            "seal",
            "open",
            "open_to",
        )
    },
    "xaes/expanded.rt": {"ExpandedKey": ("expand", "expand_message_key")},
    "xaes/key.rt": {"Xaes256Gcm": ("derived_key", "derived_blocks")},
}
# The files whose functions jobs reach: each is inlined, since only then it is compiled for the level of the job.
INLINED = (
    "aead_ciphers_base/chacha.rt",
    "aead_ciphers_base/chacha/",
    "aead_ciphers_base/aes.rt",
    "aead_ciphers_base/aes/",
    "aead_ciphers_base/bb.rt",
    "aead_ciphers_base/overlapping/",
    "aead_ciphers_base/values.rt",
    "aead_ciphers_base/polyfill/",
    "aead_ciphers/gcm.rt",
    "aead_ciphers/gcm/context.rt",
    "aead_ciphers/gcm/limits.rt",
    "aead_ciphers/gcm/padding.rt",
    "aead_ciphers/aes_gcm/",
    "aead_ciphers_wide/",
    "xaes/cmac.rt",
    "xaes/nonce.rt",
)
# Functions that Rattle's compiler is told not to inline, and that are inlined here.
INLINED_AFTER_ALL = {
    ("aead_ciphers/aes_gcm/opening.rt", "authenticate"): "It is generic over the cipher and the hash, which jobs reach.",
}

# Keys, and states that hold bytes of a key or of a keystream: `Drop` overwrites these fields with zeros.
WIPED = {
    "aead_ciphers_base/aes.rt": {"Key": ("round_keys",)},
    "aead_ciphers_base/chacha.rt": {"Key": ("words",)},
    "aead_ciphers/gcm.rt": {"Key": ("multiples",)},
    "aead_ciphers/aead/unbound_key.rt": {"UnboundBytes": ("AES_128", "AES_256")},
    "aead_ciphers/aes_gcm/expanded.rt": {"ExpandedKey": ("round_keys", "multiples")},
    "aead_ciphers_wide/aes/block_key.rt": {"BlockKey": ("round_keys",)},
    "aead_ciphers_wide/aes_gcm.rt": {"ExpandedKey": ("planes", "round_keys", "products", "squares")},
    "aead_ciphers_wide/aes_gcm/pieces.rt": {"SealState": ("xi", "batch")},
    "xaes/expanded.rt": {"ExpandedKey": ("round_keys", "subkey")},
    "key_derivation/secret.rt": {"SecretBytes": ("Sha256", "Sha384")},
    "sealed_file/key.rt": {"FileKey": ("bytes",)},
}

# Sentences of comments that aren't so in Rust, each with the one that is.
SENTENCES = [
    Replaced(
        "key_derivation/lib.rt",
        "No function allocates, and none wipes a secret from memory.",
        "No function allocates. A\n//! secret and a key are overwritten with zeros when they are dropped. The state of a hash function isn't.",
        "`sha2` 0.10 doesn't wipe its state.",
    ),
    Replaced(
        "sealed_file/random.rt",
        "Draws the random bytes of a file, as from the system by a program's runtime.",
        "Draws the random bytes of a file from a source, such as the system's generator.",
        "A program in Rust has no runtime that draws them.",
    ),
    Replaced("quic_packets/lib.rt", " `laws` states what\n//! follows from the contracts over runs of calls.", "", "The laws are left out."),
]

# The items whose examples are written in Rust, in the folder `examples`.
EXAMPLES = {
    ("key_derivation/quic.rt", "QuicSecret"): "quic_secret.md",
    ("quic_packets/connection.rt", "Connection"): "quic_connection.md",
    ("quic_packets/sender.rt", "Sender"): "sender.md",
    ("quic_packets/receiver.rt", "Receiver"): "receiver.md",
    ("quic_packets/key.rt", "PacketKey"): "packet_key.md",
    ("records/connection.rt", "Connection"): "tls_connection.md",
    ("records/reader.rt", "Reader"): "reader.md",
    ("records/writer.rt", "Writer"): "writer.md",
    ("records/key.rt", "RecordKey"): "record_key.md",
    ("records/stream.rt", "classify"): "classify.md",
    ("sealed_file/random_access.rt", "open_chunk_at"): "open_chunk_at.md",
    ("sealed_file/reader.rt", "SealedReader"): "sealed_reader.md",
    ("sealed_file/in_memory.rt", "seal_bytes"): "seal_bytes.md",
    ("sealed_file/opening.rt", "open"): "open.md",
    ("sealed_file/sealing.rt", "seal"): "seal.md",
    ("sealed_file/read_at.rt", "ReadAt"): "read_at.md",
}
