"""Wrong sources, each of which `calls` must refuse, since they make a sentence of docs/BELIEVE.md false."""

import calls

AEAD, WIDE = "crates/aead_ciphers/src", "crates/aead_ciphers_wide/src"
SEALING_KEY = f"{AEAD}/aead/sealing_key.rt"
# For each, a part of what must be said of it, a file, a text that occurs there once, and what takes the text's place. Where no text
# is replaced, the file gets further lines, or is a new one.
PLANTED = (
    # What can name the private fields of a sealing key, and what else seals under one.
    ("the module again inside it", SEALING_KEY, "use std::fmt;", "mod again;\nuse std::fmt;"),
    ("the module again inside it", SEALING_KEY, "use std::fmt;", "use std::fmt;\npub mod again {\n    use super::SealingKey;\n}"),
    ("the macro include!", SEALING_KEY, "use std::fmt;", 'use std::fmt;\ninclude!("again.rt");'),
    ("the macro seal_again!", SEALING_KEY, "use std::fmt;", "use std::fmt;\ncrate::seal_again!(SealingKey);"),
    ("the fields of SealingKey aren't private", SEALING_KEY, "    key: LessSafeKey<K>", "    pub(super) key: LessSafeKey<K>"),
    ("the functions of", SEALING_KEY, "    fn algorithm", "    pub const fn inner(&self) -> &K {\n    }\n    fn algorithm"),
    ("the traits of", SEALING_KEY, "#[derive(Drop)]", "#[derive_where(Clone; N)]\n#[derive(Drop)]"),
    ("the traits of", SEALING_KEY, "use std::fmt;", "use std::fmt;\nimpl<\n    K: GcmKey,\n    N,\n> Deref for Key<K, N> {}"),
    # Other types that hold a sequence.
    ("no row of", f"{AEAD}/aead/quic/sealer.rt", None, "pub struct Sealer<N> {\n    key: LessSafeKey,\n    nonces: N,\n}"),
    ("no row of", f"{AEAD}/gcm/limits.rt", None, "pub struct Sealer<K: GcmKey, N: NonceSequence>(LessSafeKey<K>, N);"),
    ("no row of", f"{WIDE}/aes_gcm/pieces.rt", None, "pub enum Sealer {\n    Counted(LessSafeKey, CounterSequence),\n}"),
    ("no row of", f"{WIDE}/aead.rt", None, "use aead_ciphers::aead::XoredSequence as Nonces;\nstruct Sealer(Key, Nonces);"),
    ("no row of", f"{AEAD}/session.rt", None, "pub type Sealer<N> = (LessSafeKey, N);"),
    ("no row of", f"{AEAD}/aes_gcm/key.rt", None, "struct Sealer<K: GcmKey> {\n    key: K,\n    nonces: K::Nonces,\n}"),
    ("no row of", "crates/aead_ciphers_base/src/values.rt", None, "pub struct SealingKey<K, N>(K, N);"),
    ("the name of a bound key", f"{WIDE}/aead.rt", None, "pub use crate::word::Word as SealingKey;"),
    # Functions with the name of a call that seals.
    ("the functions of Seals", f"{AEAD}/aead/lend.rt", None, "pub trait Seals {\n    fn seal_in_place_append_tag(self);\n}"),
    ("the functions of NonceSequence", f"{AEAD}/aead/nonce_sequence.rt", "    fn advance(", "    fn seal(self);\n    fn advance("),
    ("the functions of UpdateBlock", f"{AEAD}/aead.rt", "mod lend;", "mod lend;\npub use crate::gcm::{Key, UpdateBlock};"),
    ("it can't be seen", f"{WIDE}/aead.rt", "pub mod quic;", "pub mod quic;\npub use crate::gcm::*;"),
    ("it can't be seen", f"{WIDE}/aead.rt", "pub mod quic;", "pub mod quic;\npub use crate::{gcm, word};"),
    ("it can't be seen", f"{WIDE}/aead.rt", "pub mod quic;", "pub mod quic;\npub use std::io::Write;"),
    # A key that isn't the library's, and has the traits of `library`.
    ("the impls of its crate", "crates/sentence/src/plain.rt", None, "impl library::LessSafeKey<UnboundKey> for OtherKey {}"),
)


def accepted(text, sources):
    """A message for each of these that `calls` accepts, or that can't be made, where it accepts the sources as they are."""
    for said, path, old, new in PLANTED:
        code = sources.get(path, "")
        made = code.replace(old, new) if old else f"{code}\n{new}\n"
        found = calls.wrong(text, {**sources, path: made})[1]
        if (old and code.count(old) != 1) or not any(said in message for message in found):
            yield f"tools/snippets.d/planted.py: not refused with '{said}': {path}: {new.splitlines()[-1]}"
