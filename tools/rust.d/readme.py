"""The lists of rust/README.md, and what the first page of each crate says of contracts."""

import collections
import re

import lists
import words
from tokens import Fault

MARKS = re.compile(r"(<!-- begin: lists -->\n).*(<!-- end: lists -->)", re.DOTALL)

FIRST_PAGE = """//!
//! # Contracts
//!
//! A tool wrote this package from sources in Rattle, which is Rust with contracts. It moved the contracts into the
//! documentation, and changed what `rust/README.md` of the repository lists. In Rattle, each function is proved to meet its
//! contract, and to return if its `requires` hold: no index is out of range, no sum overflows, and nothing panics. A generic
//! function returns if the functions of its type parameters do. The Rust is tested, and not proved.
//!
//! The documentation of a function has the contract under *Contract*:
//!
//! - `requires` is what the caller must ensure. Rattle's checker verifies it at each call, and Rust doesn't: a call that breaks
//!   it may panic or return a wrong result. It isn't undefined behavior, since all packages but `simd` forbid `unsafe` code.
//! - `ensures` is what holds when the call returns. `result` is what it returned. `ensures tag { .. }` is the clause named
//!   `tag`.
//! - `x.old` and `x.new` are what a `&mut` argument points to before and after the call. `x.now` is what a `&` points to, and
//!   what a returned `&mut` points to when the call returns.
//! - `x` is the argument x as it was passed. If it is a reference or contains one, as an `Aad` does, an `ensures` writes
//!   `x.entry` for it. `x.exit.0` is what the first field of such an argument is when the call returns.
//! - `ensures*` says what a buffer s holds when a loan of a part of it ends. The result r is or contains the `&mut` to the
//!   part. By `sem 𝓛 (LendsFront s r n)`, s holds what the part holds then, followed by the bytes that s had from n on, and if
//!   r is an `Err`, s is unchanged. By `sem 𝓛 (Lends A B s r f)`, s is f of what the part holds then. A and B are the types of
//!   s and of the part. `Array u8 0` or `Array byte 0` is the type `[u8]`, and the 0 means nothing.
//!
//! The clauses are written in these words:
//!
//! - `f x y` is f of x and y, and `λ x. e` is the closure `|x| e`. `record { f = e }` is the struct whose field f is e, and
//!   `record s { f = e }` is s with e as its field f. `let x = e in y` is y with e for x.
//! - `a ≡ b`: a equals b. `a ≢ b`: it doesn't. `¬ P`: not P. `P × Q`: P and Q. `P ⊎ Q`: P or Q. `P → Q`: if P, then Q. `P ↔ Q`:
//!   P if and only if Q. `⊤` is true, and `⊥` is false. `(x : A) → P`: P for each x of the type A. `(x : A) × P`: P for some x.
//! - `IsOk r`: r is `Ok`. `OnOk r P`: if r is `Ok`, then P. `IfOk r (λ v. P)`: if r is `Ok` of v, then P. `OnErr` and `IfErr`
//!   are the same for `Err`. `is_ok r` is `IsOk r` as a `Bool`, and `IsTrue b`: the `Bool` b is `true`.
//! - A number, whose type is `ℕ`, has no upper bound. `a - b` is 0 if b is greater than a, `a / b` is rounded down, `a % b` is
//!   the remainder, and `a ^ b` is the power. `+`, `*`, `<` and `≤` are as usual.
//! - A slice or an array is a list: `[]`, or `first ∷ rest`. `xs ++ ys` is xs followed by ys. `length xs` is the number of its
//!   items. `take n xs` are the first n, and `drop n xs` the others. `replicate n x` is n times x.
//! - A contract sees the values of some types as their *model*: a nonce as its bytes, a key of AES-GCM as its algorithm and its
//!   bytes. The section *Model* of such a type shows the type of the model (`Value`), how the model is computed from the fields
//!   (`view`), and what holds of the fields of each value (`invariant`). `a ≡ b` compares the models, and a and b may be of two
//!   types. Of other types, a contract sees the fields. Their section *Invariant*, if they have one, shows what holds of these.
//! - `N.spent` is a *ghost item* of the trait that the type parameter `N` implements, and exists for contracts alone. The
//!   section *Ghost items* of the trait has its type and says what it means, and that of an `impl` has its definition for one
//!   type. A ghost item whose type begins with `(x : A) →` is a fact, of which each `impl` has a proof.
//!
//! The links under *Definitions* lead to the definitions that a contract cites. They are in [`specs`], or in the module of this
//! name of a package below this one. [`specs`](specs#words) explains the words that are left. `docs/BELIEVE.md` of the
//! repository says what has to be trusted.
"""


def used_by(found):
    used, counts = set(), collections.Counter()
    for source in found:
        used |= source.used
        counts.update(source.counts)
    return used, counts


def check_used(found):
    """Fails if an entry of a list matches nothing."""
    used, counts = used_by(found)
    wanted = {*lists.CHECKED, *lists.LEFT_OUT_ITEMS, *lists.DROPPED_IMPORTS, *lists.DROPPED_NAMES, *lists.ADDED, *lists.UNDERSCORED, *lists.INLINED_AFTER_ALL, *range(len(lists.REPLACED))}
    wanted |= {(path, name) for path, owners in lists.WIPED.items() for name in owners}
    wanted |= {(path, name) for path, owners in lists.ENTRIES.items() for names in owners.values() for name in names}
    wanted |= set(lists.PROOFS_OF_MODEL) | set(lists.STD_ITEMS)
    for entry in wanted - used:
        what = lists.REPLACED[entry].old if isinstance(entry, int) else entry
        raise Fault(f"tools/rust.d/lists.py: nothing matches {what!r}")
    for name in lists.DELETED:
        if not counts[name]:
            raise Fault(f"tools/rust.d/lists.py: nothing matches {name!r}")


def check_words():
    """Fails if the first page doesn't have a word that it is to explain."""
    for word in words.FIRST:
        if word.strip("◌") not in FIRST_PAGE:
            raise Fault(f"the first page doesn't explain `{word}`")


def table(head, rows):
    lines = [f"| {' | '.join(head)} |", "|" + "---|" * len(head)]
    lines += [f"| {' | '.join(str(cell).replace('|', chr(92) + '|') for cell in row)} |" for row in rows]
    return "\n".join(lines) + "\n"


def in_one_line(text):
    """Returns a text of comments as one line."""
    return " ".join(text.replace("//!", " ").replace("///", " ").split())


def of_place(place):
    """Returns the file of an entry and what it names there."""
    return f"`crates/{place[0].replace('/', '/src/', 1)}`", f"`{' '.join(place[1:2])}`"


def tables(counts):
    """Yields the lists, each with the sentence before it."""
    rows = [(it.what, counts[name], it.why) for name, it in lists.DELETED.items()]
    yield "Deleted wherever it stands:", table(("What", "Times", "Why"), rows)
    rows = [(f"`crates/{file.replace('/', '/src/', 1)}`", why) for file, why in lists.LEFT_OUT_FILES.items()]
    rows += [(f"{of_place(place)[1]} of {of_place(place)[0]}", why) for place, why in lists.LEFT_OUT_ITEMS.items()]
    rows += [(f"{of_place(place)[1]} of {of_place(place)[0]}, and its calls", why) for place, why in lists.LAWS.items()]
    yield "Left out:", table(("What", "Why"), rows)
    rows = [("each file" if it.file == "*" else of_place((it.file, ""))[0], f"`{' '.join(it.old.split())}`", f"`{' '.join(it.new.split())}`", it.why) for it in lists.REPLACED]
    rows += [("each file", old, new, why) for old, new, why in lists.REWRITTEN]
    yield "Replaced:", table(("Where", "What", "By", "Why"), rows)
    rows = [(f"`{place[1]}` of {of_place(place)[0]}", ", ".join(f"`{condition}`" for condition, _ in checks) or "nothing") for place, checks in lists.CHECKED.items()]
    yield "Checked by public functions of `rust/protocols`, which panic otherwise, since Rust doesn't verify what they require:", table(("Function", "Conditions"), rows)
    rows = [(f"`{path}`", why) for path, why in lists.BY_HAND.items()]
    yield "Written by hand, below `rust/protocols`:", table(("File", "Why"), rows)
    rows = [(of_place((it.file, ""))[0], in_one_line(it.old), in_one_line(it.new), it.why) for it in lists.SENTENCES]
    yield "Sentences of comments that aren't so in Rust:", table(("Where", "What", "By", "Why"), rows)
    rows = [(f"`{' '.join(it.what.split())}`", f"{'the block of ' if len(place) > 2 else ''}{of_place(place)[1]} of {of_place(place)[0]}", it.why) for place, it in lists.ADDED.items()]
    yield "Added:", table(("What", "To what", "Why"), rows)
    rows = [(f"`{path}`", "each file", why) for path, why in lists.DROPPED_IMPORTS.items()]
    rows += [(f"`{place[1]}`", of_place(place)[0], why) for place, why in lists.DROPPED_NAMES.items()]
    yield "Imports that nothing uses any more:", table(("Name", "Where", "Why"), rows)
    rows = [(f"`{place[2]}`", f"`{place[1]}` of {of_place(place)[0]}", why) for place, why in lists.UNDERSCORED.items()]
    yield "Parameters that clauses alone read, which get an underscore:", table(("Parameter", "Of", "Why"), rows)
    rows = [(f"`{owner}`", of_place((file, ""))[0], ", ".join(f"`{name}`" for name in names)) for file, owners in lists.ENTRIES.items() for owner, names in owners.items()]
    yield "Calls that run as jobs, at the level of the processor:", table(("Type", "Of", "Functions"), rows)
    rows = [(f"`{name}`", of_place((file, ""))[0], ", ".join(f"`{field}`" for field in fields)) for file, types in lists.WIPED.items() for name, fields in types.items()]
    yield "Types that are overwritten when they are dropped:", table(("Type", "Of", "Fields"), rows)


def with_lists(text, found):
    """Returns the text of rust/README.md with the lists of today."""
    _, counts = used_by(found)
    written = "\n".join(f"{sentence}\n\n{rows}" for sentence, rows in tables(counts))
    return MARKS.sub(lambda match: f"{match[1]}\n{written}\n{match[2]}", text)
