"""Which functions there are, by docs/BELIEVE.md: those of the types that hold a nonce sequence, and of the traits of `aead`."""

import functools
import re

import modules
import tables
from repository import TOP

BELIEVE = "docs/BELIEVE.md"
# The headings above the tables of the types that hold a sequence, and of the traits.
OF_HOLDERS, OF_TRAITS = "Nothing else seals under a sealing key", "Two functions of one name"
LIBRARY = "crates/sentence/src/library.rt"
COMMENT = re.compile(r"//[^\n]*|/\*.*?\*/", re.DOTALL)
VISIBLE = r"pub(?:\([^)]*\))? "
TYPE = re.compile(rf"^ *(?:{VISIBLE})?(struct|enum|union|type) (\w+)", re.MULTILINE)
TRAIT = re.compile(rf"^ *({VISIBLE})?(?:unsafe )?trait (\w+)", re.MULTILINE)
# The head of an `impl`, which may have several lines.
HEAD = re.compile(r"^ *(?:unsafe )?impl\b([^{]*)", re.MULTILINE)
MODULE = re.compile(r"\bmod (\w+)")
MACRO = re.compile(r"\b(\w+)!(?!=)")
DERIVED = re.compile(r"#\[derive(?:_where)?\(([^)]*)\)\]")
FUNCTION = re.compile(r"\bfn (\w+)")
EXPORT = re.compile(r"^ *pub use ([^;]*);", re.MULTILINE)
# A name that a `use` imports, and not one of its path.
IMPORTED = re.compile(r"\b\w+\b(?!::)")
SEQUENCE = re.compile(r"\bNonceSequence for (\w+)")
RENAMED = re.compile(r"\b(\w+) as (\w+)")
BOUND_KEY = re.compile(r"\b(?:Sealing|Opening)Key\b(?:<[^<>]*>)?")
# The traits of type parameters that are no sequences, and the macro that defines nothing.
OF_NO_SEQUENCE = {"GcmKey", "UpdateBlock"}
MACROS = {"write"}


def sources():
    """The sources of `sentence` and of the crates below it, without comments, by their paths."""
    paths = [path for crate in tables.with_those_below("sentence") for path in TOP.glob(f"crates/{crate}/src/**/*.rt")]
    return {path.relative_to(TOP).as_posix(): COMMENT.sub("", path.read_text(encoding="utf-8")) for path in sorted(paths)}


def crate_of(path):
    return path.split("/")[1]


def library(sources):
    """The sources of the crates below `sentence`."""
    return {path: code for path, code in sources.items() if crate_of(path) != "sentence"}


def parts(text, ends, brackets="([{<)]}>"):
    """The parts of a text that end in one of these characters, where none of the brackets is open, and the rest."""
    opening, closing = brackets[: len(brackets) // 2], brackets[len(brackets) // 2 :]
    depth = start = 0
    for at, character in enumerate(text):
        depth += (character in opening) - (character in closing and text[at - 1 : at + 1] not in ("->", "=>"))
        if depth == 0 and character in ends:
            yield text[start : at + 1]
            start = at + 1
    yield text[start:]


@functools.cache
def every(pattern, code):
    """What `pattern` finds in a source."""
    return pattern.findall(code)


@functools.cache
def types(code):
    """The types that a source defines: the kind, the name, the parameters, and what follows these, up to the definition's end."""
    found = []
    for head in TYPE.finditer(code):
        rest = next(parts(code[head.end() :], ";}"))
        generics = next(parts(rest, ">")) if rest.startswith("<") else ""
        found.append((head[1], head[2], list(parts(generics[1:-1], ",")), rest[len(generics) :]))
    return found


def may_be_sequences(parameters):
    """The names of the parameters that a sequence may stand for."""
    for parameter in parameters:
        name, _, bounds = parameter.strip(" \n,").partition(":")
        is_type = re.match(r"\w+", name) and not name.startswith("const ")
        if is_type and not (bounds and set(re.findall(r"\w+", bounds)) <= OF_NO_SEQUENCE):
            yield re.match(r"\w+", name)[0]


def sequences_of(sources):
    """The types that implement the trait of the sequences, and other names that an import gives them."""
    names = {name for code in sources.values() for name in every(SEQUENCE, code)}
    return names | {alias for code in sources.values() for name, alias in every(RENAMED, code) if name in names}


def holders(code, sequences):
    """The types of a source that hold a sequence, other than in a bound key, each with its kind and what it holds. And each type
    with the name of a bound key. If `sequences` is `None`, the source can't name the trait of the sequences."""
    for kind, name, parameters, held in types(code):
        words = set(re.findall(r"\w+", BOUND_KEY.sub("", held)))
        is_of_a_parameter = re.search(r"\b[A-Z]\w*(?: as [\w:]+>)?::", held) is not None
        may_hold = sequences is not None and (is_of_a_parameter or words & {*may_be_sequences(parameters), *sequences})
        if may_hold or (kind != "type" and BOUND_KEY.fullmatch(name)):
            yield kind, name, held


def traits_of_impls(code):
    """The trait of each `impl` of a source, or '' if it is of none."""
    heads = (" ".join(head.split()) for head in every(HEAD, code))
    return [modules.without_generics(head).rpartition(" for ")[0] for head in heads]


def calls_of(code):
    """The traits and the functions of a source, in its order: what it derives or has an impl of, and the names of its functions."""
    derived = [name for names in DERIVED.findall(code) for name in re.findall(r"[\w:]+", names.partition(";")[0])]
    return derived + [trait for trait in traits_of_impls(code) if trait], FUNCTION.findall(code)


def rows_below(text, heading):
    """The link and the names of the other cells of each row of the tables below a heading."""
    section = text.partition(f"\n### {heading}\n")[2].partition("\n### ")[0]
    for cells in tables.rows_of(section):
        yield re.match(r"\[`[^`]+`\]\(\.\./([^)]+)\)", cells[0])[1], *map(tables.NAMES.findall, cells[1:])


def differences(kinds, path, said, has):
    """A message for each of these lists of names that docs/BELIEVE.md has otherwise than the source."""
    for kind, names, right in zip(kinds, said, has):
        if sorted(names) != sorted(right):
            yield f"{BELIEVE}: the {kind} of {path} are {', '.join(right) or 'none'}, and it names {', '.join(names) or 'none'}"


def wrong_holders(text, sources):
    """A message for each file with a type that holds a sequence, unless a row names all of its traits and functions, and no others,
    and nothing else than they can name the type's fields."""
    named = {link: names for link, *names in rows_below(text, OF_HOLDERS)}
    sequences = sequences_of(sources)
    over = {crate for crate in set(map(crate_of, sources)) if "aead_ciphers" in tables.with_those_below(crate)}
    for path, code in library(sources).items():
        found = list(holders(code, sequences if crate_of(path) in over else None))
        if any(BOUND_KEY.fullmatch(name) for _, name in every(RENAMED, code)):
            yield f"{path}: it gives the name of a bound key to another type"
        where = f"{path}: it has a type that holds a nonce sequence, and"
        if found and path not in named:
            yield f"{where} no row of {BELIEVE}"
        elif found:
            yield from differences(("traits", "functions"), path, named.pop(path), calls_of(code))
            yield from (f"{where} the module {module} inside it" for module in every(MODULE, code))
            yield from (f"{where} the macro {macro}!" for macro in MACRO.findall(code) if macro not in MACROS)
            visible = [name for kind, name, held in found if kind != "struct" or "pub" in held]
            yield from (f"{where} the fields of {name} aren't private" for name in visible)
    yield from (f"{BELIEVE}: {path} has no type that holds a nonce sequence" for path in named)


def wrong_traits(text, sources):
    """A message for each trait that the modules `aead` export, unless a row names it with all of its functions, and for each export
    of which it can't be seen."""
    named = {(link, *trait): functions for link, trait, functions in rows_below(text, OF_TRAITS)}
    below = library(sources)
    of_aead = {path: code for path, code in below.items() if re.match(r"crates/\w+/src/aead(\.rt|/)", path)}
    crates = set(map(crate_of, below))
    whole = {"self", *crates, *(module for code in below.values() for module in every(MODULE, code))}
    exported = set()
    for path, code in of_aead.items():
        for export in every(EXPORT, code):
            names, source = set(IMPORTED.findall(export)), set(re.findall(r"^\w+", export))
            exported |= names
            if "*" in export or names & whole or not source & {"crate", "super", "self", *crates, *every(MODULE, code)}:
                yield f"{path}: it can't be seen which traits `pub use {export}` exports"
    for path, code in below.items():
        for trait in TRAIT.finditer(code):
            if trait[2] in exported or (trait[1] and path in of_aead):
                functions = FUNCTION.findall(next(parts(code[trait.start() :], "}", "([{)]}")))
                yield from differences([f"functions of {trait[2]}"], path, [named.pop((path, trait[2]), [])], [functions])
    yield from (f"{BELIEVE}: {path} has no trait {name} that `aead` exports" for path, name in named)


def wrong_impls(text, sources):
    """A message if the crate `sentence` has other impls than one of each trait of `library`."""
    traits = [f"library::{name}" for _, name in TRAIT.findall(sources[LIBRARY])]
    impls = [trait for path, code in sources.items() if crate_of(path) == "sentence" for trait in traits_of_impls(code)]
    if sorted(traits) != sorted(impls):
        yield f"{LIBRARY}: the impls of its crate are of {', '.join(impls)}, and its traits are {', '.join(traits)}"


def wrong(text, sources):
    """The number of rows that were compared, and a message for each function, trait or type that docs/BELIEVE.md doesn't name."""
    rows = [row for heading in (OF_HOLDERS, OF_TRAITS) for row in rows_below(text, heading)]
    return len(rows), [message for check in (wrong_holders, wrong_traits, wrong_impls) for message in check(text, sources)]
