"""What a written source must not have: a construct that no list names, an import or a private name that nothing uses."""

import collections
import re

import lists
from items import items
from tokens import TRIVIA, Fault, group_end, made, next_of, text_of, tokens, words_of

# The macros, attributes and words of the written sources.
MACROS = {"write", "unreachable", "compile_error", "matches", "assert"}
ATTRIBUTES = {"allow", "cfg", "derive", "forbid", "inline", "must_use", "no_std", "repr"}
# Words of Rattle alone, and what Rust has under another name.
WORDS_OF_RATTLE = {"ghost", "requires", "ensures", "prove", "tactic", "rt", "std", "as_array", "as_mut_array", "Model"}
# Operators of `core` that are imported for an `impl`, and traits whose methods are called and whose names aren't.
KEYWORDS = {"self", "crate", "super", "as", "pub", "use"}


def check(crate, path, text, traits):
    """Fails at the first construct of a written source that no list names."""
    found = tokens(text)
    refused = WORDS_OF_RATTLE - {"std"} | lists.ENDING if crate in lists.WITH_STD else WORDS_OF_RATTLE
    for at, token in enumerate(found):
        if token.kind in TRIVIA or token.kind in ("string", "char"):
            continue
        if token.text in refused or not token.text.isascii():
            raise Fault(f"{path}:{token.line}: `{token.text}` is left, which Rust must not have")
        if token.text == "!" and at and found[at - 1].kind == "word" and found[at + 1].text in "([{":
            if found[at - 1].text not in MACROS:
                raise Fault(f"{path}:{token.line}: the macro `{found[at - 1].text}!` is in no list")
        if token.text == "#":
            name = found[next_of(found, at + (2 if found[at + 1].text == "[" else 3))].text
            if name not in ATTRIBUTES:
                raise Fault(f"{path}:{token.line}: the attribute `{name}` is in no list")
    for name, line in unused_imports(found, traits):
        raise Fault(f"{path}:{line}: nothing uses the import `{name}`")
    for item in all_items(found):
        if item.kind == "use" and any(token.text.startswith("///") for token in item.lead):
            raise Fault(f"{path}:{item.line}: an import has the comment of another item")


def unused_imports(found, traits):
    """Yields each name that a file imports, privately, and doesn't use. A trait is used where one of its functions is called."""
    imported, rest = [], []
    for item in all_items(found):
        if item.kind == "use" and item.tokens[0].text == "use":
            imported += [(name, item.line) for name in names_of(item.tokens)]
        elif item.kind != "use":
            rest.append(item)
    used = collections.Counter()
    for item in rest:
        used.update(words_of(item.tokens))
        used.update(name for token in item.tokens if token.kind == "string" for name in re.findall(r"\{(\w+)", token.text))
    for name, line in imported:
        if not used[name] and not any(used[function] for function in traits.get(name, ())):
            yield name, line


def all_items(found):
    return items(found)[0]


def names_of(tokens):
    """Returns the names that an import makes: for `a as b` that is `b`, and for `a::{self}` it is `a`."""
    words = [token for token in tokens if token.kind not in TRIVIA]
    names = []
    for at, token in enumerate(words):
        follows = words[at + 1].text if at + 1 < len(words) else ""
        if token.kind == "word" and token.text not in KEYWORDS and follows in (",", "}", ";"):
            names.append(token.text)
        elif token.text == "self" and follows in (",", "}"):
            names.append(words[at - 3].text)
    return names


def traits_of(sources):
    """Returns the names of the functions of each trait."""
    found = {}
    for source in sources:
        for item in items(source.tokens)[0]:
            if item.kind == "trait":
                body = items(item.tokens[item.body_start() + 1 : -1])[0]
                found[item.name] = {it.name for it in body if it.kind == "fn"}
    return found


def unused_names(files):
    """Yields each private function, constant or type of a crate that stands nowhere but where it is defined."""
    words = collections.Counter()
    defined = []
    for path, text in files.items():
        found = tokens(text)
        words.update(token.text for token in found if token.kind == "word")
        defined += [(item.name, path, item.line) for item in private_items(items(found)[0])]
    for name, path, line in defined:
        if words[name] == 1:
            yield f"{path}:{line}: nothing uses `{name}`"


def private_items(found):
    for item in found:
        if item.kind == "impl" and "for" not in words_of(item.tokens[: item.body_start()]):
            yield from private_items(items(item.tokens[item.body_start() + 1 : -1])[0])
        elif item.kind in ("fn", "const", "struct", "enum", "type", "static") and not item.is_public:
            yield item
