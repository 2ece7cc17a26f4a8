"""The map of docs/DESIGN.md: the sources of each crate, what the first comment of each says, and the names that it defines."""

import itertools
import re
import typing

from repository import TOP, Fault, line_of, read

DESIGN = "docs/DESIGN.md"
MAP = re.compile(r"<!-- begin: map (\w+) -->\n(.*?)<!-- end: map -->", re.DOTALL)
COMMENT = re.compile(r"(?://!.*\n)+")
# A sentence ends with a period that isn't that of an initial.
SENTENCE = re.compile(r".*?(?<!\b[A-Z])\.(?= |$)")
VISIBLE = r"(?P<visible>pub(?:\([^)]*\))? )?"
TYPE = re.compile(rf"{VISIBLE}(?:ghost )?(?P<kind>struct|enum|union|trait|type) (?P<name>\w+)")
IMPL = re.compile(r"impl\b(?P<head>[^{]*)")
# The head of an `impl`, which may have several lines.
HEAD = re.compile(r"^impl\b[^{]*", re.MULTILINE)
FUNCTION = re.compile(rf"(?P<indent> *){VISIBLE}(?:const |extern \"C\" )*fn (?P<name>\w+)")
GENERICS = re.compile(r"<[^<>]*>")
# A name or a path in a sentence, and a part of one that stands for any name.
NAME = re.compile(r"`([A-Za-z]\w*(?:(?:::|/)\w+)*(?<!_))`")
ANY = re.compile(r"X_\w+|[A-Z]+")
CRATE = re.compile(r"^(\w+)[ \w]*:", re.MULTILINE)
# The crates in the map that stand under the heading of tests in crates.txt.
OF_TESTS = ("test_vectors", "aead_bench")


class Owner(typing.NamedTuple):
    """A type of a source or, without a name, the source itself: what its comment says, and its functions, which are those that it
    has for others, those that it has for itself, and those of each trait."""

    kind: str
    says: str
    public: list
    private: list
    of_traits: dict


def crates_of_map():
    """The crates of the map, in the order of crates.txt."""
    before, _, tests = read("crates.txt").partition("# Tests")
    return CRATE.findall(before) + [name for name in CRATE.findall(tests) if name in OF_TESTS]


def first_sentence(lines):
    """The first sentence of a comment, whose lines are without slashes, or `None`."""
    paragraph = itertools.takewhile(str.strip, lines)
    return SENTENCE.match(" ".join(line.strip() for line in paragraph))


def said_of(path, text):
    """The first sentence of the first comment of a source."""
    comment = COMMENT.search(text)
    sentence = first_sentence(re.findall(r"^//!(.*)", comment[0], re.MULTILINE)) if comment else None
    if sentence is None:
        raise ValueError(f"{path} has no first comment with a sentence")
    return sentence[0]


def without_generics(head):
    """The head of an `impl` without parameters of types, as `GcmKey for ExpandedKey`."""
    shorter = GENERICS.sub("", head)
    return shorter.strip() if shorter == head else without_generics(shorter)


def owners_of(text):
    """The types of a source in its order, by their names, and what it has without a type under the name ''."""
    owners, comment = {}, []
    owner = trait = ""
    for line in HEAD.sub(lambda head: " ".join(head[0].split()), text).splitlines():
        defined, impl, function = TYPE.match(line), IMPL.match(line), FUNCTION.match(line)
        if defined:
            owner, trait = defined["name"], ""
            kind, sentence = "trait" if defined["kind"] == "trait" else "", first_sentence(comment)
            owners[owner] = Owner(kind, sentence[0] if sentence else "", [], [], {})
        elif impl:
            trait, _, owner = without_generics(impl["head"]).rpartition(" for ")
        elif function:
            of_type = owner if function["indent"] else ""
            found = owners.setdefault(of_type, Owner("", "", [], [], {}))
            if trait and of_type:
                names = found.of_traits.setdefault(trait.rpartition("::")[2], [])
            else:
                names = found.public if function["visible"] or found.kind == "trait" else found.private
            if function["name"] not in names:
                names.append(function["name"])
        if line.startswith("///"):
            comment.append(line[3:])
        elif not line.startswith("#["):
            comment = []
    return owners


def quoted(names):
    return ", ".join(f"`{name}`" for name in names)


def line_of_owner(name, owner):
    """The line of a type with its functions, or of the functions without a type."""
    parts = [f"{quoted(owner.public)}."] if owner.public else []
    parts += [f"Private: {quoted(owner.private)}."] if owner.private else []
    parts += [f"Of `{trait}`: {quoted(names)}." for trait, names in owner.of_traits.items()]
    head = f"{f'{owner.kind} ' if owner.kind else ''}**`{name}`**" if name else ""
    says = " ".join(filter(None, (owner.says, *parts)))
    return f"  - {': '.join(filter(None, (head, says)))}"


def entry(path, source):
    """The lines of a source: its path and first sentence, its types, and its functions without a type."""
    text = path.read_text(encoding="utf-8")
    owners = owners_of(text)
    free = owners.pop("", None)
    link = f"[`{path.relative_to(source).with_suffix('')}`](../{path.relative_to(TOP)})"
    yield f"- {link}: {said_of(path.relative_to(TOP), text)}"
    yield from (line_of_owner(name, owner) for name, owner in owners.items())
    if free:
        yield line_of_owner("", free)


def map_of(crate):
    """The lines of a crate: its root and its other sources, but those of tests."""
    source = TOP / "crates" / crate / "src"
    paths = [path for path in source.glob("**/*.rt") if "tests" not in str(path.relative_to(source))]
    roots = (source / "lib.rt", source / "main.rt")
    paths.sort(key=lambda path: (path not in roots, path.relative_to(source).with_suffix("").parts))
    return "".join(f"{line}\n" for line in ["", *(line for path in paths for line in entry(path, source)), ""])


def unknown_names(text):
    """What is wrong with names in the sentences: each part of one is in a source, a definition or a proof, or names a file, and
    below the heading of the map, each part of one is in the map."""
    paths = [path for folder in ("src", "specs", "proofs") for path in TOP.glob(f"crates/*/{folder}/**/*.*t")]
    known = set(re.findall(r"\w+", " ".join(path.read_text(encoding="utf-8") for path in paths)))
    known |= {part for path in paths for part in path.relative_to(TOP).with_suffix("").parts}
    known |= {path.name for path in TOP.iterdir()}
    maps = list(MAP.finditer(text))
    of_map = set(re.findall(r"\w+", " ".join(part[0] for part in maps)))
    for name in NAME.finditer(text):
        is_of_map = any(part.start() <= name.start() < part.end() for part in maps)
        parts = () if is_of_map else re.split("::|/", name[1])
        names = of_map if "\n## Map\n" in text[: name.start()] else known
        if any(part not in names and not ANY.fullmatch(part) for part in parts):
            yield Fault(f"{line_of(DESIGN, text, name.start())}: no source has the name {name[1]}")


def compared(texts):
    """The number of sources in the map, and what is wrong with it, and with the names in the sentences of its document."""
    text = texts.get(DESIGN, "")
    count, wrong, crates = 0, [], crates_of_map()
    parts = list(MAP.finditer(text))
    if [part[1] for part in parts] != crates:
        wrong.append(Fault(f"{DESIGN}: the lines <!-- begin: map NAME --> must be those of {', '.join(crates)}"))
    for part in (part for part in parts if part[1] in crates):
        try:
            written = map_of(part[1])
        except (OSError, ValueError) as error:
            wrong.append(Fault(f"{DESIGN}: the map: {error}"))
            continue
        count += written.count("](")
        has, lines = part[2].splitlines(), written.splitlines()
        more = [f"is not of the sources: {line}" for line in has if line not in lines]
        fewer = [f"lacks: {line}" for line in lines if line not in has]
        where = f"{line_of(DESIGN, text, part.start())}: the map of {part[1]}"
        messages = [] if part[2] == written else more + fewer or ["is in another order"]
        wrong += [Fault(f"{where} {it}", DESIGN, *part.span(2), written) for it in messages]
    return count, [*wrong, *unknown_names(text)]
