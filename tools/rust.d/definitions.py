"""The definitions that contracts cite: their pages, which rust/CRATE/src/specs has, the links to them, and the words of Rattle's
standard library that the pages use."""

import re
import textwrap
import typing

import lists
from tokens import TRIVIA, Fault, is_at, made, next_of
from words import FIRST, WORDS

IMPORT = re.compile(r"\buse ([\w.]+)(?:\.\{([^}]*)\}| as (\w+))")
# A file of definitions. The module `declared` has the types of a crate, which mean themselves.
FILE = re.compile(r"Rattle\.(\w+)\.specs\.(\w+)")
DECLARED = re.compile(r"Rattle\.\w+\.specs\.declared\.")
# An import by which a file writes `specs.FILE` for the path of a file.
TOP_OF_SPECS = re.compile(r"^use Rattle\.(\w+)\.specs$", re.MULTILINE)
# The line that begins a definition. A line `pub NAME :` below the head of a record is a field.
DEFINED = re.compile(r" *(?:(?:abbrev|unfoldable) pub|pub (?:record|data)|pub) (\S+)")
# The left side of an equation.
EQUATION = re.compile(r"^ *(\S.*?) =(?: |$)", re.MULTILINE)
PLACE = "◌"
# The length of a line, without what stands before it in an indented comment.
LINE = 110

# The page above those of the files.
ROOT = """//! The definitions that contracts of this crate cite, from the files of `crates/{crate}/specs` of the repository.
//!
//! A definition is its type and then its equations, of which the first that fits the arguments counts. `A → B` is the type of
//! the functions from A to B. A struct or an enum is that of the same name in the crate.
//!
//! - A fact has the type `Type 0`. A `record` of facts holds if each of its fields does, and a `data` if one of its cases does.
//!   A case is a line `name : P → Q → D ..`, and holds if P and Q do. If it begins with `(x : A) →`, it holds if they do for
//!   some x.
//! - Each definition below the line `module _ (x : A) where` takes x as its first argument. Inside the module, this argument
//!   isn't written. A contract writes it first: `Opened (aes key) nonce aad` begins with the arguments of the module.
//! - An argument in braces, such as `{E : Type 0}`, isn't written where the definition is used.
//! - `(a, b)` is a pair, and `p.0` and `p.1` are its parts. Where A and B aren't facts, `A × B` is the type of such pairs.
//! - `◌` is the place of an operator's argument, and `infixl 40` says how tightly the operator binds. `abbrev` and `unfoldable`
//!   matter to proofs alone, and so does what comes after `=` if the type of the definition is a fact.
//!
//! # Words
//!
//! The [first page](crate#contracts) explains the words that are in most contracts. These are the others of Rattle's standard
//! library that the pages of this crate use:
//!
"""


class File(typing.NamedTuple):
    """A file of definitions, which an import gives a name."""

    crate: str
    file: str


class Definition(typing.NamedTuple):
    """Where a definition is, and its name there."""

    crate: str
    file: str
    name: str

    def link(self, word, crate):
        """Returns a word of a contract of a crate as a link to the definition, with the name that the definition has there."""
        word, name = word.strip(PLACE), self.name.strip(PLACE)
        shown = f"`{word}`" if word == name else f"`{word}` (`{name}`)"
        return f"[{shown}]({page_path(self.crate, self.file, crate)}#{name})"


class Word(typing.NamedTuple):
    """A word of Rattle's standard library."""

    name: str


class Page(typing.NamedTuple):
    """A file of definitions: its first comment, what the names mean that it imports, and its paragraphs, each with the names that it
    defines."""

    comment: list
    imports: dict
    paragraphs: list


def page_path(crate, file, from_crate):
    """Returns the path of a file's page in the documents of a crate."""
    return f"{'crate' if crate == from_crate else crate}::specs::{module_of(file)}"


def module_of(file):
    return re.sub(r"(?<!^)(?=[A-Z])", "_", file).lower()


def imported(text):
    """Yields the names that imports make, each with what it means. Types of the crates mean themselves."""
    top = TOP_OF_SPECS.search(text)
    for path, names, alias in IMPORT.findall(text):
        path = f"Rattle.{top[1]}.{path}" if top and path.startswith("specs.") else path
        match = FILE.fullmatch(path)
        file = File(*match.groups()) if match and match[1] in lists.CRATES else None
        if alias and file:
            yield alias, file
        if DECLARED.match(path):
            continue
        for name in names.split(",") if names else []:
            name, _, other = name.strip().partition(" as ")
            yield other or name, Definition(*file, name) if file else Word(name)


def cited(tokens, imports):
    """Returns the names of imports that logic uses, in order, each with what it means."""
    names = imports.keys() - set(bound(tokens))
    found = []
    for at, token in enumerate(tokens):
        word = next((word for word in (token.text, PLACE + token.text + PLACE) if word in names), None)
        if word is None or tokens[at - 1].text == ".":
            continue
        if isinstance(imports[word], File):
            found.append((tokens[at + 2].text, Definition(*imports[word], tokens[at + 2].text)))
        else:
            found.append((word, imports[word]))
    return found


def between_braces(tokens):
    """Returns the logic of a clause or of a ghost item."""
    return tokens[next(at for at, token in enumerate(tokens) if token.text == "{") :]


def bound(tokens):
    """Yields the names that logic binds: those between `λ` and its dot, and what stands before `=`, as in `let NAME = ..` and
    in `record { NAME = .. }`."""
    in_head = False
    for at, token in enumerate(tokens):
        in_head = token.text == "λ" or in_head and token.text != "."
        after = next_of(tokens, at + 1)
        if token.kind == "word" and (in_head or is_at(tokens, after, "=") and not is_at(tokens, after, "=", "=")):
            yield token.text


def bound_in_types(tokens):
    """Yields the names before a colon: the arguments of `(NAME NAME : A)` and of `{NAME : A}`, and the field of `NAME : A`."""
    words = [token for token in tokens if token.kind not in TRIVIA]
    for at, token in enumerate(words):
        if token.text == ":":
            start = at
            while start and words[start - 1].kind == "word":
                start -= 1
            are_arguments = start and words[start - 1].text in "({"
            yield from (word.text for word in words[start if are_arguments else at - 1 : at])


def names_in(paragraph):
    """Returns the names that a paragraph defines."""
    names, in_record = [], False
    for line in paragraph.split("\n"):
        match = DEFINED.match(line)
        if match and not (in_record and line.lstrip().startswith("pub ")):
            names.append(match[1])
            in_record = "pub record " in line or "pub data " in line
    return names


def arguments_in(paragraph, names):
    """Returns the names of the arguments in the equations of a paragraph."""
    heads = [match[1] for match in EQUATION.finditer(paragraph) if match[1].startswith(tuple(names))]
    return {token.text for head in heads for token in made(head) if token.kind == "word"}


def module_heads(lines):
    """Yields the lines `module .. where` of a paragraph, each with the lines that continue it."""
    at = 0
    while at < len(lines):
        end = at + 1
        if lines[at].lstrip().startswith("module "):
            while not lines[end - 1].endswith(" where"):
                end += 1
            yield lines[at:end]
        at = end


def depth(line):
    return len(line) - len(line.lstrip())


def in_modules(paragraphs):
    """Yields the paragraphs, each below the heads of the modules that it is in."""
    heads = []
    for paragraph in paragraphs:
        lines = paragraph.split("\n")
        heads = [head for head in heads if depth(head[0]) < depth(lines[0])]
        yield "\n".join([*(line for head in heads for line in head), *lines])
        heads += module_heads(lines)


def page_of(text):
    """Returns a file of definitions as a page."""
    head, *paragraphs = text.strip("\n").split("\n\n")
    comment = [line.removeprefix("-- ") for line in head.split("\n") if line.startswith("--")]
    return Page(comment, dict(imported(head)), [(names_in(paragraph), paragraph) for paragraph in in_modules(paragraphs)])


def in_lines(links):
    """Returns these links in lines."""
    lines = [f"Definitions: {links[0]}"]
    for link in links[1:]:
        if len(lines[-1]) + len(link) < LINE:
            lines[-1] += f", {link}"
        else:
            lines[-1] += ","
            lines.append(link)
    return [*lines[:-1], lines[-1] + "."]


def in_bullet(text):
    """Returns the lines of an item of a list. Code stays on one line."""
    text = re.sub(r"`[^`]*`", lambda match: match[0].replace(" ", "\0"), f"- {text}")
    lines = textwrap.wrap(text, LINE, subsequent_indent="  ", break_long_words=False, break_on_hyphens=False)
    return [line.replace("\0", " ") for line in lines]


class Pages:
    """The files of definitions, and which of them contracts cite."""

    def __init__(self, top):
        self.top, self.pages, self.wanted = top, {}, set()
        # The words of the standard library that the pages of each crate use.
        self.words = {crate: set() for crate in lists.CRATES}

    def page(self, crate, file):
        """Returns the page of a file, which is read once."""
        if (crate, file) not in self.pages:
            path = self.top / "crates" / crate / "specs" / f"{file}.antt"
            if not path.exists():
                raise Fault(f"there are no definitions in crates/{crate}/specs/{file}.antt")
            self.pages[crate, file] = page_of(path.read_text())
        return self.pages[crate, file]

    def links(self, crate, found):
        """Returns the lines that link to the definitions among what logic cites, and notes the words of the standard library."""
        self.words[crate].update(it.name for _, it in found if isinstance(it, Word))
        found = [(word, it) for word, it in found if isinstance(it, Definition)]
        for _, it in found:
            if not any(it.name in names for names, _ in self.page(it.crate, it.file).paragraphs):
                raise Fault(f"crates/{it.crate}/specs/{it.file}.antt doesn't define `{it.name}`")
            self.want(it.crate, it.file)
        return in_lines([it.link(word, crate) for word, it in found]) if found else []

    def want(self, crate, file):
        """Notes that a file has a page, and so have those that it imports."""
        if (crate, file) not in self.wanted:
            self.wanted.add((crate, file))
            for it in self.page(crate, file).imports.values():
                if isinstance(it, Definition):
                    self.want(it.crate, it.file)

    def written(self, crate):
        """Yields the sources of a crate that have the pages, each with its name and that of the file that it is made of."""
        files = sorted(file for of, file in self.wanted if of == crate)
        pages = [(f"specs/{module_of(file)}.rs", self.source(crate, file), f"crates/{crate}/specs/{file}.antt") for file in files]
        modules = "".join(f"pub mod {module_of(file)};\n" for file in files)
        yield "specs.rs", f"{ROOT.replace('{crate}', crate)}{self.explained(crate)}\n{modules}", f"crates/{crate}/specs"
        yield from pages

    def explained(self, crate):
        """Returns the lines of the words of the standard library that the pages of a crate use."""
        words = self.words[crate] - FIRST
        for word in words:
            if not any(word in names for names in WORDS):
                raise Fault(f"tools/rust.d/words.py doesn't explain `{word}`, which the pages of {crate} use")
        return "".join(f"//! {line}\n" for names, text in WORDS.items() if words & set(names) for line in in_bullet(text))

    def check_words(self):
        """Fails if no page uses a word that is explained."""
        used = set().union(*self.words.values())
        for word in [*FIRST, *(word for words in WORDS for word in words)]:
            if word not in used:
                raise Fault(f"tools/rust.d/words.py: nothing uses `{word}`")

    def source(self, crate, file):
        """Returns the source that has the page of a file: its text, with an anchor for each name that it defines."""
        page = self.page(crate, file)
        own = {name: Definition(crate, file, name) for names, _ in page.paragraphs for name in names}
        self.words[crate].update(it.name for it in page.imports.values() if isinstance(it, Word))
        lines = [*page.comment, "", f"The definitions of `crates/{crate}/specs/{file}.antt` of the repository."]
        for names, paragraph in page.paragraphs:
            if names:
                lines += ["", *(f'<div id="{name.strip(PLACE)}"></div>' for name in names)]
            lines += ["", "```text", *paragraph.split("\n"), "```"]
            links = self.links(crate, uses(names, paragraph, page.imports | own))
            lines += ["", *links] if links else []
        return "".join(f"//! {line}".rstrip() + "\n" for line in lines)


def uses(names, paragraph, imports):
    """Returns the definitions that a paragraph uses, each with its name."""
    logic = made("\n".join(line.partition("-- ")[0] for line in paragraph.split("\n")))
    hidden = {*names, *bound_in_types(logic), *arguments_in(paragraph, names)}
    return dict(cited(logic, {name: it for name, it in imports.items() if name not in hidden})).items()
