"""The claims of documents, and the clauses that they name."""

import itertools
import re

import tables
from repository import TOP

# The crates whose READMEs have claims.
CLAIMED = """
    aead_ciphers_base aead_ciphers aead_ciphers_wide sentence xaes key_derivation
    quic_packets tls_messages records sealed_file deerlapse seal_file
""".split()
# The documents whose claims name clauses, the crate of each, and the heading above them.
CLAIMING = (
    ("docs/CLAIMS.md", "deerlapse", "The sentence, part by part"),
    *((f"crates/{crate}/README.md", crate, "What is proved") for crate in CLAIMED),
)
ENTRY = r"`[\w:]+`(?:, `[\w:]+`)*(?:: `[\w:]+`(?:, `[\w:]+`)*)?"
# What states a claim: in parentheses in its sentences, or a line of the list below it.
CITATION = re.compile(r"\((`[\w:]+`(?:(?:: |, |; )`[\w:]+`)*)\)" rf"|^ +- ({ENTRY})$", re.MULTILINE)
CLAIM = re.compile(r"^- .*(?:\n +\S.*)*", re.MULTILINE)
LINE_BELOW = re.compile(r"^ +- `.*", re.MULTILINE)
OWNER = re.compile(r"(?:pub(?:\([^)]*\))? )?(?:struct|enum|trait|impl\b(?:<.*?>)?(?: .* for)?) (?:\w+::)*(\w+)")
FUNCTION = re.compile(r"(\s*)(?:pub(?:\([^)]*\))? )?(?:extern \"C\" )?fn (\w+)")


def contracts(crate):
    """The names of the clauses of each function of a crate, of the ghost items of each trait and type, and of the fields of each
    record of its definitions, by the path of what has them, as `aead_ciphers_base::aes::Key::new`."""
    found = {}
    for path in TOP.glob(f"crates/{crate}/src/**/*.rt"):
        module = "::".join((crate, *path.relative_to(TOP / "crates" / crate / "src").with_suffix("").parts))
        owner = function = module
        for line in path.read_text(encoding="utf-8").splitlines():
            head, name, clause, ghost = (it.match(line) for it in (OWNER, FUNCTION, tables.CLAUSE, tables.GHOST))
            if head:
                owner = f"{module}::{head[1]}"
            elif name:
                function = f"{owner if name[1] else module}::{name[2]}"
                found.setdefault(function, set())
            elif clause and not clause[1]:
                found.setdefault(function, set()).add(clause[2])
            elif ghost:
                found.setdefault(owner, set()).add(ghost[1])
    for path in TOP.glob(f"crates/{crate}/specs/*.antt"):
        for record, field in (name.split(".") for name in tables.lines_of_definitions(path)[1]):
            found.setdefault(f"{crate}::{path.stem}::{record}", set()).add(field)
    return found


def wrong(texts):
    """The number of clauses that the claims of CLAIMING name, and a message for each that its function doesn't have, and for each
    claim that names none."""
    named, found = 0, []
    for document, crate, heading in CLAIMING:
        own = contracts(crate)
        below = {path: names for other in tables.with_those_below(crate) - {crate} for path, names in contracts(other).items()}
        section = re.search(rf"^## {heading}\n(.*?)(?=^## |\Z)", texts.get(document, ""), re.MULTILINE | re.DOTALL)
        text = section[1] if section else ""
        claims = CLAIM.findall(text)
        if not claims:
            found.append(f"{document}: no claims under {heading}")
        found += [f"{document}: names no clause: {claim}" for claim in claims if not CITATION.search(claim)]
        found += [f"{document}: no list of clauses: {line}" for line in LINE_BELOW.findall(text) if not CITATION.fullmatch(line)]
        for entry in (entry for cited in CITATION.finditer(text) for entry in cited[cited.lastindex].split("; ")):
            functions, _, clauses = entry.partition(": ")
            for function, clause in itertools.product(tables.NAMES.findall(functions), tables.NAMES.findall(clauses) or [None]):
                named += 1
                has = [names for path, names in own.items() if path.endswith(f"::{function}")]
                has = has or [names for path, names in below.items() if path.endswith(f"::{function}")]
                if len(has) != 1:
                    found.append(f"{document}: {function} is the name of {len(has)} items")
                elif clause not in has[0]:
                    found.append(f"{document}: {function} has no clause {clause or 'without a name'}")
    return named, found
