"""What the modules of `tools/snippets` share."""

import pathlib
import typing

TOP = pathlib.Path(__file__).resolve().parent.parent.parent
SOURCES = "crates/*/src/**/*.rt"


class Fault(typing.NamedTuple):
    """What is wrong, and if --write can mend it, the part of a document that `text` replaces."""

    message: str
    document: str = ""
    start: int = 0
    end: int = 0
    text: str | None = None


def read(path):
    return (TOP / path).read_text(encoding="utf-8")


def line_of(document, text, start):
    """The document and the number of the line of a position in its text, as an error begins."""
    return f"{document}:{text.count(chr(10), 0, start) + 1}"
