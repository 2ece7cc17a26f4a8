"""The section *Errors* of doc comments: what begins with `Fails` gets the heading that Rust's documentation has for it."""

import itertools

MARK = "///"


def with_headings(text):
    """Returns a source in which the comments of functions have their errors in a section of its own."""
    lines = text.split("\n")
    groups = itertools.groupby(lines, key=lambda line: line.lstrip().startswith(MARK))
    return "\n".join(line for is_comment, found in groups for line in (with_heading(list(found)) if is_comment else found))


def with_heading(comment):
    """Returns the lines of a doc comment, in which the paragraph that begins with `Fails` comes last before the next heading."""
    indent = comment[0][: -len(comment[0].lstrip())]
    lines = [line.strip().removeprefix(MARK).removeprefix(" ") for line in comment]
    end = next((at for at, line in enumerate(lines) if line.startswith("# ")), len(lines))
    paragraphs = [list(found) for is_text, found in itertools.groupby(lines[:end], key=bool) if is_text]
    errors = [it for it in paragraphs if it[0].startswith("Fails")]
    others = [it for it in paragraphs if it not in errors]
    if not errors:
        return comment
    written = [line for it in [*others, ["# Errors"], *errors] for line in ("", *it)][1:]
    written += ["", *lines[end:]] if end < len(lines) else []
    return [f"{indent}{MARK} {line}".rstrip() for line in written]
