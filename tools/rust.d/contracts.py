"""Contracts, models and ghost items as sections of doc comments, and the errors of `thiserror` written out."""

import textwrap
import typing

from tokens import group_end, made, next_of, parts, text_of

# The length of a line of prose, without what stands before it in a comment.
WIDTH = 120


def documented(lead, title, shown, links):
    """Returns the comments and attributes before an item, with lines of logic as a folded section at the end of the doc comment,
    and the links to their definitions."""
    section = [f"<details><summary>{title}</summary>", "", "```text", *shown, "```", ""]
    if links:
        section += [*links, ""]
    section.append("</details>")
    if has_docs(lead):
        section.insert(0, "")
    return with_comment(lead, "///", section)


def commented(lead, shown):
    """Returns the comments and attributes before an item that no page shows, with lines of logic after the doc comment."""
    return with_comment(lead, "//", shown)


def with_panics(lead, reasons):
    """Returns the comments and attributes before a function, with when it panics: before its examples or its contract."""
    lines = lead.splitlines(keepends=True)
    at = next(at for at, line in enumerate(lines) if line.lstrip().startswith(("/// # Examples", "/// <details>")))
    indent = lines[at][: -len(lines[at].lstrip())]
    said = "".join(f", if {reason}" for reason in reasons[1:-1]) + "".join(f", or if {reason}" for reason in reasons[1:][-1:])
    section = ["# Panics", "", *textwrap.wrap(f"Panics if {reasons[0]}{said}.", WIDTH), ""]
    return "".join([*lines[:at], *(f"{indent}/// {line}".rstrip() + "\n" for line in section), *lines[at:]])


def has_docs(lead):
    return any(line.lstrip().startswith("///") for line in lead.splitlines())


def with_comment(lead, mark, comment):
    """Returns the comments and attributes before an item, with a further comment after the doc comment."""
    lines = lead.splitlines(keepends=True)
    docs = [at for at, line in enumerate(lines) if line.lstrip().startswith("///")]
    after = docs[-1] + 1 if docs else next((at for at, line in enumerate(lines) if line.strip()), len(lines))
    text = "".join(f"{mark} {line}".rstrip() + "\n" for line in comment)
    if lines and after == len(lines) and not lead.endswith("\n"):
        lines.insert(after - 1, "")
        return "".join(lines[:-1]) + "\n" + text + lines[-1].strip(" ")
    return "".join(lines[:after]) + text + "".join(lines[after:])


def lines_of(tokens, indent):
    """Returns the lines of a clause or of a ghost item, without the spaces by which the source indents the item."""
    first, *others = text_of(tokens).split("\n")
    return [first, *(line[min(indent, len(line) - len(line.lstrip())) :] for line in others)]


def ghost_of(item, comment=None):
    """Returns the lines of a ghost item, after its comments and this one."""
    comments = [token.text for token in item.lead if token.kind == "comment"]
    return [*comments, *([f"// {comment}"] if comment else []), *lines_of(item.tokens, item.indent)]


class Displayed(typing.NamedTuple):
    tokens: list
    impls: str


def displayed(source, item):
    """Returns an enum without the attributes of `thiserror`, and its `Display` and `Error`."""
    at = item.body_start()
    rows, variants, found = [], [], False
    for part in parts(item.tokens[at + 1 : -1]):
        text, part = message_of(part)
        found = found or text is not None
        name_at = next_of(part, 0)
        rows.append((part[name_at].text, text, text_of(part[name_at + 1 :]).strip()))
        variants.append(text_of(part))
    tokens = item.tokens[: at + 1] + made(",".join(variants) + ",\n}", item.line)
    return Displayed(tokens, impls_of(item.name, rows) if found else "")


def message_of(variant):
    """Returns the text of `#[error(..)]` of a variant, and the variant without it."""
    for at, token in enumerate(variant):
        if token.text == "#" and variant[at + 2].text == "error":
            end = group_end(variant, at + 1)
            return variant[at + 4].text, variant[:at] + variant[next_of(variant, end) :]
    return None, variant


def impls_of(name, rows):
    arms = ""
    for variant, text, fields in rows:
        if "{0}" in text:
            arms += f"{name}::{variant}(it) => write!(f, {text.replace('{0}', '{it}')}),\n"
        else:
            ignored = {"{": " { .. }", "(": "(..)"}.get(fields[:1], "")
            arms += f"{name}::{variant}{ignored} => f.write_str({text}),\n"
    return (
        f"\n\nimpl core::fmt::Display for {name} {{\n"
        f"fn fmt(&self, f: &mut core::fmt::Formatter<'_>) -> core::fmt::Result {{ match self {{\n{arms}}} }}\n}}\n\n"
        f"impl core::error::Error for {name} {{}}"
    )
