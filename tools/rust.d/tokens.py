"""Sources as tokens: words, numbers, strings, comments, spaces and single marks, each with its line."""

import re
import typing

TOKEN = re.compile(
    r"""
    (?P<doc>//[/!][^\n]*)
  | (?P<comment>//[^\n]*)
  | (?P<space>\s+)
  | (?P<string>b?"(?:[^"\\]|\\.)*")
  | (?P<char>b?'(?:[^'\\\n]|\\[^u]|\\u\{[^}]*\}|\\x[0-9a-f]{2})')
  | (?P<lifetime>'[A-Za-z_]\w*)
  | (?P<number>\d(?:\w|\.(?=\d))*)
  | (?P<word>[^\W\d]\w*)
  | (?P<mark>->|=>|::|\.\.=|\.\.|.)
    """,
    re.VERBOSE | re.DOTALL,
)
OPEN = {"(": ")", "[": "]", "{": "}"}
CLOSE = set(OPEN.values())
# What no construct looks at.
TRIVIA = {"space", "comment", "doc"}


class Fault(Exception):
    """What the tool doesn't know how to write, with the file and the line."""


class Token(typing.NamedTuple):
    kind: str
    text: str
    line: int


def tokens(text):
    """Returns the tokens of a source."""
    found, line = [], 1
    for match in TOKEN.finditer(text):
        found.append(Token(match.lastgroup, match.group(), line))
        line += match.group().count("\n")
    return found


def text_of(tokens):
    return "".join(token.text for token in tokens)


def made(text, line=0):
    """Returns the tokens of a text that the tool writes."""
    return [token._replace(line=line) for token in tokens(text)]


def next_of(tokens, at):
    """Returns the index of the first token from `at` on that is neither space nor comment, or the number of tokens."""
    while at < len(tokens) and tokens[at].kind in TRIVIA:
        at += 1
    return at


def last_of(tokens, at):
    """Returns the index of the last token up to `at` that is neither space nor comment, or -1."""
    while at >= 0 and tokens[at].kind in TRIVIA:
        at -= 1
    return at


def is_at(tokens, at, *texts):
    """Returns whether these texts stand from `at` on, with spaces or comments between them."""
    for text in texts:
        at = next_of(tokens, at)
        if at >= len(tokens) or tokens[at].text != text:
            return False
        at += 1
    return True


def group_end(tokens, at):
    """Returns the index after the group that opens at `at`."""
    depth = 0
    for end in range(at, len(tokens)):
        if tokens[end].kind == "mark":
            depth += (tokens[end].text in OPEN) - (tokens[end].text in CLOSE)
        if depth == 0:
            return end + 1
    raise Fault(f"line {tokens[at].line}: a group isn't closed")


def angles_end(tokens, at):
    """Returns the index after the generics that open at `at`, a `<`."""
    depth = 0
    while at < len(tokens):
        text = tokens[at].text
        if text in OPEN:
            at = group_end(tokens, at)
            continue
        depth += {"<": 1, ">": -1}.get(text, 0)
        at += 1
        if depth == 0:
            return at
    raise Fault("generics aren't closed")


def parts(tokens, mark=","):
    """Returns what stands between the marks of this kind that are in no group and in no generics."""
    found, start, at, depth = [], 0, 0, 0
    while at < len(tokens):
        text = tokens[at].text
        if text in OPEN:
            at = group_end(tokens, at)
            continue
        depth += {"<": 1, ">": -1}.get(text, 0)
        if text == mark and depth == 0:
            found.append(tokens[start:at])
            start = at + 1
        at += 1
    found.append(tokens[start:])
    return [part for part in found if next_of(part, 0) < len(part)]


def words_of(tokens):
    return {token.text for token in tokens if token.kind == "word"}
