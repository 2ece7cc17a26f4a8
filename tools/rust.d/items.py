"""The items of a source, and the parts of a function: its parameters, its clauses and its body."""

import dataclasses

from tokens import OPEN, Fault, angles_end, group_end, is_at, next_of, text_of

# The items that end with a semicolon, whatever groups they have.
PLAIN = {"use", "const", "static", "type", "ghost", "macro", "extern"}
KINDS = PLAIN | {"mod", "struct", "enum", "trait", "impl", "fn"}
CLAUSES = {"requires", "ensures"}


@dataclasses.dataclass
class Item:
    """An item: the spaces, comments and attributes before it, and its own tokens."""

    kind: str
    name: str
    lead: list
    tokens: list

    @property
    def line(self):
        return self.tokens[0].line if self.tokens else 0

    @property
    def indent(self):
        return indent_of(self.lead)

    @property
    def is_public(self):
        return self.tokens[0].text == "pub" and self.tokens[1].text != "("

    def body_start(self):
        """Returns the index of the brace at which the body opens."""
        return next(at for at, token in enumerate(self.tokens) if token.text == "{")


@dataclasses.dataclass
class Clause:
    """A clause of a contract, or a parameter of a function that only its contract has. Its first line is indented as the source
    indents it."""

    kind: str
    name: str
    tokens: list
    indent: int

    @property
    def is_starred(self):
        return is_at(self.tokens, 1, "*")


@dataclasses.dataclass
class Function:
    """The parts of a function. `before` ends with its name, and `body` has its braces, or is a semicolon."""

    before: list
    name: str
    generics: list
    parameters: list
    result: list
    where: list
    clauses: list
    body: list


def indent_of(before):
    """Returns by how many spaces the source indents what these tokens are before."""
    return len(text_of(before).rpartition("\n")[2])


def visibility_end(tokens, at):
    """Returns the index after `pub` or `pub(..)`, if that is at `at`."""
    if tokens[at].text != "pub":
        return at
    at = next_of(tokens, at + 1)
    return next_of(tokens, group_end(tokens, at)) if tokens[at].text == "(" else at


def attributes_end(tokens, at):
    """Returns the index after the attributes from `at` on, and the spaces and comments between them."""
    at = next_of(tokens, at)
    while at < len(tokens) and tokens[at].text == "#" and tokens[at + 1].text == "[":
        at = next_of(tokens, group_end(tokens, at + 1))
    return at


def statement_end(tokens, at):
    """Returns the index after the next semicolon that is in no group."""
    while tokens[at].text != ";":
        at = group_end(tokens, at) if tokens[at].text in OPEN else at + 1
    return at + 1


def block_end(tokens, at):
    """Returns the index after the next block or semicolon."""
    while tokens[at].text not in ("{", ";"):
        at = group_end(tokens, at) if tokens[at].text in OPEN else at + 1
    return group_end(tokens, at) if tokens[at].text == "{" else at + 1


def clause_end(tokens, at):
    """Returns the index of the group of the clause at `at`, and of its end."""
    while tokens[at].text != "{":
        at += 1
    return at, group_end(tokens, at)


def function_end(tokens, at):
    """Returns the index after the function at `at`, whose clauses have groups too."""
    while True:
        text = tokens[at].text
        if text in CLAUSES or text == "ghost":
            at = clause_end(tokens, at)[1]
        elif text == "{":
            return group_end(tokens, at)
        elif text == ";":
            return at + 1
        else:
            at = group_end(tokens, at) if text in OPEN else at + 1


def kind_at(tokens, at, end):
    """Returns the kind of the item whose tokens begin at `at`, and its name."""
    at = visibility_end(tokens, at)
    if tokens[at].text == "const" and tokens[next_of(tokens, at + 1)].text == "fn":
        at = next_of(tokens, at + 1)
    kind = tokens[at].text
    if tokens[at + 1].text == "!":
        return "macro", kind
    if kind not in KINDS:
        raise Fault(f"line {tokens[at].line}: {kind!r} begins no item that is known")
    return kind, tokens[next_of(tokens, at + 1)].text


def items(tokens):
    """Returns the items of a file or of a block, and what follows the last."""
    found, at = [], 0
    while True:
        start, at = at, attributes_end(tokens, at)
        if at == len(tokens):
            return found, tokens[start:]
        if tokens[at].text == "#":
            end = group_end(tokens, at + 2)
            found.append(Item("attribute", tokens[at + 3].text, tokens[start:at], tokens[at:end]))
            at = end
            continue
        kind, name = kind_at(tokens, at, len(tokens))
        if kind == "fn":
            end = function_end(tokens, at)
        elif kind in PLAIN:
            end = statement_end(tokens, at)
        else:
            end = block_end(tokens, at)
        found.append(Item(kind, name, tokens[start:at], tokens[at:end]))
        at = end


def function(tokens):
    """Returns the parts of a function."""
    at = next(at for at, token in enumerate(tokens) if token.text == "fn")
    at = next_of(tokens, at + 1)
    name, before = tokens[at].text, tokens[: at + 1]
    at = next_of(tokens, at + 1)
    generics = []
    if tokens[at].text == "<":
        end = angles_end(tokens, at)
        generics, at = tokens[at + 1 : end - 1], next_of(tokens, end)
    end = group_end(tokens, at)
    parameters, at = tokens[at + 1 : end - 1], end
    parts = {"result": [], "where": [], "clauses": []}
    into = "result"
    while tokens[at].text not in ("{", ";"):
        text = tokens[at].text
        if text in CLAUSES or text == "ghost":
            group, end = clause_end(tokens, at)
            words = [token.text for token in tokens[at:group] if token.kind == "word"]
            parts["clauses"].append(Clause(words[0], " ".join(words[1:]), tokens[at:end], indent_of(tokens[:at])))
            at = next_of(tokens, end)
            continue
        into = "where" if text == "where" else into
        end = group_end(tokens, at) if text in OPEN else at + 1
        parts[into] += tokens[at:end]
        at = end
    return Function(before, name, generics, parameters, parts["result"], parts["where"], parts["clauses"], tokens[at:])


def text_of_function(it):
    """Returns the text of a function without its clauses."""
    generics = f"<{text_of(it.generics)}>" if it.generics else ""
    head = f"{text_of(it.before)}{generics}({text_of(it.parameters)})"
    result, where = text_of(it.result).strip(), text_of(it.where).strip()
    return " ".join(part for part in (head, result, where, text_of(it.body)) if part).replace(" ;", ";")
