"""The functions of a Rattle source, and which of them a change of its text changes."""

import re
import typing

COMMENTS_AND_TEXTS = re.compile(r"//[^\n]*|/\*.*?\*/|\"(?:\\.|[^\"\\])*\"|'(?:\\[^\n']*|[^'\\\n])'", re.S)
HEAD = re.compile(r"^[^\S\n]*(?:[\w()]+ )*?((?:const )?)(?:unsafe )?(?:extern +)?fn (\w+)\s*[<(]", re.M)
BLOCK = re.compile(r"^(?:pub(?:\([^)]*\))? |unsafe )*(impl\b|trait\b|macro_rules!)((?:[^{;\[]|\[[^\]]*\])*)\{", re.M)
BRACKETS = re.compile(r"[()\[\]{};]")
# What stands before the braces of a clause.
CLAUSE = re.compile(r"\b(?:requires|ensures)\*?(?:\s+\w+)?\s*$|\bghost\s+\w+\s*:\s*$")
ARGUMENTS = re.compile(r"<(?:[^<>]|(?<=-)>)*>")


class Function(typing.NamedTuple):
    """A function with a body: its name, the head of the block in which it stands, and where the text of its body is."""

    name: str
    block: str
    is_const: bool
    start: int
    end: int


def blanked(text):
    """The text with a space for each character of a comment, of a string and of a character's literal."""
    return COMMENTS_AND_TEXTS.sub(lambda it: re.sub(r"[^\n]", " ", it[0]), text)


def braces(text, start):
    """Each pair of braces from here on to the end of the item: what stands before it, and where it begins and ends."""
    depth, before, opened = 0, start, None
    for it in BRACKETS.finditer(text, start):
        if it[0] in "([{":
            if depth == 0 and it[0] == "{":
                opened = it.start()
            depth += 1
        elif it[0] in ")]}":
            depth -= 1
            if depth < 0:
                return
            if depth == 0 and it[0] == "}":
                yield text[before:opened], opened, it.start()
                before = it.end()
        elif depth == 0:
            return


def functions(text):
    """The functions of a source that have a body. What stands in a macro is none."""
    text = blanked(text)
    blocks = [(it[1], it[2], *next(braces(text, it.end() - 1))[1:]) for it in BLOCK.finditer(text)]
    for head in HEAD.finditer(text):
        around = [block for block in blocks if block[2] < head.start() < block[3]]
        if any(kind == "macro_rules!" for kind, *_ in around):
            continue
        body = next((it for it in braces(text, head.end() - 1) if not CLAUSE.search(it[0])), None)
        if body:
            block = f"{around[-1][0]}{around[-1][1]}" if around else ""
            yield Function(head[2], block, bool(head[1]), body[1], body[2])


def stem(type_name):
    """A type's or a trait's own name, as the name of an `impl` has it in what a check prints."""
    found = re.match(r"(?:&(?:'\w+ )?(?:mut )?|dyn )*(?:\w+::)*(\w+)", type_name.strip())
    return found[1][:1].upper() + found[1][1:] if found else ""


def without_arguments(head):
    """The head of a block up to its `where`, without what stands between `<` and `>`."""
    head = head.partition(" where ")[0].partition("\n")[0]
    while (plain := ARGUMENTS.sub("", head)) != head:
        head = plain
    return head


def is_inherent(block):
    return block.startswith("impl") and " for " not in without_arguments(block)


def likeness(segment, block):
    """How surely a check names a block so: a type's own `impl` or a trait by its name, that of a trait for a type by both, each
    with its arguments. 0 is not at all."""
    kind, _, rest = without_arguments(block).partition(" ")
    if kind == "trait" or is_inherent(block):
        return 3 * (segment == stem(rest))
    trait, _, type_name = (stem(it) for it in rest.partition(" for "))
    rest = segment.removeprefix(type_name)
    return 0 if not segment.startswith(type_name) or trait not in rest else 3 if rest == trait else 1 + rest.startswith(trait)


def name_of(function, crate, path, names):
    """The one of the names that a check printed that is this function's, or `None` if that isn't certain."""
    module = re.sub(r"(^|/)(lib|main|mod)$", "", path.removeprefix("src/").removesuffix(".rt")).replace("/", "::")
    before = "::".join(it for it in (crate, module) if it)
    alike = [it.rpartition("::")[0] for it in names if it.endswith(f"::{function.name}")]
    if not function.block:
        return f"{before}::{function.name}" if before in alike else None
    # A type's own functions are named after the type's module, wherever their `impl` stands.
    for places in [[before], *([{it.rpartition("::")[0] for it in alike}] if is_inherent(function.block) else [])]:
        ranks = {it: likeness(it.rpartition("::")[2], function.block) for it in alike if it.rpartition("::")[0] in places}
        best = [it for it, rank in ranks.items() if rank and rank == max(ranks.values())]
        if best:
            return f"{best[0]}::{function.name}" if len(best) == 1 else None
    return None
