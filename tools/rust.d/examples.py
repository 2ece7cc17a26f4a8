"""The examples of the packages that stand on `sha2`: their sources have examples in Rattle, which Rust can't run."""

import pathlib
import re

import lists
from tokens import Fault

FOLDER = pathlib.Path(__file__).parent / "examples"


def put_in(path, text):
    """Returns a source in which the comments of items have their examples in Rust, in place of those in Rattle."""
    lines = text.split("\n")
    for (file, item), name in lists.EXAMPLES.items():
        if file == path:
            at = next((at for at, line in enumerate(lines) if re.match(rf"\s*pub (struct|trait|enum|fn) {item}\b", line)), None)
            if at is None:
                raise Fault(f"crates/{path.replace('/', '/src/', 1)} doesn't have `{item}`")
            lines = with_example(lines, at, (FOLDER / name).read_text())
    left = [line for line in lines if re.match(r"\s*//[/!] ```$", line)]
    known = sum((FOLDER / name).read_text().count("```") for (file, _), name in lists.EXAMPLES.items() if file == path)
    if len(left) != known:
        raise Fault(f"crates/{path.replace('/', '/src/', 1)} has an example in Rattle")
    return "\n".join(lines)


def with_example(lines, at, example):
    """Returns the lines with an example at the end of the comment of the item at `at`."""
    while not lines[at - 1].lstrip().startswith("///"):
        at -= 1
    start = at
    while lines[start - 1].lstrip().startswith("///"):
        start -= 1
    indent = lines[start][: -len(lines[start].lstrip())]
    comment = [line.strip() for line in lines[start:at]]
    comment = comment[: comment.index("/// # Examples")] if "/// # Examples" in comment else [*comment, "///"]
    added = ["# Examples", "", *example.rstrip("\n").split("\n")]
    comment += [f"/// {line}".rstrip() for line in added]
    return [*lines[:start], *(indent + line for line in comment), *lines[at:]]
