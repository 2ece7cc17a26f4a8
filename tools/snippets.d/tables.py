"""The tables of definitions and clauses to read: how many lines each row names, and whether all that they use is listed."""

import re

from facts import LINES, MARK, compare
from repository import TOP, Fault, line_of, read

# The tables of definitions and clauses to read: the document, and the crate of a file that isn't linked.
TABLES = {"docs/BELIEVE.md": None, "crates/key_derivation/README.md": "key_derivation"}
DEFINITION = re.compile(r"(?:pub |\s*(?:abbrev|unfoldable) pub |\s*pub (?=record |data ))(?:record |data )?(\S+)")
FIELD = re.compile(r"\s+pub (\w+) :")
CLAUSE = re.compile(r"\s*(?:(requires)|ensures\*?) (?:(\w+) )?\{")
GHOST = re.compile(r"    ghost (?!use\b)(\w+)")
ITEM = re.compile(r"(?:pub |#\[unsafe)|fn |enum |struct |impl\b|const |///")
NAMES = re.compile(r"`([^`]+)`")
IMPORT = re.compile(r"\buse Rattle\.(\w+)\.specs\.([\w.]+)\.\{([^}]*)\}")
USED = re.compile(r"(?<![\w.])[A-Za-z_]\w*|[⊕•⊻]")
GHOST_OF = re.compile(r"(?<![\w.])[A-Z]\w*\.(\w+)")


def lines_of_definitions(path):
    """The lines of each definition of a file, without comments, imports and blank lines, and of each field of a record, by the
    names of both, each line with its number. Other lines are under ''."""
    parts, fields, name, field, fixity = {}, {}, "", "", []
    for line in enumerate(path.read_text(encoding="utf-8").splitlines()):
        if not line[1].strip() or line[1].lstrip().startswith(("--", "use ")):
            continue
        if line[1].startswith("infix"):
            fixity.append(line)
            continue
        found, named = DEFINITION.match(line[1]), FIELD.match(line[1])
        if found or line[1].startswith("module "):
            name, field = found[1] if found else "", ""
        elif named:
            field = f"{name}.{named[1]}"
        if field:
            fields.setdefault(field, []).append(line)
        parts.setdefault(name, []).extend([*fixity, line])
        fixity = []
    return parts, fields


def items(path):
    """The items of a source: the lines of each, the first its head, without comments, attributes and blank lines."""
    found = []
    for line in path.read_text(encoding="utf-8").splitlines():
        if ITEM.match(line):
            found.append([])
        if found and line.strip() and not line.lstrip().startswith(("//", "#[")):
            found[-1].append(line)
    return [lines for lines in found if lines]


def item(path, head):
    """The item of a source whose head matches."""
    found = [lines for lines in items(path) if re.match(head, lines[0])]
    if len(found) != 1:
        raise KeyError(f"{len(found)} items {head}")
    return found[0]


def lines_of_parts(lines, first, last):
    """The lines of each part, each with its number, by the name that `first` finds in its first line. `last` ends one."""
    parts, name = {}, None
    for line in enumerate(lines):
        found = first.match(line[1])
        if found:
            name = next((group for group in reversed(found.groups()) if group), "")
        if name is not None:
            parts.setdefault(name, []).append(line)
        if last(line[1]):
            name = None
    return parts


def clauses(lines):
    """The lines of each clause of a function, by its name: '' or 'requires' if it has none. And the names of what it requires."""
    if lines[0].endswith(") {"):
        return {}, set()
    end = next(i for i, line in enumerate(lines) if line.strip() in ("{", "{}") or line.endswith("};"))
    head = lines[: end + (1 if lines[end].endswith("};") else 0)]
    required = {found[2] or found[1] for found in map(CLAUSE.match, head) if found and found[1]}
    return lines_of_parts(head, CLAUSE, lambda line: False), required


def ghosts(lines):
    """The lines of each ghost item of a trait or an impl."""
    return lines_of_parts(lines, GHOST, lambda line: line.endswith("};"))


def lines_of_contract(path, name):
    """The lines of each clause of what a cell names, and the names of what it requires: a function, `TYPE::FUNCTION`, a trait, a
    type or a constant."""
    kind, _, function = name.rpartition("::")
    if kind:
        lines = item(path, rf"(?:impl(?:<.*?>)? |pub trait ){kind}\b(?!.* for )")
        found = [i for i, line in enumerate(lines) if re.match(rf"\s+(?:pub )?fn {function}\b", line)]
        if len(found) != 1:
            raise KeyError(f"{len(found)} functions {name}")
        return clauses(lines[found[0] :])
    if function[0].isupper():
        lines = item(path, rf"(?:pub )?(?:struct|enum|trait|const) {function}\b")
        return (ghosts(lines) if "trait" in lines[0] else {"": list(enumerate(lines))}), set()
    return clauses(item(path, rf"pub (?:extern \"C\" )?fn {function}\b"))


def selected(parts, text, fields={}):
    """The lines of what a cell names: all, all but some, or some, which may be fields."""
    named = [line for name in NAMES.findall(text.split(":")[0]) for line in (parts | fields)[name]]
    left_out = not named or text.startswith("all but")
    return [line for lines in parts.values() for line in lines if line not in named] if left_out else named


def selected_of_contract(path, name, text):
    """The same of a contract. What a call requires must be named, as part or as left out."""
    parts, required = lines_of_contract(path, name)
    named = NAMES.findall(text.split(":")[0])
    if named and not text.startswith("all but") and not required <= set(named):
        raise KeyError(f"{name} requires {', '.join(sorted(required - set(named)))}")
    return selected(parts, text)


def lines_of_row(crate, cells):
    """The lines of a row of a table: a file of definitions and which of them, or a source, what of it, and which clauses."""
    name, link = re.match(r"\[?`([^`]+)`(?:\]\(\.\./([^)]+))?", cells[0]).groups()
    if link is None:
        return selected(lines_of_definitions(TOP / f"crates/{crate}/specs/{name}")[0], "")
    if link.endswith(".antt"):
        parts, fields = lines_of_definitions(TOP / link)
        return selected(parts, cells[1], fields)
    if " for " in cells[1]:
        trait, kind = NAMES.findall(cells[1])
        return selected(ghosts(item(TOP / link, rf"impl\b.*\b{trait}\b.* for {kind}\b")), cells[2])
    return [line for each in NAMES.findall(cells[1]) for line in selected_of_contract(TOP / link, each, cells[2])]


def defined_in(cells):
    """The file of definitions that a row names, and the names that are to be read there, or `None`."""
    link = re.match(r"\[`[^`]+`\]\(\.\./([^)]+\.antt)", cells[0])
    if link is None:
        return None
    names = {name for name in lines_of_definitions(TOP / link[1])[0] if name}
    named = set(NAMES.findall(cells[1].split(":")[0]))
    return link[1], names - named if not named or cells[1].startswith("all but") else names & named


def with_those_below(crate):
    """A crate and those that it is built over."""
    uses = dict(re.findall(r"^(\w+)[^:\n]*:([^#\n]*)", read("crates.txt"), re.MULTILINE))
    found, left = set(), [crate]
    while left:
        name = left.pop()
        if name not in found:
            found.add(name)
            left += uses.get(name, "").split()
    return found


def rows_of(text):
    """The cells of each row of the tables whose first cell is a file."""
    return [[cell.strip() for cell in line.split("|")[1:-1]] for line in text.splitlines() if line.startswith("| [`")]


def wrong_imports(text):
    """A message for each file of the tables that has a listed name from another file than the one in which it is listed, unless
    it can't have it from there.
    """
    rows = rows_of(text)
    listed = {name: path for path, names in filter(None, map(defined_in, rows)) for name in names}
    sources = {link for cells in rows for link in re.findall(r"\]\(\.\./([^)]+\.(?:antt|rt))\)", cells[0])}
    found = []
    for path in sorted(sources):
        seen = with_those_below(path.split("/")[1])
        for crate, module, names in IMPORT.findall(read(path)):
            source = f"crates/{crate}/specs/{module.replace('.', '/')}.antt"
            for name in names.split(", "):
                original, _, alias = name.partition(" as ")
                wanted = listed.get(alias or original, source)
                is_other = wanted != source and wanted.split("/")[1] in seen and not module.startswith("declared.")
                if is_other or (alias in listed and alias != original):
                    found.append(f"{path}: {name} is of {source}, and docs/BELIEVE.md lists that of {wanted}")
    return found


def names_of(path):
    """What a word means in a file: the file of the crates, and the name in it, of each name that it imports or defines."""
    meanings = {}
    if path.endswith(".antt"):
        meanings = {name: (path, name) for name in lines_of_definitions(TOP / path)[0] if name}
    for crate, module, names in IMPORT.findall(read(path)):
        for name in names.split(", "):
            original, _, alias = name.partition(" as ")
            source = f"crates/{crate}/specs/{module.replace('.', '/')}.antt"
            if module.startswith("declared."):
                *folders, original = module.removesuffix(".TheVariants").split(".")[1:]
                source = f"crates/{crate}/src/{'/'.join(folders)}.rt"
            meanings[alias or name] = (source, original)
    return {name.strip("◌"): (source, original) for name, (source, original) in meanings.items()}


def unlisted(text):
    """A message for each name that a listed line of docs/BELIEVE.md uses and that isn't listed: a definition, a struct or an enum,
    or a ghost item, as `spent` of `N.spent`. One of the toolchain must be named on the page. A row names those that may be any
    function after `: any`."""
    listed, uses, ghost_names = set(), [], set()
    for cells in rows_of(text):
        if not cells[-1].isdigit():
            continue
        link = re.match(r"\[`[^`]+`\]\(\.\./([^)]+)\)", cells[0])[1]
        lines = [line for _, line in lines_of_row(None, cells)]
        uses.append((link, cells[1], lines))
        listed |= {(link, name) for name in (defined_in(cells) or (link, NAMES.findall(cells[1])))[1]}
        listed |= {(link, name) for name in NAMES.findall(cells[1].partition(": any")[2])}
        ghost_names |= {found[1] for found in map(GHOST.match, lines) if found}
    found = []
    for link, what, lines in uses:
        meanings = names_of(link)
        for word in sorted(set(USED.findall(" ".join(lines)))):
            source, name = meanings.get(word, (link, ""))
            is_of_kit = not (TOP / "crates" / source.split("/")[1]).exists()
            is_named = is_of_kit and re.search(rf"(?<!\w){word}(?!\w)", text)
            if name and not is_named and (source, name) not in listed:
                found.append(f"docs/BELIEVE.md: {link}: {what}: uses {name} of {source}, which isn't listed")
        for name in sorted(set(GHOST_OF.findall(" ".join(lines))) - ghost_names if link.endswith(".rt") else ()):
            found.append(f"docs/BELIEVE.md: {link}: {what}: uses the ghost item {name}, which isn't listed")
    return found


def rows_with_lines(text):
    """Each row of the tables whose last column has numbers of lines: where it starts in the text, the row, and its cells."""
    start, inside = 0, False
    for line in text.splitlines(keepends=True):
        cells = [cell.strip() for cell in line.split("|")[1:-1]]
        inside = bool(cells) and (inside or cells[-1] == "Lines")
        if inside and cells[-1] not in ("Lines", "---"):
            yield start, line, cells
        start += len(line)


def compared_rows(document, text):
    """The lines of each row, by where it starts, and what is wrong with the rows."""
    counts, found = {}, []
    for start, line, cells in rows_with_lines(text):
        row = f"{line_of(document, text, start)}: {' '.join(cells[:-1])}"
        try:
            counts[start] = len(lines_of_row(TABLES[document], cells))
        except (KeyError, OSError) as error:
            found.append(Fault(f"{row}: {error}"))
            continue
        if cells[-1] != str(counts[start]):
            end = start + line.rindex("|")
            message = f"{row}: {cells[-1] or 'no'} lines, and the source has {counts[start]}"
            found.append(Fault(message, document, text.rindex("|", start, end) + 1, end, f" {counts[start]} "))
    return counts, found


def compared_sums(document, text, shown, counts):
    """The number of sums of lines in a document, each of the rows between its mark and the next, and what is wrong with them."""
    marks, found = [mark for mark in MARK.finditer(shown) if mark[1] == LINES], []
    bounds = [*(mark.start() for mark in marks), len(text)]
    if any(start < bounds[0] for start in counts) or (document in TABLES and not marks):
        found.append(Fault(f"{document}: no mark <!-- fact: {LINES} --> above its tables of lines"))
    for mark, end in zip(marks, bounds[1:]):
        below = [count for start, count in counts.items() if mark.start() < start < end]
        if below:
            found += compare(document, text, mark, sum(below), "the tables below it")
        else:
            found.append(Fault(f"{line_of(document, text, mark.start())}: no table of lines below {mark[0].strip()}"))
    return len(marks), found


def compared(texts, shown):
    """The number of rows and sums that were compared, and what is wrong. `shown` has the texts without their code."""
    compared, found = 0, []
    for document in sorted({*texts, *TABLES}):
        text = texts.get(document, "")
        counts, wrong_rows = compared_rows(document, text) if document in TABLES else ({}, [])
        sums, wrong_sums = compared_sums(document, text, shown.get(document, ""), counts)
        compared += len(counts) + sums
        found += wrong_rows + wrong_sums
    for check in (wrong_imports, unlisted):
        try:
            found += map(Fault, check(texts["docs/BELIEVE.md"]))
        except (KeyError, OSError) as error:
            found.append(Fault(f"docs/BELIEVE.md: {check.__name__}: {error}"))
    return compared, found
