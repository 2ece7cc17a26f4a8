"""A source of Rattle as Rust: what is deleted, what is left out, and the texts that are replaced."""

import collections
import contextlib
import re

import contracts
import definitions
import lists
from items import CLAUSES, clause_end, function, items, text_of_function
from levels import owner_of
from tokens import OPEN, TRIVIA, Fault, group_end, is_at, last_of, made, next_of, parts, text_of, tokens, words_of


class Source:
    """A source file, while it is written as Rust."""

    def __init__(self, crate, path, text):
        self.crate, self.path = crate, path
        self.tokens = tokens(text)
        self.counts = collections.Counter()
        self.used = set()
        # What comes after the items, such as the jobs of entries.
        self.after = []

    def fault(self, line, why):
        return Fault(f"crates/{self.crate}/src/{self.path.split('/', 1)[1]}:{line}: {why}")

    def count(self, name):
        assert name in lists.DELETED, name
        self.counts[name] += 1


def kept_lead(lead):
    """Returns what stays of the comments before an item that is deleted: those of the file, and those with a blank line after
    them, which speak of what follows."""
    end = max((at + 1 for at, token in enumerate(lead) if token.text.startswith("//!")), default=0)
    for at, token in enumerate(lead):
        if at >= end and token.kind == "space" and token.text.count("\n") > 1 and any(it.kind == "comment" for it in lead[end:at]):
            end = at + 1
    return lead[:end]


def attributes(source, lead):
    """Returns the comments and attributes before an item, without tactics and `Drop`."""
    kept, at = [], 0
    while at < len(lead):
        if lead[at].text != "#":
            kept.append(lead[at])
            at += 1
            continue
        end = group_end(lead, at + 1)
        written = attribute(source, lead[at:end])
        kept += written
        # Without the attribute, its line is none.
        at = end if written else end + (end < len(lead) and lead[end].kind == "space")
    return kept


def attribute(source, tokens):
    name, line = tokens[2].text, tokens[0].line
    if name == "tactic":
        source.count("tactic")
        return []
    if name == "derive":
        derived = [text_of(part).strip() for part in parts(tokens[4:-2])]
        if "Drop" in derived:
            source.count("derived Drop")
        derived = [it for it in derived if it not in ("Drop", "Error")]
        return made(f"#[derive({', '.join(derived)})]", line) if derived else []
    if name == "inline":
        return tokens
    if name in ("repr", "must_use"):
        return tokens
    raise source.fault(line, f"the attribute `{name}` is in no list")


def without_bounds(source, tokens):
    """Returns generics or the head of a trait without `Drop` as a bound."""
    text, count = re.subn(r"\s*\+ Drop\b|\bDrop \+ |: Drop\b", "", text_of(tokens))
    source.counts["Drop bound"] += count
    return made(text, tokens[0].line if tokens else 0)


def where_bounds(source, tokens):
    """Returns a `where` without `Drop` as a bound, or nothing if no bound is left."""
    kept = [text_of(without_bounds(source, part)) for part in parts(tokens[1:])]
    kept = [part for part in kept if ":" in part]
    return made(f"where {','.join(kept)}", tokens[0].line) if kept else []


def is_ghost_field(part):
    words = [token.text for token in part if token.kind == "word"]
    return words[:1] == ["ghost"] or words[:2] == ["pub", "ghost"]


def fields(body):
    """Returns the fields of a struct without those that are ghosts."""
    kept = [text_of(part) for part in parts(body[1:-1]) if not is_ghost_field(part)]
    return made("{" + ",".join(kept) + ("," if kept else "") + "\n}", body[0].line)


def replaced(source, tokens):
    """Returns the tokens with each text of `REPLACED` replaced that is for this file or for all."""
    for number, it in enumerate(lists.REPLACED):
        if it.file in ("*", source.path):
            tokens, count = replaced_text(tokens, it.old, it.new)
            if count:
                source.used.add(number)
            if it.file != "*" and count > it.times:
                raise source.fault(0, f"`{it.old}` stands more than once")
    return shuffles(arrays(tokens))


def replaced_text(tokens, old, new):
    wanted = [token.text for token in made(old) if token.kind not in TRIVIA]
    found, at, count = [], 0, 0
    while at < len(tokens):
        end = matched(tokens, at, wanted)
        if end:
            found += made(new, tokens[at].line)
            count += 1
            at = end
        else:
            found.append(tokens[at])
            at += 1
    return found, count


def matched(tokens, at, wanted):
    """Returns the index after the wanted texts, if they stand from `at` on."""
    if tokens[at].text != wanted[0]:
        return None
    for text in wanted:
        at = next_of(tokens, at)
        if at == len(tokens) or tokens[at].text != text:
            return None
        at += 1
    return at


def receiver_start(tokens, at):
    """Returns the index at which the expression begins whose method is called by the dot at `at`."""
    start, at = at, last_of(tokens, at - 1)
    while True:
        if tokens[at].text in (")", "]"):
            depth = 0
            while True:
                depth += (tokens[at].text in ")]}") - (tokens[at].text in OPEN)
                if depth == 0:
                    break
                at -= 1
        start = at
        before = last_of(tokens, at - 1)
        if tokens[at].text in ("(", "[") and tokens[before].kind == "word":
            at = before
        elif tokens[before].text in (".", "::"):
            at = last_of(tokens, before - 1)
        else:
            return start


def arrays(tokens):
    """Returns the tokens with `X.as_array::<N>()`, which Rust 1.85 doesn't have, as a call of `simd`."""
    names = {"as_array": "array_of", "as_mut_array": "array_of_mut"}
    found = next((at for at, token in enumerate(tokens) if token.text in names and tokens[at - 1].text == "."), None)
    if found is None:
        return tokens
    at = found + 1
    generics = ""
    if tokens[at].text == "::":
        generics = f"::<_, {tokens[at + 2].text}>"
        at += 4
    start = receiver_start(tokens, found - 1)
    call = made(f"simd::{names[tokens[found].text]}{generics}({text_of(tokens[start : found - 1])})", tokens[start].line)
    return arrays(tokens[:start] + call + tokens[group_end(tokens, at) :])


def shuffles(tokens):
    """Returns the tokens with the places of each shuffle as a constant expression, which the compiler computes once."""
    found = next((at for at, token in enumerate(tokens) if token.text == "shuffle" and tokens[at - 1].text == "."), None)
    if found is None:
        return tokens
    end = group_end(tokens, found + 1)
    other, places = parts(tokens[found + 2 : end - 1])
    call = made(f"SHUFFLE({text_of(other)}, const {{ simd::Places::new({text_of(places).strip()}) }})", tokens[found].line)
    rest = shuffles([*tokens[:found], *call, *tokens[end:]])
    return [token._replace(text="shuffle") if token.text == "SHUFFLE" else token for token in rest]


def growing(source, tokens):
    """Returns the tokens with the calls of a `Vec` that may fail, where the crate has an allocator."""
    if source.crate not in lists.WITH_STD:
        return tokens
    return [
        token._replace(text=lists.GROWING[token.text]) if token.text in lists.GROWING and at and tokens[at - 1].text == "." else token
        for at, token in enumerate(tokens)
    ]


def is_allocator(tokens, at):
    """Returns whether the argument `alloc` of a call is at `at`."""
    return tokens[at].text == "alloc" and tokens[last_of(tokens, at - 1)].text in "(," and tokens[next_of(tokens, at + 1)].text in "),"


def is_unused_label(tokens, at):
    """Returns whether the label of a loop is at `at`, by which nothing leaves the loop."""
    label = tokens[at].text
    return label.startswith("'") and tokens[at + 1].text == ":" and sum(token.text == label for token in tokens) == 1


def executed(source, body):
    """Returns a body without the calls of laws, the clauses of closures, labels that nothing uses, and allocators as arguments."""
    names = {name for path, name in lists.LAWS if path.split("/")[0] == source.crate}
    kept, at = [], 0
    while at < len(body):
        if body[at].text in names and body[at + 1].text == "(":
            source.count("law")
            at = group_end(body, at + 1) + 1
        elif body[at].text in CLAUSES and body[at].kind == "word":
            source.count("clause")
            at = next_of(body, clause_end(body, at)[1])
        elif is_unused_label(body, at):
            source.count("label")
            at = next_of(body, at + 2)
        elif is_allocator(body, at):
            source.count("allocator")
            after = next_of(body, at + 1)
            at = next_of(body, after + 1) if body[after].text == "," else after
        else:
            kept.append(body[at])
            at += 1
    return kept


def parameter_name(parameter):
    names = [token.text for token in parameter if token.kind == "word" and token.text not in ("mut", "ref")]
    return names[0]


def parameters(source, it):
    """Returns the parameters of a function, with an underscore before those that clauses alone read."""
    kept = []
    for parameter in parts(it.parameters):
        name = parameter_name(parameter)
        if name == "alloc":
            source.count("allocator")
            continue
        if it.body[0].text == "{" and name != "self" and not name.startswith("_"):
            key = (source.path, it.name, name)
            is_read = name in words_of(it.body)
            if is_read == (key in lists.UNDERSCORED):
                raise source.fault(it.before[-1].line, f"the parameter `{name}` of `{it.name}` is {'read' if is_read else 'not read'}")
            if not is_read:
                source.used.add(key)
                first = next(at for at, token in enumerate(parameter) if token.text == name)
                parameter = [*parameter[:first], *made("_" + name), *parameter[first + 1 :]]
        kept.append(text_of(parameter))
    return made(",".join(kept), it.before[-1].line)


def has_attribute(lead, name):
    return any(lead[at].text == "#" and lead[at + 2].text == name for at in range(len(lead) - 2))


def is_inlined(path):
    return any(path.startswith(file) for file in lists.INLINED)


def inlined(source, item):
    """Returns what is before a function that jobs reach, with `#[inline(always)]`."""
    lead = attributes(source, item.lead)
    if item.tokens[-1].text == ";" or not is_inlined(source.path):
        return lead
    text = text_of(lead)
    if "#[inline(never)]" in text:
        key = (source.path, item.name)
        if key not in lists.INLINED_AFTER_ALL:
            return lead
        source.used.add(key)
    text = re.sub(r"#\[inline\(\w+\)\]\s*", "", text)
    return made(text.rstrip(" ") + "#[inline(always)]\n", item.line)


def head_of(item):
    """Returns what names an item in the lists."""
    if item.kind == "use":
        return text_of(item.tokens[:-1])
    return text_of(item.tokens[: item.body_start()]).strip() if item.kind == "impl" else f"{item.kind} {item.name}"


def before_item(text, added):
    """Returns the text of an item with an attribute before it, after its comments, or with other items before these."""
    lines = text.splitlines(keepends=True)
    passed = ("//",) if re.fullmatch(r"#\[.*\]", added) else ("//!",)
    at = next(at for at, line in enumerate(lines) if line.strip() and not line.lstrip().startswith(passed))
    return "".join([*lines[:at], added + "\n", *lines[at:]])


def inside(item):
    """Returns the items of a block."""
    return items(item.tokens[item.body_start() + 1 : -1])[0]


def is_model(item):
    return item.kind == "impl" and "Model" in words_of(item.tokens[: item.body_start()])


def is_law(item):
    """Returns whether a ghost item of a trait is a fact, of which each `impl` gives a proof: its type names its arguments."""
    return is_at(definitions.between_braces(item.tokens), 1, "(")


def ghosts(found):
    return [item for item in found if item.kind == "ghost" and item.name != "use"]


def ghosts_of_traits(sources):
    """Returns the names of the ghost items of traits, each with whether it is a law."""
    traits = [item for source in sources for item in items(source.tokens)[0] if item.kind == "trait"]
    return {item.name: is_law(item) for trait in traits for item in ghosts(inside(trait))}


class Writer:
    """Writes the items of a source as Rust. `ghosts` are the ghost items of the traits of this crate and of those below it."""

    def __init__(self, source, leveler, pages, ghosts):
        self.source, self.leveler, self.pages, self.ghosts_of_traits = source, leveler, pages, ghosts
        # The imports of the file and of the block that give names to definitions.
        self.imports = collections.ChainMap()
        # The models of the types that are still to come.
        self.models = {}

    def file(self):
        found, rest = items(self.source.tokens)
        self.models = {owner_of(item.tokens): item for item in found if is_model(item)}
        with self.importing(found):
            text = self.items(found, "file") + text_of(rest)
        for name, item in self.models.items():
            raise self.source.fault(item.line, f"the file of the model of `{name}` doesn't have the type")
        return text

    def items(self, found, place):
        return "".join(self.item(item, place) for item in found)

    @contextlib.contextmanager
    def importing(self, found):
        """Adds what the items of a file or of a block import of definitions, while they are written."""
        self.imports = self.imports.new_child()
        for item in found:
            if item.kind == "ghost" and item.name == "use":
                self.imports.update(definitions.imported(text_of(item.tokens)))
        yield
        self.imports = self.imports.parents

    def documented(self, lead, title, shown, logic, arguments=()):
        """Returns what is before an item, with lines of logic in the doc comment, and links to the definitions that it cites."""
        imports = {name: it for name, it in self.imports.items() if name not in arguments}
        cited = dict(found for tokens in logic for found in definitions.cited(definitions.between_braces(tokens), imports))
        return contracts.documented(lead, title, shown, self.pages.links(self.source.crate, cited.items()))

    def with_ghosts(self, lead, title, found, is_shown=True):
        """Returns what is before an item with these ghost items, which contracts cite: in the doc comment, if a page shows the
        item."""
        if not found:
            return lead
        shown = [line for item in found for line in contracts.ghost_of(item, lists.STD_ITEMS.get(item.name))]
        if not is_shown:
            return contracts.commented(lead, [f"{title}:", *shown])
        return self.documented(lead, title, shown, [item.tokens for item in found])

    def is_left_out(self, item):
        key = (self.source.path, head_of(item))
        if key in lists.LEFT_OUT_ITEMS:
            self.source.used.add(key)
            return True
        if item.kind == "mod":
            folder = self.source.path.removesuffix(".rt").removesuffix("/lib")
            file = f"{folder}/{item.name}.rt"
            return file in lists.LEFT_OUT_FILES and item.tokens[-1].text == ";"
        return item.kind == "fn" and (key[0], item.name) in lists.LAWS

    def item(self, item, place):
        if self.is_left_out(item):
            self.models.pop(item.name, None)
            return text_of(kept_lead(item.lead))
        text = getattr(self, item.kind)(item, place)
        key = (self.source.path, head_of(item))
        if key in lists.ADDED:
            self.source.used.add(key)
            text = before_item(text, lists.ADDED[key].what)
        return text

    def attribute(self, item, place):
        if item.name != "tactic":
            raise self.source.fault(item.line, f"the attribute `{item.name}` is in no list")
        self.source.count("tactic")
        return text_of(kept_lead(item.lead))

    def ghost(self, item, place):
        self.source.count("ghost import" if item.name == "use" else "ghost item")
        return text_of(kept_lead(item.lead))

    def use(self, item, place):
        if any(token.text == "ghost" for token in item.tokens):
            return self.ghost(item, place)
        tokens = self.imported(item)
        if not tokens:
            return text_of(kept_lead(item.lead))
        text = text_of(tokens).replace("std::simd::", "simd::").replace("std::alloc::", "deerlapse::memory::")
        return text_of(item.lead) + (text if self.source.crate in lists.WITH_STD else re.sub(r"\bstd::", "core::", text))

    def imported(self, item):
        """Returns the tokens of an import without the names that nothing uses any more, or nothing if no other is left."""
        path = text_of([token for token in item.tokens if token.kind not in TRIVIA]).removeprefix("use").removesuffix(";")
        if path in lists.DROPPED_IMPORTS and not (self.source.crate in lists.WITH_STD and path == "std::alloc::AllocError"):
            self.source.used.add(path)
            return []
        brace = next((at for at, token in enumerate(item.tokens) if token.text == "{"), None)
        names = parts(item.tokens[brace + 1 : group_end(item.tokens, brace) - 1]) if brace else [item.tokens[-2:-1]]
        kept = [text_of(name).strip() for name in names if not self.is_dropped(text_of(name).strip())]
        if len(kept) == len(names):
            return item.tokens
        return item.tokens[:brace] + made(f"{{{', '.join(kept)}}};", item.line) if kept else []

    def is_dropped(self, name):
        key = (self.source.path, name)
        if key in lists.DROPPED_NAMES:
            self.source.used.add(key)
        return key in lists.DROPPED_NAMES

    def plain(self, item, place):
        return text_of(attributes(self.source, item.lead)) + text_of(self.rewritten(item.tokens))

    const = static = type = plain

    def mod(self, item, place):
        if item.tokens[-1].text == ";":
            return self.plain(item, place)
        return self.block(item, place)

    def struct(self, item, place):
        tokens = item.tokens
        lead = self.with_model(text_of(attributes(self.source, item.lead)), item)
        if tokens[-1].text == "}":
            at = item.body_start()
            lead = self.with_invariant(lead, item)
            tokens = without_bounds(self.source, tokens[:at]) + fields(tokens[at:])
        tokens = self.leveler.struct(self.source, item.name, tokens)
        return lead + text_of(self.rewritten(tokens)) + self.wiped(item)

    def with_model(self, lead, item):
        """Returns what is before a type, with the model by which contracts see its values, if it has one."""
        if item.name not in self.models:
            return lead
        found = inside(self.models.pop(item.name))
        shown = [ghost for ghost in ghosts(found) if not self.is_proof_of_model(ghost)]
        with self.importing(found):
            return self.with_ghosts(lead, "Model", shown, item.is_public)

    def is_proof_of_model(self, ghost):
        if ghost.name in lists.PROOFS_OF_MODEL:
            self.source.used.add(ghost.name)
            return True
        if ghost.name not in lists.SHOWN_OF_MODEL:
            raise self.source.fault(ghost.line, f"`{ghost.name}` of a model is in no list")
        return False

    def with_invariant(self, lead, item):
        """Returns what is before a struct, with what holds of its fields, as its ghost fields say."""
        found = [part[next_of(part, 0) :] for part in parts(item.tokens[item.body_start() + 1 : -1]) if is_ghost_field(part)]
        if not found:
            return lead
        self.source.counts["ghost field"] += len(found)
        shown = [line for part in found for line in contracts.lines_of(part, len("    "))]
        if not item.is_public:
            return contracts.commented(lead, ["Invariant:", *shown])
        return self.documented(lead, "Invariant", shown, found)

    def wiped(self, item):
        """Returns the `Drop` that overwrites a key, if the type is one of `WIPED`."""
        fields = lists.WIPED.get(self.source.path, {}).get(item.name)
        if not fields:
            return ""
        self.source.used.add((self.source.path, item.name))
        if item.kind == "enum":
            arms = " ".join(f"{item.name}::{field}(bytes) => simd::wipe(bytes)," for field in fields)
            body = f"match self {{ {arms} }}"
        else:
            body = " ".join(f"simd::wipe(&mut self.{field});" for field in fields)
        return f"\n\n/// Overwrites the secret fields with zeros.\nimpl Drop for {item.name} {{ fn drop(&mut self) {{ {body} }} }}"

    def enum(self, item, place):
        displayed = contracts.displayed(self.source, item)
        lead = text_of(attributes(self.source, item.lead))
        return lead + text_of(self.rewritten(displayed.tokens)) + displayed.impls + self.wiped(item)

    def trait(self, item, place):
        return self.block(item, "trait")

    def impl(self, item, place):
        if is_model(item):
            self.source.count("model")
            return text_of(kept_lead(item.lead))
        return self.block(item, "trait impl" if "for" in words_of(item.tokens[: item.body_start()]) else "impl")

    def block(self, item, place):
        at = item.body_start()
        head = without_bounds(self.source, self.rewritten(item.tokens[:at]))
        found, rest = items(item.tokens[at + 1 : -1])
        lead = text_of(attributes(self.source, item.lead))
        with self.importing(found), self.leveler.block(self.source, head) as leveled:
            body = self.items(found, place)
            if place in ("trait", "trait impl"):
                lead = self.with_ghosts(lead, "Ghost items", self.shown_ghosts(found, place))
        key = (self.source.path, head_of(item), "body")
        if key in lists.ADDED:
            self.source.used.add(key)
            body = f"\n{lists.ADDED[key].what}{body}"
        return f"{lead}{text_of(leveled.head)}{{{body}{text_of(rest)}}}{leveled.after}"

    def shown_ghosts(self, found, place):
        """Returns the ghost items of a trait, or those of an `impl` that aren't proofs."""
        found = ghosts(found)
        if place == "trait":
            return found
        for item in found:
            if item.name in lists.STD_ITEMS:
                self.source.used.add(item.name)
            elif item.name not in self.ghosts_of_traits:
                raise self.source.fault(item.line, f"the ghost item `{item.name}` is of no trait that is known")
        return [item for item in found if not self.ghosts_of_traits.get(item.name)]

    def fn(self, item, place):
        it = function(item.tokens)
        is_entry = self.leveler.is_entry(self.source, it.name)
        lead = text_of(attributes(self.source, item.lead) if is_entry else inlined(self.source, item))
        for clause in it.clauses:
            self.source.count("ghost parameter" if clause.kind == "ghost" else "clause")
        if it.clauses:
            lead = self.with_contract(lead, it, item.is_public or place in ("trait", "trait impl"))
        it.body = executed(self.source, it.body)
        if item.is_public and self.source.crate in lists.PROTOCOLS and any(clause.kind == "requires" for clause in it.clauses):
            lead = self.checked(lead, it)
        it.parameters = parameters(self.source, it)
        it.generics = without_bounds(self.source, it.generics)
        it.where = where_bounds(self.source, it.where)
        if is_entry:
            it.body = replaced(self.source, it.body)
            return lead + self.leveler.entry(self.source, it)
        if self.leveler.is_outlined(item, it):
            it.body = replaced(self.source, it.body)
            return lead.replace("inline(never)", "inline(always)") + self.leveler.outlined(self.source, it)
        it = self.leveler.function(self.source, it, place)
        return lead + text_of(self.rewritten(made(text_of_function(it), item.line)))

    def checked(self, lead, it):
        """Has a function check what it requires, and returns what is before it, with a section that says so."""
        key = (self.source.path, it.name)
        if key not in lists.CHECKED:
            raise self.source.fault(it.before[-1].line, f"nothing checks what `{it.name}` requires")
        self.source.used.add(key)
        if not lists.CHECKED[key]:
            return lead
        checks = " ".join(f'assert!({condition}, "{said.replace("`", "")}");' for condition, said in lists.CHECKED[key])
        it.body = [it.body[0], *made(f"\n{checks}\n", it.body[0].line), *it.body[1:]]
        return contracts.with_panics(lead, [said for _, said in lists.CHECKED[key]])

    def with_contract(self, lead, it, is_shown):
        """Returns what is before a function, with its contract, of which what holds when a loan ends comes last: in the doc
        comment, if a page shows the function."""
        clauses = sorted(it.clauses, key=lambda clause: clause.is_starred)
        shown = [line for clause in clauses for line in contracts.lines_of(clause.tokens, clause.indent)]
        if not is_shown:
            return contracts.commented(lead, shown)
        arguments = [parameter_name(parameter) for parameter in parts(it.parameters)]
        return self.documented(lead, "Contract", shown, [clause.tokens for clause in clauses], arguments)

    def rewritten(self, tokens):
        tokens = growing(self.source, replaced(self.source, tokens))
        if self.source.crate not in lists.WITH_STD:
            tokens = [token._replace(text="core") if token.text == "std" else token for token in tokens]
        return self.leveler.mentions(self.source, tokens)
