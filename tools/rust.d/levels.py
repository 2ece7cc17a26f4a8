"""The level of vectors as a type parameter, and the jobs that choose it.

Each type of vectors has the level as a parameter, `V`, and so has what computes with one. Only a job gets a level, from `simd`,
which has asked the processor: no other code can name one."""

import contextlib
import re
import types

import lists
from items import function, items, text_of_function
from tokens import angles_end, group_end, last_of, made, next_of, parts, text_of, tokens, words_of

LEVEL = "V: simd::Level"


class Leveler:
    """Knows the types and functions of a crate, and of those below it, that have the level as a parameter."""

    def __init__(self, types):
        self.types, self.functions, self.methods = set(types), {}, set()
        self.of_block = None

    def read(self, crate, sources):
        """Finds the types and functions of a crate that have the level as a parameter."""
        self.types |= lists.LEVELED_TYPES.get(crate, set())
        self.types |= {item.name for item, _, _ in each(sources) if item.kind == "struct" and self.has_vector(item)}
        found = [(owner, function(item.tokens), path) for item, owner, path in each(sources) if item.kind == "fn"]
        while self.grows(found):
            pass

    def has_vector(self, item):
        return bool(lists.VECTORS & words_of(item.tokens))

    def grows(self, found):
        """Adds each function that mentions what has the level. Returns whether there was one."""
        before = len(self.functions) + len(self.methods)
        for owner, it, path in found:
            if owner and self.types & words_of(owner) or it.name in entries_of(path, owner):
                continue
            if self.is_leveled(it.parameters + it.result + it.body):
                if owner:
                    self.methods.add(it.name)
                else:
                    self.functions[it.name] = not self.types & words_of(it.parameters)
        return len(self.functions) + len(self.methods) > before

    def is_leveled(self, tokens):
        return bool(self.types & words_of(tokens)) or any(self.called(tokens, at) is not None for at in range(len(tokens)))

    def called(self, tokens, at):
        """Returns whether the call at `at`, if one is there of what has the level, must name it."""
        if tokens[at].kind != "word" or at + 1 == len(tokens) or tokens[at + 1].text != "(":
            return None
        before = tokens[last_of(tokens, at - 1)].text
        if before == ".":
            return True if tokens[at].text in self.methods else None
        return None if before == "fn" else self.functions.get(tokens[at].text)

    def mentions(self, source, tokens):
        """Returns the tokens with the level wherever they mention what has one."""
        written, at = [], 0
        while at < len(tokens):
            token = tokens[at]
            written.append(token)
            at += 1
            if token.kind != "word":
                continue
            if token.text in self.types and tokens[last_of(tokens, at - 2)].text not in (".", "struct"):
                more, at = self.of_type(token, tokens, at)
                written += made(more, token.line)
            elif self.called(tokens, at - 1):
                written += made("::<V>", token.line)
        return written

    def of_type(self, token, tokens, at):
        """Returns what comes after the name of a type, and the index after what it replaces."""
        follows = tokens[at].text if at < len(tokens) else ""
        if follows == "::":
            return "::<V>", at
        if follows == "<":
            end = angles_end(tokens, at)
            return f"<{text_of(tokens[at + 1 : end - 1])}, V>", end
        literal = next_of(tokens, at)
        if literal < len(tokens) and tokens[literal].text == "{" and self.is_literal(tokens, literal):
            if token.text in lists.VECTORS or not self.is_marked(token.text):
                return "", at
            end = group_end(tokens, literal)
            inner = text_of(tokens[literal + 1 : end - 1]).rstrip().rstrip(",")
            return f" {{ {inner}, level: core::marker::PhantomData::<V> }}", end
        return "<V>", at

    def is_literal(self, tokens, at):
        """Returns whether the brace at `at` opens the fields of a value, and not the body of a function."""
        inner = [token.text for token in tokens[at + 1 :] if token.kind not in ("space", "comment")][:2]
        before = tokens[last_of(tokens, last_of(tokens, at - 1) - 1)].text
        return before != "->" and len(inner) > 1 and inner[1] in (":", ",", "}")

    def is_marked(self, name):
        return any(name in types for types in lists.LEVELED_TYPES.values())

    def struct(self, source, name, tokens):
        """Returns a struct with the level as a parameter, if it has one."""
        if name not in self.types:
            return tokens
        at = next(at for at, token in enumerate(tokens) if token.text == name)
        brace = next(at for at, token in enumerate(tokens) if token.text == "{")
        generics = text_of(tokens[at + 1 : brace]).strip().strip("<>")
        field = "level: core::marker::PhantomData<V>,\n" if self.is_marked(name) else ""
        head = f"{name}<{generics + ', ' if generics else ''}{LEVEL}> {{ {field}"
        return tokens[:at] + made(head, tokens[at].line) + tokens[brace + 1 :]

    @contextlib.contextmanager
    def block(self, source, head):
        """Returns the head of an `impl` with the level as a parameter, if it mentions what has one."""
        leveled = types.SimpleNamespace(head=head, after="", at=[], jobs=[], owner=owner_of(head), is_trait="for" in words_of(head))
        if "V" in words_of(head):
            leveled.head = with_level(head)
        before, self.of_block = self.of_block, leveled
        yield leveled
        self.of_block = before
        if leveled.at:
            leveled.after = f"\n\nimpl {leveled.owner} {{ {''.join(leveled.at)} }}"
        leveled.after += "".join(leveled.jobs)

    def function(self, source, it, place):
        """Returns a function with the level as a parameter, if it is one that needs it."""
        block = self.of_block
        if block and "V" in words_of(block.head):
            return it
        if (it.name in self.methods) if block else (it.name in self.functions):
            generics = text_of(it.generics)
            it.generics = made(f"{generics + ', ' if generics else ''}{LEVEL}")
        return it

    def is_entry(self, source, name):
        return self.of_block is not None and name in entries_of(source.path, self.of_block.head)

    def entry(self, source, it):
        """Returns a function that runs its body as a job, and the body. The job comes after the block, and so does a body that
        stood in the `impl` of a trait. A body that mentions nothing with the level doesn't have it as a parameter."""
        source.used.add((source.path, it.name))
        owner = self.of_block.owner
        job = owner + "".join(part.title() for part in it.name.split("_"))
        names = [name for name in (name_of(part) for part in parts(it.parameters)) if name != "self"]
        has_self = len(names) < len(parts(it.parameters))
        result = text_of(it.result).strip()
        body = text_of(self.mentions(source, it.body))
        takes, given = (f"<{LEVEL}>", "::<V>") if self.is_leveled(it.parameters + it.result + it.body) else ("", "")
        at_level = f"\n\n#[inline(always)]\nfn {it.name}_at{takes}({text_of(it.parameters)}) {result} {body}"
        self.of_block.jobs.append(job_of(owner, job, it, has_self, names, result, given))
        values = ", ".join((["key: self"] if has_self else []) + names)
        it.body = made(f"{{ simd::run({job} {{ {values} }}) }}")
        if self.of_block.is_trait:
            self.of_block.at.append(at_level)
            return text_of_function(it)
        return text_of_function(it) + at_level


    def is_outlined(self, item, it):
        """Returns whether a function that has the level is one that isn't to be inlined."""
        return it.name in self.functions and "#[inline(never)]" in text_of(item.lead)

    def outlined(self, source, it):
        """Returns a function of its own for the level, which `simd` calls: a struct of its parameters, whose call is the body."""
        name = "".join(part.title() for part in it.name.split("_"))
        it = self.function(source, it, "file")
        names = [name_of(part) for part in parts(it.parameters)]
        fields = [with_lifetime(" ".join(text_of(part).split())) for part in parts(self.mentions(source, it.parameters))]
        fields = [field.removeprefix("mut ") for field in fields]
        result, body = text_of(self.mentions(source, it.result)).strip(), text_of(self.mentions(source, it.body))
        output = result.removeprefix("->").strip() or "()"
        it.body = made(f"{{ V::outlined({name} {{ {', '.join(names)}, level: core::marker::PhantomData::<V> }}) }}")
        return (
            text_of(self.mentions(source, made(text_of_function(it))))
            + f"\n\n/// A call of `{it.name}`.\nstruct {name}<'a, {LEVEL}> {{ {', '.join(fields)}, level: core::marker::PhantomData<V> }}\n\n"
            f"impl<{LEVEL}> simd::Call for {name}<'_, V> {{ type Output = {output};\n\n#[inline(always)]\n"
            f"fn call(self) {result} {{ let {name} {{ {', '.join(names)}, .. }} = self; {body.strip()[1:-1]} }} }}"
        )


def with_lifetime(field):
    return re.sub(r"&(?!')", "&'a ", field.replace("'_", "'a"))


def each(sources):
    """Yields each function and struct of the sources that isn't left out, with the head of its `impl` and its file."""
    for source in sources:
        path = source.path
        for item in items(source.tokens)[0]:
            head = item.tokens[: item.body_start()] if item.kind == "impl" else made(f"{item.kind} {item.name}")
            if (path, text_of(head).strip()) in lists.LEFT_OUT_ITEMS or "Model" in words_of(head):
                continue
            if item.kind == "impl":
                yield from ((it, head, path) for it in items(item.tokens[item.body_start() + 1 : -1])[0])
            elif item.kind in ("fn", "struct"):
                yield item, None, path


def owner_of(head):
    """Returns the name of the type of an `impl`."""
    words = [token for token in head if token.kind in ("word", "mark")]
    at = next((at + 1 for at, token in enumerate(words) if token.text == "for"), 1)
    if words[at].text == "<":
        at = angles_end(words, at)
    return words[at].text


def entries_of(path, head):
    return lists.ENTRIES.get(path, {}).get(owner_of(head), ()) if head else ()


def with_level(head):
    """Returns the head of an `impl` or of a trait with the level among its parameters."""
    at = next(at for at, token in enumerate(head) if token.text == "impl") + 1
    if head[at].text == "<":
        end = angles_end(head, at)
        return [*head[: end - 1], *made(f", {LEVEL}"), *head[end - 1 :]]
    return [*head[:at], *made(f"<{LEVEL}>"), *head[at:]]


def name_of(parameter):
    return next(token.text for token in parameter if token.kind == "word" and token.text != "mut")


def job_of(owner, job, it, has_self, names, result, level):
    """Returns the job of an entry: its parameters as fields, and the call of its body at a level."""
    fields = []
    for part in parts(it.parameters):
        text = " ".join(text_of(part).split())
        if name_of(part) == "self":
            text = f"key: {'&mut ' if 'mut' in words_of(part) else '&'}{owner}"
        fields.append(with_lifetime(text))
    generics, place = ("<'a>", "<'_>") if any("'a" in field for field in fields) else ("", "")
    output = re.sub(r"\bSelf\b", owner, result.removeprefix("->").strip() or "()")
    called = f"self.key.{it.name}_at" if has_self else f"{owner}::{it.name}_at"
    values = ", ".join(f"self.{name}" for name in names)
    return (
        f"\n\n/// `{owner}::{it.name}` as a job.\nstruct {job}{generics} {{ {', '.join(fields)} }}\n\n"
        f"impl simd::Job for {job}{place} {{ type Output = {output};\n\n#[inline(always)]\n"
        f"fn run<{LEVEL}>(self){' -> ' + output if result else ''} {{ {called}{level}({values}){'' if result else ';'} }} }}"
    )
