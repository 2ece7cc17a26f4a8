"""What a check refuses, by what `rattle check` prints, and where the first line of an edit says that it is refused."""

import re
import typing

FUNCTION = re.compile(r"^fn (\S+): (.*)$", re.M)
GOALS = re.compile(r"`search` did not prove ((?:`[^`]+`(?:, | and )?)+)")
ERROR = re.compile(r"^(?:\./)?proofs/(\S+)/(Answers|Invariants|Proof)\.antt:\d+:\d+: error: (.*)$", re.M)
# An error that only follows from another one: of a callee, whose theorem isn't there, or above in the same file.
FOLLOWS = re.compile(r"\bwhich (?:was|were) (?:not admitted|rejected)\b")
# An error that only says that a proof names what the edit took away.
NAMES = re.compile(r"has no field|is not in scope|has no `")
# A text of a source, of a definition or of the edited file that can't be read, so that nothing was tried.
UNREAD = re.compile(r"^(?:\./)?(\S+?):(\d+):\d+: error: (?:(`[^`]*`): )?(.*)$", re.M)
UNKNOWN = re.compile(r"is not in scope|has no field|is no name|operand is missing|expected the end|cannot continue")
KINDS = {"Answers": "answer", "Invariants": "answer", "Proof": "proof by hand"}


class Refusal(typing.NamedTuple):
    """A goal that is refused: a `goal` without a proof, or what an `answer` or a `proof by hand` is to prove."""

    kind: str
    goal: str

    def __str__(self):
        return f"in the {self.kind} {self.goal}" if self.kind != "goal" else f"at {self.goal}"


class Check:
    """What a check said: `proved`, `refused`, or neither if it has no verdict."""

    def __init__(self, status, printed):
        self.printed = printed
        self.lines = printed.rstrip("\n").split("\n")
        self.is_proved = status == 0 and self.lines[-1].startswith("logic=proved ")
        self.is_refused = status == 1 and self.lines[-1].startswith("logic=not-proved")
        self.functions = dict(FUNCTION.findall(printed))

    def of(self, name):
        """The goals of a function, and of its closures, that are refused for its own body: none of those that are open since
        something else is refused, and none of a proof that only names what isn't there any more."""
        if self.functions.get(name, "proved").startswith("proved"):
            return []
        module, function = split(name)
        closures = f"{module}::fn::{function}::"
        goals = [it for other in self.functions if other == name or other.startswith(closures) for it in self.open_goals(other)]
        folder = name.partition("::")[2].replace("::", "/")
        return [refusal for path, refusal in self.errors() if path == folder] + goals

    def of_each(self, names):
        """The goals of these functions that are refused for their own bodies."""
        return [refusal for name in names for refusal in self.of(name)]

    def open_goals(self, name):
        found = GOALS.search(self.functions[name])
        return [Refusal("goal", it) for it in re.findall(r"`([^`]+)`", found[1])] if found else []

    def errors(self):
        """The errors in proofs that follow from no other, each with the function's folder."""
        for path, file, said in ERROR.findall(self.printed):
            if not FOLLOWS.search(said) and not NAMES.search(said):
                goal = re.match(r"`([^`]+)`", said)
                yield path, Refusal(KINDS[file], goal[1] if goal else said[:100])

    def all(self):
        """All goals that are refused and follow from no other."""
        return [it for _, it in self.errors()] + [it for name in self.functions for it in self.open_goals(name)]

    def first(self):
        """The first line that says what is refused and follows from nothing else, or `None`."""
        told = (it for it in self.lines if re.match(r"note: \S+:\d+:\d+:|\S+:\d+:\d+: error", it))
        return next((it[:160] for it in told if not FOLLOWS.search(it) and not (NAMES.search(it) and "proofs/" in it)), None)

    def error(self):
        """The first line with an error."""
        return next((it for it in self.lines if ": error" in it), self.lines[0])[:160]

    def only_lacks_names(self):
        """Whether the errors in proofs that follow from no other all say that a name isn't there."""
        said = [it[2] for it in ERROR.findall(self.printed) if not FOLLOWS.search(it[2])]
        return bool(said) and all(NAMES.search(it) for it in said)

    def unread(self, changed):
        """The first line that says of these files, or of a source or a definition, that it can't be read."""
        for it in UNREAD.finditer(self.printed):
            path, _, subject, said = it.groups()
            is_here = path in changed or path.startswith(("src/", "specs/"))
            if is_here and (not subject or UNKNOWN.search(re.sub(r"`[^`]*`", "", said))):
                return it[0][:160]
        return None

    def errors_at(self):
        """Each place of a source that has an error: the file and the line."""
        return {(it[1], int(it[2])) for it in re.finditer(r"^(?:\./)?(src/\S+?):(\d+):\d+: error", self.printed, re.M)}


def split(name):
    """The module of a function, and its name below."""
    start, _, last = name.rpartition("::")
    above, _, segment = start.rpartition("::")
    is_type = segment[:1].isupper() and above
    return (above, f"{segment}::{last}") if is_type else (start, last)


# Where the first line of an edit says that it is refused.

NAME = r"(?!(?:and|at|both|by|for|in|is|of|that|the|then|what|which|whose)\b)\w+"
# What is said of a loop's invariant is said of no goal of the clause.
PLACE = r"(answers? (?:of|for) |at |(?<!invariant of ))"
MENTION = re.compile(rf"{PLACE}(?:the |both |its )*\bclauses? ({NAME}(?:(?:, and |, | and ){NAME})*)")
SUFFIXES = {"-in_answer": "answer", "-at_loop": "answer", "-by_hand": "proof by hand"}


def named(name, comment):
    """Where an edit's name and its first line say that it is refused: kinds of refusals with clauses. Either may be empty."""
    found = [(next((kind for suffix, kind in SUFFIXES.items() if name.endswith(suffix)), "goal"), "")]
    for part in re.split(r"[;:] ", comment):
        if part.startswith("before them") or part.startswith("violates") and not part.endswith("goals are refused"):
            continue
        if "by hand" in part and "refused" in part:
            found.append(("proof by hand", ""))
        for place, clauses in MENTION.findall(part):
            kind = "answer" if place.startswith("answer") else "goal" if place else ""
            found += [(kind, it) for it in re.split(r", and |, | and ", clauses)]
    return found


def is_there(kind, clause, refusals):
    """Whether something of this kind, and of this clause, is among what is refused. Where a function has one clause, no goal names
    it."""

    def is_of_clause(goal):
        return f"-clause-{clause}-" in f"-{goal}-" or "-clause-" not in goal and goal.startswith("returns")

    return any(kind in ("", it.kind) and (not clause or is_of_clause(it.goal)) for it in refusals)
