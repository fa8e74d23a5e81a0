"""Puts calls, clauses and sentences together, and prints them as tables."""
from __future__ import annotations

import os
import re
from collections.abc import Iterator

from bodies.standing import GATE, MUTANTS, crates_of, names_in

from .calls import Call, Clause
from .crate import Crate
from .definitions import Specs, has_part
from .sentences import Sentence, read_sentences

# A clause of this name says that the answer is what the call's definition gives: that is said once, at the head of the tables.
VALUE = "value"

# A precondition that is longer isn't printed: the definitions that it names say what it is.
LONGEST_DEMAND = 60

HEAD = """\
`tools/proved` prints all below from the sources. A sentence is the comment that stands there above a call or above clauses, or above the
definition that is all of a clause; where there is none, or where more is to be said, it stands in `clauses.txt` beside this page. In the
first row of a call stand the clauses of which no sentence speaks alone: what they say is told by the call's sentence, or by the definition
that the clause names. A clause `value` says that the answer is the call's formula, in whole numbers. A sentence stands once: a later row
that says the same names the call that has it.

*Requires* is what a call demands of its caller: in words where the comment above the call has them, else as the contract has it. A definition
that stands there, or in the place of a long precondition, is told at the end of its crate. Crates stand in the order of `crates.txt`, and in
each the laws come last."""


class House:
    """All crates of a repository, and what is said of their clauses. `wrong` tells each sentence that can't stand, and why."""

    def __init__(self, root: str) -> None:
        self.root = root
        self.order = list(crates_of(root))
        folders = {name: os.path.join(root, "crates", name) for name in self.order}
        self.crates = {name: Crate(folder) for name, folder in folders.items()}
        self.specs = {name: Specs(folder) for name, folder in folders.items()}
        self.sentences, self.wrong = read_sentences(os.path.join(root, "docs", "clauses.txt"))
        self.of_call: dict[tuple[str, str, str], Sentence] = {}
        self.of_definition: dict[tuple[str, str], list[Sentence]] = {}
        self.homes: dict[str, tuple[str, str, str]] = {}
        self.places: dict[tuple[str, str, str], int] = {}
        for sentence in self.sentences:
            self.place(sentence)

    # Puts a sentence where it belongs, or tells why it can't stand.
    def place(self, sentence: Sentence) -> None:
        crate, thing = sentence.crate, sentence.thing
        calls = self.crates[crate].named(thing) if crate in self.crates else []
        if crate not in self.crates:
            self.wrong.append(f"{sentence.key()}: there is no such crate")
        elif calls:
            clauses = {clause.name for call in calls for clause in call.clauses}
            self.wrong += [f"{sentence.key()}: the call has no clause {name}" for name in sentence.names if name not in clauses]
            for name in sentence.names or ("",):
                if (crate, thing, name) in self.of_call:
                    self.wrong.append(f"{sentence.key()}: {name or 'the call'} has two sentences")
                self.of_call[crate, thing, name] = sentence
        elif thing in self.specs[crate].found:
            for name in sentence.names:
                if not has_part(self.specs, crate, thing, name):
                    self.wrong.append(f"{sentence.key()}: the definition has no {name}")
            self.of_definition.setdefault((crate, thing), []).append(sentence)
        else:
            self.wrong.append(f"{sentence.key()}: there is no such call or definition")

    def shown(self, crate: str) -> Iterator[tuple[str, Call]]:
        """The calls of a crate that are printed: those that callers see, and others of which a sentence speaks. Calls of one type or
        module stand together, and laws last."""
        known = self.crates[crate]
        calls = {name: calls for name, calls in known.public.items() if any(call.clauses for call in calls)}
        for sentence in self.sentences:
            if sentence.crate == crate and sentence.thing not in calls and sentence.thing in known.every:
                calls[sentence.thing] = known.named(sentence.thing)
        owners = [name.rpartition("::")[0] for name in calls]
        for name in sorted(calls, key=lambda name: (name.startswith("laws::"), owners.index(name.rpartition("::")[0]))):
            for call in calls[name]:
                yield name, call

    # What is said of a call, or of a clause: the comment that stands there, and then the sentence of the file. A comment above several
    # clauses is left out beside a clause that has a sentence. Of a clause that is no more than a definition the definition's comment
    # speaks, where none stands there.
    def call_says(self, crate: str, name: str, call: Call) -> str:
        given = self.of_call.get((crate, name, ""))
        return both(call.comment, given)

    def clause_says(self, crate: str, name: str, call: Call, clause: Clause) -> str:
        given = self.of_call.get((crate, name, clause.name)) if clause.name else None
        alone = sum(it.run == clause.run for it in call.clauses) == 1
        comment = "" if given and not alone else clause.comment
        if clause.name and not comment and not given and clause.definition in self.specs[crate].found:
            comment = self.specs[crate].found[clause.definition].comment
        return both(comment, given)

    def missing(self) -> list[str]:
        """The clauses that callers see and of which no sentence speaks. Where a call has one clause, the call's sentence does."""
        found = []
        for crate in self.order:
            for name, call in self.shown(crate):
                told = name not in self.crates[crate].public or len(call.clauses) == 1 and self.call_says(crate, name, call)
                for clause in call.clauses:
                    if not told and clause.name != VALUE and not self.clause_says(crate, name, call, clause):
                        found.append(f"{crate}::{name} {clause.name}".rstrip())
        return found

    # ---- preconditions

    # What a call demands: in words where it has them. Else each precondition as it stands, or by its definitions where it is long.
    def requires(self, crate: str, call: Call) -> str:
        if call.requires:
            return call.requires
        shown = []
        for demand in call.demands:
            named = [it for it in self.named_in(crate, call, demand) if it in self.of_definition or self.specs[it[0]].found[it[1]].comment]
            short = len(demand) <= LONGEST_DEMAND or not named
            shown.append(f"`{demand}`" if short else ", ".join(link(crate, home, f"`{name}`") for home, name in named))
        return "; ".join(dict.fromkeys(shown))

    # The definitions that a precondition names, each with its crate.
    def named_in(self, crate: str, call: Call, demand: str) -> list[tuple[str, str]]:
        found = []
        for over, name in re.findall(r"(?:\b([a-z]\w*)\.)?\b([A-Z][\w']*)", demand):
            home = call.homes.get(over or name, crate)
            if home in self.specs and name in self.specs[home].found and (home, name) not in found:
                found.append((home, name))
        return found

    # The definitions that preconditions name where no words stand, in the order in which they do.
    def demanded(self) -> dict[str, list[str]]:
        found: dict[str, list[str]] = {}
        for crate in self.order:
            for _, call in self.shown(crate):
                for demand in () if call.requires else call.demands:
                    for home, name in self.named_in(crate, call, demand):
                        if name not in found.setdefault(home, []):
                            found[home].append(name)
        return found

    # ---- printing

    def lines(self) -> Iterator[str]:
        """All tables. They are made twice: first each text finds the row that has it."""
        self.homes, self.places = {}, {}
        for _ in self.tables():
            pass
        yield from HEAD.split("\n")
        yield from self.tables()
        yield from ("", "### Wrong bodies", "")
        yield from self.edits()

    def tables(self) -> Iterator[str]:
        """A table of calls for each crate, and one of definitions."""
        demanded = self.demanded()
        for crate in self.order:
            calls = [line for name, call in self.shown(crate) for line in self.call_rows(crate, name, call)]
            definitions = [line for of, name in self.of_definition if of == crate for line in self.definition_rows(crate, name)]
            for name in demanded.get(crate, ()):
                found = self.specs[crate].found[name]
                if found.comment and (crate, name) not in self.of_definition:
                    definitions.append(row(f"`{name}` of `{found.file}`", [], found.comment))
            if calls or definitions:
                yield from ("", f"### `{crate}`", "", self.crates[crate].says)
            if calls:
                yield from ("", "| Call | Clause | What it says |", "|---|---|---|", *calls)
            if definitions:
                yield from ("", "| Definition | Part | What it says |", "|---|---|---|", *definitions)

    # A call's row has its sentence, with the clauses of which none speaks; then comes a row for each further sentence.
    def call_rows(self, crate: str, name: str, call: Call) -> Iterator[str]:
        told: dict[str, list[str]] = {}
        untold = []
        of_call = self.call_says(crate, name, call)
        for clause in call.clauses:
            says = self.clause_says(crate, name, call, clause)
            if says and not is_part(says, of_call):
                told.setdefault(says, []).append(clause.name)
            elif clause.name and name in self.crates[crate].public:
                untold.append(clause.name)
        shown = f"`{name}`" + (f", as `{call.of}`" if call.of else "")
        requires = self.requires(crate, call)
        if of_call or untold or requires or not told:
            yield self.row(crate, name, shown, untold, of_call, f"*Requires* {requires}" if requires else "")
            shown = ""
        for says, names in told.items():
            yield self.row(crate, name, shown, names, says)
            shown = ""

    # A definition's row has its sentence; then come its parts: the fields of a record in their order, or cases.
    def definition_rows(self, crate: str, name: str) -> Iterator[str]:
        found, said = self.specs[crate].found[name], self.of_definition[crate, name]
        parts = [it for it in said if it.names]
        whole = " ".join(it.says for it in said if not it.names)
        shown = f"`{name}` of `{found.file}`"
        if whole or not parts:
            yield self.row(crate, name, shown, [], whole or found.comment)
            shown = ""
        order = [it.name for it in found.fields]
        named = {part.split(".")[0] for sentence in parts for part in sentence.names}
        rows = [(order.index(it.name), [it.name], it.comment) for it in found.fields if it.comment and it.name not in named]
        for sentence in parts:
            first = sentence.names[0].split(".")[0]
            rows.append((order.index(first) if first in order else 0, list(sentence.names), sentence.says))
        for _, names, says in sorted(rows, key=lambda it: it[0]):
            yield self.row(crate, name, shown, names, says)
            shown = ""

    # A row of a table. A text that several rows have stands in the one whose call has the shortest path, and is named in the others.
    def row(self, crate: str, name: str, shown: str, clauses: list[str], says: str, further: str = "") -> str:
        words, here = cell(says.strip()), (crate, name, next(iter(clauses), ""))
        self.places.setdefault(here, len(self.places))
        home = self.homes.setdefault(words, here)
        if name.count("::") < home[1].count("::"):
            self.homes[words] = here
        return row(shown, clauses, " ".join(it for it in (self.once(here, words), cell(further)) if it))

    # A text by the row that has it, where that is shorter, or its end or its beginning by a row before it. The longest part is looked for.
    def once(self, here: tuple[str, str, str], words: str) -> str:
        parts = sentences_of(words)
        for count in range(len(parts), 0, -1):
            for first in dict.fromkeys((len(parts) - count, 0)):
                part = " ".join(parts[first:first + count])
                home = self.homes.get(part, here)
                as_said = self.reference(here[0], *home)
                may = home != here and (part == words or self.places[home] < self.places[here])
                if may and len(plain_text(as_said)) < len(part):
                    return " ".join([*parts[:first], as_said, *parts[first + count:]])
        return words

    @staticmethod
    def reference(crate: str, home: str, name: str, clause: str) -> str:
        """A sentence that names a row."""
        known = f"`{name}`" if home == crate else f"`{home}::{name}`"
        return f"As {link(crate, home, known)}" + (f", `{clause}`" if clause else "") + "."

    # Which wrong bodies the gate tries, and how many mutants there are.
    def edits(self) -> Iterator[str]:
        found = [(crate, names_in(self.root, crate, GATE), len(names_in(self.root, crate, MUTANTS))) for crate in self.order]
        tried, mutants = sum(len(names) for _, names, _ in found), sum(count for _, _, count in found)
        yield (
            f"The gate tries {tried} wrong bodies, which the contracts refuse, and doesn't try {mutants} mutants. A crate of tests has none, "
            "since the check of an edit reads no tests."
        )
        yield from ("", "| Crate | Tried by the gate | Mutants |", "|---|---|---|")
        for crate, names, count in found:
            if names or count:
                yield "|" + "|".join(f" {it} " if it else " " for it in (f"`{crate}`", ", ".join(f"`{name}`" for name in names), count)) + "|"


def link(crate: str, home: str, text: str) -> str:
    """A text that leads to a crate's table, where that is another one."""
    return text if home == crate else f"[{text}](#{home})"


def plain_text(text: str) -> str:
    """A text as a reader sees it."""
    return re.sub(r"\[(.*?)\]\(.*?\)", r"\1", text).replace("`", "")


def sentences_of(words: str) -> list[str]:
    """The sentences of a cell."""
    return re.split(r"(?<=[.!?]) (?=[A-Z`])", words) if words else []


def is_part(says: str, whole: str) -> bool:
    """Whether a sentence stands among those of a cell."""
    parts, wanted = sentences_of(cell(whole)), sentences_of(cell(says))
    return any(parts[at:at + len(wanted)] == wanted for at in range(len(parts)))


def both(comment: str, given: Sentence | None) -> str:
    return " ".join(it for it in (comment, given.says if given else "") if it)


def cell(text: str) -> str:
    """A text in a cell of a table: it begins large, and ends with a stop."""
    text = text[:1].upper() + text[1:]
    return (text + ("" if text[-1:] in ".:!?" else ".") if text else "").replace("|", "\\|")


def row(call: str, clauses: list[str], says: str) -> str:
    cells = (call, ", ".join(f"`{name}`" for name in clauses if name), cell(says.strip()))
    return "|" + "|".join(f" {it} " if it else " " for it in cells) + "|"
