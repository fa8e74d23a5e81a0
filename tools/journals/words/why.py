"""`wb why`: why a trace or a law text is refused, with the place in the line and in words."""
from __future__ import annotations

import argparse
import re

from program.errors import Fault
from program.output import held_text
from program.statuses import Status

from ..law_reader import LawInput, law_of
from ..trace import Trace
from ..trace_reader import trace_of
from ..whole_text import WholeText, read_whole

FIRST_OF_ONE = re.compile(
    rb"^(?:(now\b|estimate \S* \S*$|domain\b)|"
    rb"(?:avail|set|device|strict|chunk|cyclic|cgroup|expire|estimate|inode|pace|flusher|write|rest|order|tick|halt)\b)", re.MULTILINE)
"""The first word that only law texts have, which is kept, or only traces."""

SHOWN = {**{code: 0x2400 + code for code in range(32)}, ord("\t"): "→", ord("\r"): "↵", ord("\n"): "",
         **{code: 0xFFFD for code in range(127, 256)}}
"""How bytes that can't be seen are shown, each as one character."""

AROUND = 60
"""Characters of a long line that are shown on either side of its fault."""


def add(command: argparse.ArgumentParser) -> None:
    """The text, and what it is to be."""
    command.add_argument("text", metavar="TEXT", help="a trace or a law text, '-' for standard input")
    command.add_argument("--as", dest="kind", choices=("trace", "law"), help="what the text is to be; else its words tell")


def run(given: argparse.Namespace) -> Status:
    """Prints why the text is refused, or that it is lawful. The status is the one that `wbsim` ends with."""
    whole = read_whole(given.text)
    try:
        said = lawful(whole, given.kind or kind_of(whole.data))
    except Fault as fault:
        with held_text() as text:
            print(fault, *excerpt(whole.text, fault.column), sep="\n", file=text)
        return fault.status
    with held_text() as text:
        print(f"{whole.path}: {said}", file=text)
    return Status.GOOD


def kind_of(data: bytes) -> str:
    """What a text is to be, by the first of its words that only one of both has."""
    match = FIRST_OF_ONE.search(data)
    return "law" if match and match[1] else "trace"


def lawful(whole: WholeText, kind: str) -> str:
    """What a text is. Raises `Fault` where it is refused."""
    return law_words(law_of(whole)) if kind == "law" else trace_words(trace_of(whole))


def trace_words(trace: Trace) -> str:
    """What a trace has."""
    many = {"CPU": trace.cpus, "device": len(trace.devices), "cgroup": len(trace.cgroups), "context": len(trace.contexts),
            "inode": len(trace.inodes), "page": trace.pages, "task": len(trace.tasks), "flusher": len(trace.flushers)}
    return "a lawful trace: " + ", ".join(f"{count} {thing}{'s' * (count != 1)}" for thing, count in many.items())


def law_words(law: LawInput) -> str:
    """What a law text is of."""
    return f"a lawful law text: a check in {'a cgroup' if len(law.domains) > 1 else 'no cgroup'}"


def excerpt(line: str, column: int) -> list[str]:
    """The line, and a mark below the column."""
    if not column:
        return []
    begin = max(0, column - 1 - AROUND)
    shown = line[begin : column + AROUND].translate(SHOWN)
    return [f"    {shown}", f"    {' ' * (column - 1 - begin)}^"]
