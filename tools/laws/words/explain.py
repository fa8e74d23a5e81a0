"""`wb explain`: the decision of a law text, with every number behind it."""
from __future__ import annotations

import argparse
import json

from journals.law_reader import LawInput, read_law
from program.errors import OtherWords
from program.output import held_text
from program.statuses import Status

from ..clock import PROFILE, Clock
from ..counters import error_of
from ..decision import DomainRead, Task, Verdict
from ..limits import Limits
from ..sentences import Asked, lines
from ..strict import decide_for
from ..verdict_json import verdict_json

MOST_TICKS = 1000
"""Ticks a second: no clock here has more."""


def add(command: argparse.ArgumentParser) -> None:
    """One text, or many."""
    command.add_argument("texts", metavar="LAWTEXT", nargs="+", help="what was read of a machine, '-' for standard input")
    command.add_argument("--strict", action="store_true", help="as in a context of a strict device")
    command.add_argument("--hz", type=int, default=1000, metavar="N",
                         help="ticks a second (1000); a kernel is built with 100, 250, 300 or 1000")
    command.add_argument("--many", action="store_true", help="several texts, one after another")
    command.add_argument("--json", action="store_true", help="the numbers for other programs, as JSON; with --many a list")


def run(given: argparse.Namespace) -> Status:
    """Prints the lines of each text."""
    if len(given.texts) > 1 and not given.many:
        raise OtherWords("several law texts are explained with --many")
    if not 1 <= given.hz <= MOST_TICKS:
        raise OtherWords(f"--hz is from 1 to {MOST_TICKS}")
    laws = [(path, read_law(path, is_wide=True)) for path in given.texts]
    with held_text() as text:
        if given.json:
            told = [{"text": path, **verdict_json(*decided(law, given.strict, Clock(given.hz)))} for path, law in laws]
            print(json.dumps(told if given.many else told[0], indent=1), file=text)
            return Status.GOOD
        for place, (path, law) in enumerate(laws):
            if given.many:
                print(f"{'' if place == 0 else chr(10)}{path}:", file=text)
            for line in explained(law, given.strict, Clock(given.hz)):
                print(line, file=text)
    return Status.GOOD


def explained(law: LawInput, is_strict: bool = False, clock: Clock = PROFILE) -> list[str]:
    """The lines of a law text, for a strict device or another."""
    return list(lines(*decided(law, is_strict, clock)))


def decided(law: LawInput, is_strict: bool = False, clock: Clock = PROFILE) -> tuple[Asked, Verdict]:
    """What a law text asks, and what is decided."""
    reads = [DomainRead(Limits(it.thresh, it.background, it.hard), it.pages, it.context_thresh) for it in law.domains]
    task = Task(law.dirtied, law.allowance, law.paused_until)
    asked = Asked(reads, law.pages, law.average, law.rate_limit, task, law.now, error_of(law.cpus), is_strict, clock)
    verdict = decide_for(is_strict, reads, law.pages, law.average, law.rate_limit, task, law.now, asked.error, law.cap, clock)
    return asked, verdict
