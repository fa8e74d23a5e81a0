"""`wb report`: a page to look at in a browser, of a trace with its journal or of a kernel's text."""
from __future__ import annotations

import argparse
import os
from collections.abc import Callable
from dataclasses import dataclass

from journals.trace_reader import read_trace
from kernel.words.texts import joined
from program.errors import NotThere, OtherWords
from program.output import Staging, publish, writing
from program.statuses import Status

from .. import of_journal, of_kernel, page, script
from ..content import Report

USAGE = """wb report TRACE JOURNAL -o FILE [--title TITLE] [--force]
       wb report --kernel TEXT -o FILE [--hz N] [--strict DISK].. [--title TITLE] [--force]"""


@dataclass(frozen=True)
class Source:
    """What a report may be of: the texts that it takes, the one that names it, and what makes it."""

    takes: tuple[str, ...]
    named: Callable[[argparse.Namespace], str]
    make: Callable[[argparse.Namespace, str], Report]


def add(command: argparse.ArgumentParser) -> None:
    """What the report is of, and where it goes."""
    command.usage = USAGE
    command.add_argument("texts", nargs="+", metavar="TEXT", help="the trace that was run and its journal, or with --kernel one text")
    command.add_argument("-o", "--output", required=True, metavar="FILE", help="where the page goes")
    command.add_argument("--kernel", action="store_true", help="of a text of a kernel's tracepoints")
    command.add_argument("--hz", type=int, choices=(100, 250, 300, 1000), help="with --kernel: its ticks a second (else as its spans say)")
    command.add_argument("--strict", action="append", default=[], metavar="DISK",
                         help="with --kernel: this disk is strict; may be given again")
    command.add_argument("--title", help="of the page (the name of the journal or text)")
    command.add_argument("--force", action="store_true", help="write over a file that lies there")


def run(given: argparse.Namespace) -> Status:
    """Writes the page, and prints its path."""
    source = source_of(given)
    if not script.is_there():
        raise NotThere(script.MISSING)
    text = page.page_of(source.make(given, given.title or name_of(source.named(given))), script.text())
    directory, name = os.path.split(given.output)
    with Staging(directory or ".", given.force) as staging:
        with writing(given.output), open(staging.path(name), "w", encoding="utf-8", newline="\n") as file:
            file.write(text)
        publish(staging)
    return Status.GOOD


def source_of(given: argparse.Namespace) -> Source:
    """What the words ask for. Raises `OtherWords` where they don't go together."""
    source = SOURCES["kernel" if given.kernel else "journal"]
    if len(given.texts) != len(source.takes):
        raise OtherWords(f"report takes {' and '.join(source.takes)}{'' if given.kernel else '; one text alone with --kernel'}")
    if not os.path.basename(given.output):
        raise OtherWords(f"-o {given.output} names no file")
    if not given.kernel and (given.hz or given.strict):
        raise OtherWords("--hz and --strict are for a kernel's text: --kernel")
    return source


def name_of(path: str) -> str:
    """The name of a file without its ending."""
    return os.path.splitext(os.path.basename(path))[0] if path != "-" else "standard input"


def journal_report(given: argparse.Namespace, title: str) -> Report:
    """Of a trace and its journal."""
    trace, journal = given.texts
    if journal == "-":
        raise OtherWords("report reads the journal twice: it can't be standard input")
    return of_journal.report_of(read_trace(trace), journal, title)


def kernel_report(given: argparse.Namespace, title: str) -> Report:
    """Of a kernel's text."""
    given.text = given.texts[0]
    return of_kernel.report_of(joined(given), title)


SOURCES = {
    "journal": Source(("a trace", "its journal"), lambda given: given.texts[1], journal_report),
    "kernel": Source(("one text of tracepoints",), lambda given: given.texts[0], kernel_report),
}
"""What a report may be of. A further one is a row here, and the option that asks for it."""
