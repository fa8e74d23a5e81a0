"""`wb kernel`: a running kernel's tracepoints beside the laws."""
from __future__ import annotations

import argparse

from . import beside, compare, explain, plot, record, trace

PARTS = {
    "explain": (explain, "why writers paused: the causes of a text's pauses, or every number behind one pause"),
    "compare": (compare, "each number that a text of tracepoints tells, beside the one by the laws: how many are equal"),
    "plot": (plot, "a picture of each disk: its pages and limits, task rate limits, pauses, kernel and laws in two colours"),
    "trace": (trace, "a trace of a machine like the one that printed the text, for replay"),
    "beside": (beside, "what the kernel did beside what a replay of such a trace did: a table, and a picture"),
    "record": (record, "as root: takes a text while whatever runs there runs, or a command; --dry-run says what it does"),
}


def add(command: argparse.ArgumentParser) -> None:
    """The parts, and what each takes."""
    parts = command.add_subparsers(dest="part", required=True, parser_class=type(command), metavar="PART")
    for name, (module, about) in PARTS.items():
        part = parts.add_parser(name, help=about, description=about)
        part.set_defaults(run_part=module.run)
        module.add(part)


def run(given: argparse.Namespace) -> int:
    """Does the part."""
    return given.run_part(given)
