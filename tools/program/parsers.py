"""The command line. Only the module of the word that is given is loaded."""
from __future__ import annotations

import argparse
import sys
from importlib import import_module
from typing import NoReturn

from . import statuses
from .statuses import Status
from .words import WORDS, Word

ABOUT = """Shows, explains and measures what wbsim says. No proof stands on this program, and it judges nothing: nothing rests on what
it shows. Whether a journal is lawful for its trace says `wbsim audit`."""


class Parser(argparse.ArgumentParser):
    """Ends with the status of other words as wbsim does."""

    def error(self, message: str) -> NoReturn:
        self.print_usage(sys.stderr)
        self.exit(Status.OTHER_WORDS, f"{self.prog}: {message}\n")


def parse(arguments: list[str]) -> argparse.Namespace:
    """What was given, with the word's `run`, and in `rest` the command after `--`."""
    parser = Parser(prog="wb", description=ABOUT, epilog=statuses.sentence())
    commands = parser.add_subparsers(dest="word", required=True, parser_class=Parser, metavar="WORD")
    rest: list[str] = []
    for word in WORDS:
        if word.name in arguments[:1] and arguments[1:2] and arguments[1] in word.commands and "--" in arguments:
            place = arguments.index("--")
            arguments, rest = arguments[:place], arguments[place + 1:]
        command = commands.add_parser(word.name, help=word.about, description=word.about, epilog=statuses.sentence())
        if word.name in arguments[:1]:
            fill(command, word)
    return parser.parse_args(arguments, argparse.Namespace(rest=rest))


def fill(command: Parser, word: Word) -> None:
    """Loads the word's module, which says what the word takes."""
    module = import_module(word.module)
    command.set_defaults(run=module.run)
    module.add(command)
