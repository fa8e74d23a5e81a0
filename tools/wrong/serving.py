"""Answers what the programs of a copy print, while the copy changes. It loads them once, and says `ready`: for each change a process of its
own then loads again what may read the changed file, and answers inputs.

It reads lines: `begin SECONDS [MODULE]`, where such a process begins, with the most processor time that it may take, and the module that
differs from what was loaded; then inputs, lines of JSON `[command, steps, text]`, of which each is answered by a line; and `end`, where it
ends. It also ends where its time is over, or where the copy ends the program. The line `ended` says that it has, and what is asked up to
the next `begin` isn't answered.
"""
from __future__ import annotations

import json
import os
import resource
import sys
from importlib import import_module
from itertools import chain

FOLDER = os.path.dirname(os.path.dirname(os.path.realpath(__file__)))
READY, BEGIN, END, ENDED = "ready", "begin", "end", "ended"

STAGES = ("journals.trace_reader", "journals.law_reader", "laws.numbers", "laws.limits", "laws.decision", "laws.strict", "replay", "forecasting.machine",
          "wrong.outputs")
"""Modules that are loaded one after another, each with what it imports that isn't there yet. So no module needs one of a later stage."""


def load() -> list[list[str]]:
    """Loads the copy's modules, and answers those of each stage."""
    stages = []
    for name in STAGES:
        before = set(sys.modules)
        import_module(name)
        new = [it for it in sys.modules if it not in before]
        stages.append([it for it in new if (getattr(sys.modules[it], "__file__", None) or "").startswith(FOLDER + os.sep)])
    return stages


def forget(stages: list[list[str]], changed: str) -> None:
    """Drops the modules of the changed one's stage and of all later ones, so that they are loaded again; all where no stage has it."""
    first = next((at for at, names in enumerate(stages) if changed in names), 0)
    for name in chain(*stages[first:]):
        package, _, last = name.rpartition(".")
        del sys.modules[name]
        if package in sys.modules:
            delattr(sys.modules[package], last)


def answer_all(seconds: int) -> None:
    """A line for each input, up to the end."""
    resource.setrlimit(resource.RLIMIT_CPU, (seconds, seconds))
    answer = import_module("wrong.outputs").answer
    for line in iter(sys.stdin.readline, ""):
        if line == f"{END}\n":
            break
        print(answer(*json.loads(line)), flush=True)


def main() -> None:
    """A process for each `begin`."""
    sys.path.insert(0, FOLDER)
    stages = load()
    print(READY, flush=True)
    for line in iter(sys.stdin.readline, ""):
        word, *given = line.split()
        if word != BEGIN:
            continue
        process = os.fork()
        if not process:
            try:
                if given[1:]:
                    forget(stages, given[1])
                answer_all(int(given[0]))
            finally:
                os._exit(0)
        os.waitpid(process, 0)
        print(ENDED, flush=True)


if __name__ == "__main__":
    main()
