"""The list of jobs as text: a command a line, or rules for make."""
from __future__ import annotations

import os
import shlex
import sys

from . import files, plan
from .origin import TOOLS

LIST = "jobs.list"


HERE = [sys.executable, "-S", os.path.join(TOOLS, "wb")]
"""How a job begins on this machine: it needs no packages, so that none are looked for."""


def command(folder: str, job: int, wb: list[str] | None = None, *more: str) -> str:
    """The command that makes the file of a job."""
    return shlex.join([*(wb or HERE), "job", folder, str(job), *more])


def lines(folder: str, planned: plan.Plan, wb: list[str] | None = None, *more: str) -> list[str]:
    """The commands of all jobs, in their order."""
    return [command(folder, job, wb, *more) for job in range(1, planned.jobs + 1)]


def rules(folder: str, planned: plan.Plan) -> list[str]:
    """The same for make: each file with its inputs and its command, and `all` for all of them."""
    inputs = " ".join(os.path.join(folder, name) for name in [plan.FILE, *planned.inputs])
    paths = [files.done_path(folder, job) for job in range(1, planned.jobs + 1)]
    text = [".PHONY: all", "all: " + " ".join(paths)]
    for path, line in zip(paths, lines(folder, planned)):
        text += [f"{path}: | {inputs}", "\t" + line.replace("$", "$$")]
    return text
