"""The file of a study. Names that it doesn't know are refused, so that none is misspelled.

    traces = ["two-disks.trace"]        paths, as seen from the file's folder
    command = "run"                     or "replay", which it is unless said
    repeats = 5                         1 unless said: replays are all the same
    keep = ["journals", "traces"]       nothing unless said: what is kept of each run next to its row

    [over]                              each combination of these values is a setting
    device-1 = ["4..14..2"]
    cap = [16, 64]
"""
from __future__ import annotations

import hashlib
import os
from dataclasses import dataclass, field
from typing import Any

from journals.whole_text import read_whole
from program.errors import Error, NotThere, ReadFault
from search.editing import parameter
from search.values import values_of

from .making import GOES_ON

COMMANDS, KEEPS = ("replay", "run"), ("journals", "traces")
MOST_RUNS = 1_000_000


class Refused(Error):
    """A file is no study."""


@dataclass(frozen=True)
class StudyTrace:
    """A trace of a study: its name and its text."""

    name: str
    data: bytes


@dataclass(frozen=True)
class Study:
    """What is to be run: each trace with each setting so many times."""

    traces: list[StudyTrace]
    over: dict[str, list[int]] = field(default_factory=dict)
    command: str = "replay"
    repeats: int = 1
    keep: list[str] = field(default_factory=list)
    goes_on: bool = False
    """Whether a forecast goes on where a replay is spent."""

    def spec(self) -> dict[str, Any]:
        """What the plan of its jobs tells."""
        traces = [{"name": it.name, "file": path, "sum": hashlib.sha256(it.data).hexdigest()}
                  for it, path in zip(self.traces, self.inputs())]
        return {"traces": traces, "over": [[name, values] for name, values in self.over.items()], "command": self.command,
                "repeats": self.repeats, "keep": self.keep, **({GOES_ON: True} if self.goes_on else {})}

    def inputs(self) -> dict[str, bytes]:
        """The traces by the names that they have beside the plan."""
        return {f"traces/{at}.trace": it.data for at, it in enumerate(self.traces)}


def read_study(path: str) -> Study:
    """The study of a file. Raises `Refused` where it is none."""
    try:
        import tomllib
    except ImportError:
        raise NotThere("a study is read by Python 3.11 or newer, which has tomllib") from None
    try:
        with open(path, "rb") as file:
            told = tomllib.load(file)
    except OSError as error:
        raise ReadFault(f"{path}: {error.strerror or error}") from error
    except ValueError as error:
        raise Refused(f"{path}: {error}") from error
    try:
        return study_of(told, os.path.dirname(path))
    except (ValueError, TypeError) as error:
        raise Refused(f"{path}: {error}") from error


def study_of(told: dict[str, Any], folder: str) -> Study:
    """The study that a file tells. Raises `ValueError`."""
    for name in told:
        if name not in ("traces", "over", "command", "repeats", "keep"):
            raise ValueError(f"a study has no '{name}'")
    traces, over, keep = told.get("traces"), told.get("over", {}), told.get("keep", [])
    command, repeats = told.get("command", "replay"), told.get("repeats", 1)
    if not isinstance(traces, list) or not traces or not all(isinstance(it, str) for it in traces):
        raise ValueError("traces is a list of paths, and has at least one")
    if command not in COMMANDS:
        raise ValueError(f"command is one of {', '.join(COMMANDS)}")
    if type(repeats) is not int or repeats < 1:
        raise ValueError("repeats is a number of at least 1")
    if not isinstance(keep, list) or any(it not in KEEPS for it in keep):
        raise ValueError(f"keep is a list of {', '.join(KEEPS)}")
    if not isinstance(over, dict):
        raise ValueError("over is a table: a parameter and its values a line")
    variables = {name: values_over(name, values) for name, values in over.items()}
    study = Study(read_traces(traces, folder), variables, command, repeats, sorted(set(keep)))
    if runs_of(study) > MOST_RUNS:
        raise ValueError(f"{runs_of(study)} runs: a study has at most {MOST_RUNS}")
    return study


def runs_of(study: Study) -> int:
    """How many runs it has."""
    runs = len(study.traces) * study.repeats
    for values in study.over.values():
        runs *= len(values)
    return runs


def read_traces(paths: list[str], folder: str) -> list[StudyTrace]:
    """The traces, each with a name of its own: the file's, without its ending."""
    traces = [StudyTrace(os.path.splitext(os.path.basename(path))[0], read_whole(os.path.join(folder, path)).data) for path in paths]
    names = [it.name for it in traces]
    if len(set(names)) < len(names):
        raise ValueError("two traces have one name")
    return traces


def values_over(name: str, values: Any) -> list[int]:
    """The values of a parameter, each once, in their order."""
    parameter(name)
    if not isinstance(values, list) or not values or not all(type(it) in (int, str) for it in values):
        raise ValueError(f"{name} has a list of numbers, or of texts as 'FIRST..LAST..STEP'")
    return values_of([str(it) for it in values], MOST_RUNS)
