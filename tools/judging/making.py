"""A run over threads, and the verdict on its journal."""
from __future__ import annotations

import os
import subprocess
from typing import Any

from jobs.kinds import Maker, Row
from jobs.origin import ROOT
from program.errors import NotThere

from .traces import trace_of

FAILING = os.path.join(ROOT, "crates", "failing_disks", "out", "failing_disks")
MOST_SECONDS, MOST_SECONDS_OF_A_RUN = 60, 600

GOOD = ("lawful", "unsettled")
PARTS = ("fault", "back", "absorbed", "faulted", "notice", "age", "take")
"""Words of a journal of which it is told how many journals have them."""


def maker(spec: dict[str, Any], _folder: str, words: list[str]) -> Maker:
    """What makes the run of a number and has it judged. Of a journal that isn't lawful or unsettled its texts stand in the row."""

    def make(number: int) -> Row:
        fails = number < spec["failing"]
        all_age = spec["failing"] <= number < spec["failing"] + spec["ageing"]
        command = [spec["failing binary"] or FAILING, str(number % 8 + 1)] if fails else [*words, "run"]
        trace = trace_of(number, all_age)
        ran = run_of(command, trace, number)
        said = verdict(spec["judge"], trace, ran.stdout)
        row: Row = {"verdict": said, "status": ran.returncode, "wanted": wanted_status(fails, ran.stdout), "all age": all_age,
                    "tells": [part for part in PARTS if part in ran.stdout.split()]}
        return row if said in GOOD else {**row, "trace": trace, "journal": ran.stdout}

    return make


def run_of(command: list[str], trace: str, number: int) -> subprocess.CompletedProcess[str]:
    """A run of a trace."""
    try:
        return subprocess.run(command, input=trace, capture_output=True, text=True, timeout=MOST_SECONDS_OF_A_RUN, check=False)
    except subprocess.TimeoutExpired:
        raise NotThere(f"trace {number}: {command[0]} has not ended in {MOST_SECONDS_OF_A_RUN} seconds") from None
    except OSError as error:
        raise NotThere(f"{command[0]} can't be run: {error.strerror or error}") from error


def verdict(judge: list[str], trace: str, journal: str) -> str:
    """The first word of what the judge says."""
    try:
        told = subprocess.run(judge, input=f"{trace}journal\n{journal}", capture_output=True, text=True, timeout=MOST_SECONDS, check=False)
    except subprocess.TimeoutExpired:
        return "late"
    except OSError as error:
        raise NotThere(f"{judge[0]} can't be run: {error.strerror or error}") from error
    return (told.stdout.split() or ["silent"])[0]


def wanted_status(failing: bool, journal: str) -> int:
    """`wbsim run` ends with 5 where a disk failed for good; the other program ends with 0 whenever it prints a journal."""
    return 5 if journal.endswith("end faulted\n") and not failing else 0
