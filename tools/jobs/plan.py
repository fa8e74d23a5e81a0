"""What a folder of jobs is: runs of one kind, numbered from 0, in jobs of as many runs each, numbered from 1."""
from __future__ import annotations

import json
import os

from program.errors import OtherWords, ReadFault
from program.output import writing

TYPE_CHECKING = False
if TYPE_CHECKING:
    from typing import Any

FILE = "plan.json"


class Plan:
    """The kind of the runs and what it is told, the program, and the inputs beside the plan, by their names."""

    def __init__(self, kind: str, spec: dict[str, Any], runs: int, runs_a_job: int, program: dict[str, str] | None = None,
                 is_any_program: bool = False, inputs: list[str] | None = None) -> None:
        self.kind, self.spec, self.runs, self.runs_a_job = kind, spec, runs, runs_a_job
        self.program, self.is_any_program, self.inputs = program or {}, is_any_program, inputs or []

    def __eq__(self, other: object) -> bool:
        return isinstance(other, Plan) and self.__dict__ == other.__dict__

    @property
    def jobs(self) -> int:
        """How many jobs there are."""
        return -(-self.runs // self.runs_a_job)

    def runs_of(self, job: int) -> range:
        """The runs of a job."""
        return range((job - 1) * self.runs_a_job, min(job * self.runs_a_job, self.runs))

    def save(self, folder: str) -> None:
        """Writes it, whole or not at all."""
        path = os.path.join(folder, FILE)
        with writing(path):
            with open(f"{path}.new", "w", encoding="ascii") as file:
                json.dump(self.__dict__, file)
            os.replace(f"{path}.new", path)


def load(folder: str) -> Plan:
    """The plan of a folder."""
    path = os.path.join(folder, FILE)
    try:
        with open(path, encoding="ascii") as file:
            return Plan(**json.load(file))
    except OSError as error:
        raise ReadFault(f"{path}: {error.strerror or error}") from error
    except (ValueError, TypeError) as error:
        raise OtherWords(f"{path} is no plan of jobs: {error}") from error


def is_there(folder: str) -> bool:
    """Whether a folder has a plan."""
    return os.path.exists(os.path.join(folder, FILE))
