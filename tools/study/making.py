"""A run of a study: its trace is made, run, and measured."""
from __future__ import annotations

import os

from search.running import Runner, forecast

from .grid import changed, name_of, point_of

TYPE_CHECKING = False
if TYPE_CHECKING:
    from typing import Any

    from jobs.kinds import Maker, Row

JOURNALS, TRACES = "journals", "traces"
GOES_ON, TOLD_BY, FORECAST = "goes on", "told by", "forecast"
"""Whether a forecast goes on where a replay is spent, and which of both has told a row."""


def maker(spec: dict[str, Any], folder: str, words: list[str]) -> Maker:
    """What makes the run of a number."""
    texts = []
    for trace in spec["traces"]:
        with open(os.path.join(folder, trace["file"]), encoding="latin-1", newline="") as file:
            texts.append(file.read())
    runner = Runner([*words, *([spec["command"]] if takes_command(words) else [])])
    made: dict[tuple[int, tuple[int, ...]], str] = {}

    def make(run: int) -> Row:
        point = point_of(spec, run)
        setting = (point.trace, point.values)
        if setting not in made:
            made.clear()
            made[setting] = changed(spec, texts[point.trace], point.values)
        name = name_of(spec, point)
        it, journal = runner.run(name, made[setting])
        told_by = spec["command"]
        if it.ending == "spent" and spec.get(GOES_ON):
            it, told_by = forecast(words, name, made[setting]), FORECAST
        row: Row = {**it._asdict(), TOLD_BY: told_by}
        if JOURNALS in spec["keep"]:
            row["kept journal"] = packed(journal)
        if TRACES in spec["keep"]:
            row["kept trace"] = packed(made[setting].encode("latin-1"))
        return row

    return make


def takes_command(words: list[str]) -> bool:
    """Whether a program is told what to do: tools/replay.py does one thing."""
    return not words[-1].endswith(".py")


def packed(data: bytes) -> str:
    """A text as one word of a row."""
    import base64
    import zlib

    return base64.b64encode(zlib.compress(data, 1)).decode("ascii")


def unpacked(word: str) -> bytes:
    """The text again."""
    import base64
    import zlib

    return zlib.decompress(base64.b64decode(word))
