"""Every worked run, row and example of the repository: the text that goes in, and what is wanted to come out."""
from __future__ import annotations

import glob
import hashlib
import json
import os
import re
from dataclasses import dataclass
from functools import cached_property
from typing import Any

from .values import Values

ROW = re.compile(r'^    \(\n\s+"([^"]*)",\n\s+b("[^"]*"),\n\s+b("[^"]*"),\n    \),$', re.MULTILINE)
TEXT = re.compile(r'^const (\w+): &\[u8\] =\s+b("[^"]*");$', re.MULTILINE)
SETTINGS = {"ratio": "dirty_ratio", "bg_ratio": "dirty_background_ratio", "bytes": "dirty_bytes", "bg_bytes": "dirty_background_bytes"}

KEPT = {".trace": {".journal": "replay", ".sum": "replay", ".forecast": "forecast"}, ".law": {".out": "law"}}
"""What lies beside an example, and of which command it is: the whole output, or the sum of one that is too long."""

STRICT_ROW = re.compile(r"pub (\w+) : strict_ratio (\w+) (\d+) ≡ (\d+)")

UNKNOWN = 1 << 30
LINE = "\n"

FULL = ("last-step-halted.trace",)
"""The examples that make as many steps as a replay may have, which takes Python some tens of seconds: they are longer than all others."""


@dataclass(frozen=True)
class Input:
    """A text for `replay` or `law`, the sum of what is wanted of it, and how long that is; `steps` says whether it has its steps.

    For `forecast` the first line of what is wanted stands before the trace. For `strict` the text has the numbers of a domain's read and the
    context's pages, and the strict ratio is wanted.
    """

    name: str
    command: str
    text: str
    wanted: str
    length: int
    steps: bool = True

    @cached_property
    def request(self) -> str:
        """The line that asks what is printed of it."""
        return json.dumps([self.command, self.steps, self.text])


def sum_of(text: str) -> str:
    """What stands for a text that is compared."""
    return hashlib.sha256(text.encode("latin-1")).hexdigest()


def inputs(root: str) -> list[Input]:
    """All of them, the short ones first."""
    found = [*worked_runs(root), *small_replays(root), *law_rows(root), *strict_rows(root), *examples(root)]
    return sorted(found, key=lambda it: (it.length, it.name))


def content(*parts: str) -> str:
    """A file."""
    with open(os.path.join(*parts), encoding="utf-8") as file:
        return file.read()


# ---- worked runs, which are definitions


def worked_runs(root: str) -> list[Input]:
    """Those of `wbt_replay_worked::worked`."""
    folder = os.path.join(root, "crates", "wbt_replay_worked", "specs")
    values = Values(*(content(path) for path in sorted(glob.glob(os.path.join(folder, "Worked*.antt")))))
    return [worked_run(name, values) for name in values if re.fullmatch("[A-Z].*Run", name)]


def worked_run(name: str, values: Values) -> Input:
    """One of them: `journal_text (journal_of TRACE) ≡ TEXT`, or without the steps."""
    _, printed, wanted = values.named(name)
    journal, steps = printed[1], True
    if isinstance(journal, dict):
        journal, steps = journal[""], False
    return Input(re.sub(r"(?<!^)(?=[A-Z])", "_", name).lower(), "replay", trace_text(journal[1]), sum_of(wanted), len(wanted), steps)


def trace_text(trace: dict[str, Any]) -> str:
    """The text of a trace that is a value."""
    lines = [f"cpus {trace['cpus']}", f"cap {trace['cap']}"]
    lines += [f"set {SETTINGS[name]} {value}" for name, value in trace["settings"].items()]
    lines += [f"avail {it['from']} {it['pages']}" for it in trace["avail"]]
    lines += [f"device {number} {it['rate']} {it['min']} {it['max']}" for number, it in enumerate(trace["devices"])]
    lines += [f"strict {number}" for number, it in enumerate(trace["devices"]) if it.get("strict") == "true"]
    lines += [f"chunk {number} {it['chunk'][1]}" for number, it in enumerate(trace["devices"]) if it.get("chunk", "None") != "None"]
    lines += [f"cyclic {number}" for number, it in enumerate(trace["devices"]) if it.get("cyclic") == "true"]
    lines += [f"cgroup {number} {it['filepages']} {it['headroom']}" for number, it in enumerate(trace["cgroups"], 1)]
    lines += [f"context {number} {it['device']} {it['domain']}" for number, it in enumerate(trace["contexts"])]
    expires = [(number, it.get("expire", "None")) for number, it in enumerate(trace["contexts"])]
    lines += [f"expire {number} {expire[1]}" for number, expire in expires if expire != "None"]
    firsts = [(number, it.get("estimate", "None")) for number, it in enumerate(trace["contexts"])]
    lines += [f"estimate {number} {it[1]['bandwidth']} {it[1]['average']} {it[1]['ratelimit']}" for number, it in firsts if it != "None"]
    lines += [f"inode {number} {it['context']} {it['pages']}" for number, it in enumerate(trace["inodes"])]
    lines += [f"task {number} {it['cpu']}" for number, it in enumerate(trace["tasks"])]
    paces = [(number, it.get("pace", "None")) for number, it in enumerate(trace["tasks"])]
    lines += [f"pace {number} {pace[1]['pages']} {pace[1]['ticks']}" for number, pace in paces if pace != "None"]
    lines += [f"flusher {number} {it['device']} {it['cpu']}" for number, it in enumerate(trace["flushers"])]
    lines += [" ".join(map(str, ({"Write": "write", "Rest": "rest"}[it[0]], *it[1:]))) for it in trace["actions"]]
    words = {"Steps": "order", "Timer": "order timer", "Tick": "tick"}
    lines += [" ".join(map(str, (words[it[0]], *it[1:]))) for it in trace["order"]]
    if trace["halt"] != "None":
        lines.append(f"halt {trace['halt'][1]}")
    return "".join(line + "\n" for line in lines)


# ---- rows and replays of the crates of tests


def law_rows(root: str) -> list[Input]:
    """The law texts with what they print."""
    rows = ROW.findall(content(root, "crates", "wbt_law_tests", "src", "laws.rt"))
    return [Input(f"the row '{shows}'", "law", json.loads(text), sum_of(json.loads(printed)), len(printed)) for shows, text, printed in rows]


def strict_rows(root: str) -> list[Input]:
    """The rows of strict ratios that the definitions of `wbt_strict` have."""
    texts = [content(path) for path in sorted(glob.glob(os.path.join(root, "crates", "wbt_strict", "specs", "*.antt")))]
    values, found = Values(*texts), []
    for name, read, pages, ratio in (row for text in texts for row in STRICT_ROW.findall(text)):
        it = values.named(read)
        numbers = [*(it["limits"][limit] for limit in ("thresh", "bg", "hard")), it["dirty"], it["wb_thresh"], pages]
        found.append(Input(f"the strict row '{name}'", "strict", " ".join(map(str, numbers)), sum_of(f"{ratio}\n"), len(ratio)))
    return found


def small_replays(root: str) -> list[Input]:
    """The replays that show that memory is enough."""
    texts = {name: json.loads(text) for name, text in TEXT.findall(content(root, "crates", "wbt_replay_tests", "src", "replays.rt"))}
    wanted = {name: texts[f"{name}_TEXT"] for name in texts if f"{name}_TEXT" in texts}
    return [Input(f"the test {name}", "replay", texts[name], sum_of(text), len(text)) for name, text in wanted.items()]


# ---- examples, with the output or its sum beside them


def examples(root: str) -> list[Input]:
    """Those whose output is kept, or its sum."""
    found = []
    folder = os.path.join(root, "examples")
    for path in sorted(glob.glob(os.path.join(folder, "*.*"))):
        stem, ending = os.path.splitext(path)
        for beside, command in KEPT.get(ending, {}).items():
            if os.path.exists(stem + beside):
                kept = content(stem + beside)
                name = os.path.relpath(path, folder)
                unknown = 2 * UNKNOWN if name in FULL else UNKNOWN
                wanted, length = (kept.strip(), unknown) if beside == ".sum" else (sum_of(kept), len(kept))
                if command == "forecast":
                    found.append(forecast_input(name, content(path), kept, len(content(f"{stem}.journal"))))
                else:
                    found.append(Input(name, command, content(path), wanted, length))
    return found


def forecast_input(name: str, trace: str, wanted: str, length: int) -> Input:
    """That of a forecast. It takes as long as the replay, so that its length is that of the journal."""
    return Input(f"the forecast of {name}", "forecast", f"{wanted.partition(LINE)[0]}{LINE}{trace}", sum_of(wanted), length)
