"""The tables have a row for each line of their kind."""
from __future__ import annotations

import csv
import os
from collections.abc import Iterable

from journals.events import Event
from journals.reader import Reader
from journals.tables import Tables, heads
from journals.trace import Trace
from journals.trace_reader import read_trace
from program.output import Staging

from .given import EXAMPLES, WithDirectory, events_of, heard, trace_of


class TablesOfValues(WithDirectory):
    def rows(self, name: str) -> dict[str, list[dict[str, str]]]:
        """The rows of each table of a journal of texts/."""
        return self.rows_of(name, trace_of(name), events_of(name))

    def rows_of(self, name: str, trace: Trace, events: Iterable[Event]) -> dict[str, list[dict[str, str]]]:
        """The rows of each table of events."""
        with Staging(os.path.join(self.directory, name), True) as staging:
            with Tables(trace, staging) as tables:
                heard(tables, events)
            paths = staging.publish()
        found = {}
        for path in paths:
            with open(path, newline="", encoding="ascii") as file:
                found[os.path.basename(path)] = list(csv.DictReader(file))
        return found

    def test_a_row_for_each_line(self) -> None:
        self.assertEqual({name: len(rows) for name, rows in self.rows("throttled").items()},
                         {"steps.csv": 122, "checks.csv": 4, "limits.csv": 4, "estimates.csv": 2, "folds.csv": 0, "ages.csv": 0})
        self.assertEqual({name: len(rows) for name, rows in self.rows("threads").items()},
                         {"steps.csv": 0, "checks.csv": 1, "limits.csv": 1, "estimates.csv": 0, "folds.csv": 1, "ages.csv": 0})

    def test_one_name_for_time(self) -> None:
        for name, columns in heads(trace_of("throttled")).items():
            self.assertEqual(columns.count("time"), int(name != "folds"), name)
            self.assertFalse({"now", "at", "moment"}.intersection(columns), name)

    def test_steps(self) -> None:
        steps = self.rows("throttled")["steps.csv"]
        self.assertEqual(steps[76], {"step": "77", "who": "timer", "kind": "count", "time": "201", "count_0": "4",
                                     "bound_0": "423", "count_1": "2", "bound_1": "155"})

    def test_checks_with_what_they_read(self) -> None:
        first, second, third, _ = self.rows("throttled")["checks.csv"]
        self.assertEqual((first["domain"], first["decision"], first["left"], first["cgroup_count"]), ("0", "free", "16", ""))
        self.assertEqual((second["domain"], second["decision"], second["pause"], second["paused_until"]), ("1", "go", "7", "8"))
        self.assertEqual((second["global_hard"], second["cgroup_hard"], second["cgroup_count"], second["context_count"]),
                         ("199", "11", "-1", "0"))
        self.assertEqual((third["global_hard"], third["cgroup_hard"], third["cgroup_whole"]), ("199", "11", "1"))

    def test_limits_estimates_and_folds(self) -> None:
        rows = self.rows("throttled")
        self.assertEqual(rows["limits.csv"][3], {"domain": "1", "time": "201", "thresh": "10", "background": "5", "hard": "10"})
        self.assertEqual(rows["estimates.csv"][0], {
            "cpu": "1", "context": "0", "version": "1", "bandwidth": "900", "average": "1000", "rate_limit": "800",
            "balanced": "800", "written": "0", "dirtied": "3", "time": "201"})
        self.assertEqual(self.rows("threads")["folds.csv"],
                         [{"cpu": "0", "counter": "domain", "number": "0", "version": "4", "delta": "-32"}])

    def test_ages(self) -> None:
        trace = read_trace(f"{EXAMPLES}/age-background.trace")
        rows = self.rows_of("ages", trace, Reader(f"{EXAMPLES}/age-background.journal", trace).events())["ages.csv"]
        self.assertEqual([list(row.values()) for row in rows], [
            ["0", "0", "1", "notice", "1", "101"], ["0", "0", "0", "notice", "101", "30101"], ["0", "0", "1", "age", "101", "101"],
            ["0", "0", "0", "take", "", "30101"]])
