"""What a journal comes to."""
from __future__ import annotations

import json
import unittest
from typing import Any

from journals.events import Decision, End, Totals
from journals.reader import Reader
from journals.summary import Summary
from journals.summary_json import summary_json
from journals.summary_text import lines
from journals.trace_reader import read_trace

from .given import EXAMPLES, events_of, examples, heard, text, text_path, trace_of
from .test_kernel import printed


def summary_of(name: str) -> Summary:
    """The summary of a journal of texts/."""
    return heard(Summary(trace_of(name)), events_of(name))


class Summaries(unittest.TestCase):
    def test_tasks(self) -> None:
        first, second = summary_of("throttled").tasks
        self.assertEqual((first.fresh, first.already, first.pauses, first.paused), (3, 0, 0, 0))
        self.assertEqual((second.pauses, second.longest_pause, second.paused), (2, 7, 12))
        self.assertEqual(second.checks, {Decision.FREE: 0, Decision.GO: 1, Decision.EXEMPT: 1, Decision.WAIT: 1})

    def test_devices(self) -> None:
        device = summary_of("throttled").devices[0]
        self.assertEqual((device.batches, device.pages, device.completions), (2, 5, 5))
        self.assertEqual((device.longest_flight, device.estimates), (3, 2))
        devices = summary_of("threads").devices
        self.assertEqual([(device.faults, device.given_back, device.absorbed) for device in devices], [(8, 7, 1), (0, 0, 0)])

    def test_domains(self) -> None:
        domains = summary_of("throttled").domains
        self.assertEqual([(domain.greatest, domain.greatest_at, domain.bound_there, domain.closer_there) for domain in domains],
                         [(5, 87, 423, 359), (2, 36, 155, 91)])
        self.assertEqual([(domain.least_distance, domain.nearest) for domain in domains], [(418, 87), (153, 36)])
        self.assertEqual([(domain.publications, domain.periods) for domain in domains], [(1, 1), (1, 0)])

    def test_a_journal_without_steps(self) -> None:
        summary = summary_of("threads")
        self.assertEqual((summary.steps, summary.domains[0].least_distance, summary.domains[0].greatest_read), (0, None, 41))
        self.assertEqual(summary.bound(0), 399902 + 2 * 32 + 2 * 1024 + 2 * 32 * 2)
        self.assertEqual(summary.closer(0), summary.bound(0) - 2 * 32)
        self.assertEqual((summary.ending.value, summary.latest), ("faulted", 531))

    def test_an_example(self) -> None:
        trace = read_trace(f"{EXAMPLES}/two-disks.trace")
        summary = heard(Summary(trace), Reader(f"{EXAMPLES}/two-disks.journal", trace).events())
        self.assertEqual([(task.fresh, task.already) for task in summary.tasks], [(10, 1), (8, 4), (4, 0)])
        self.assertEqual([(device.batches, device.longest_flight) for device in summary.devices], [(3, 1), (2, 429)])
        self.assertEqual((summary.folds, summary.latest, summary.steps), (1, 430, 224))

    def test_strict_contexts(self) -> None:
        trace = read_trace(f"{EXAMPLES}/strict-disk.trace")
        summary = heard(Summary(trace), Reader(f"{EXAMPLES}/strict-disk.journal", trace).events())
        self.assertEqual(list(lines(summary))[-2:], ["strict context  greatest count  bound  least distance",
                                                     "             1             108    123              15"])

    def test_ageing_devices(self) -> None:
        trace = read_trace(f"{EXAMPLES}/age-lists.trace")
        summary = heard(Summary(trace), Reader(f"{EXAMPLES}/age-lists.journal", trace).events())
        self.assertEqual(list(lines(summary))[-5:-2], ["ageing device  noticed  taken for age  latest by  taken else",
                                                       "            0        4              3          1           1", ""])

    def test_as_a_text(self) -> None:
        for name in ("throttled", "threads"):
            self.assertEqual("".join(f"{line}\n" for line in lines(summary_of(name))), text(f"{name}.summary"))

    def test_totals_that_differ_are_said(self) -> None:
        summary = Summary(trace_of("threads"))
        heard(summary, [event for event in events_of("threads") if not isinstance(event, (Totals, End))])
        self.assertNotIn("differs", "".join(lines(summary)))
        summary.take(Totals(7, 1))
        self.assertIn("differs: the totals are 7 and 1, and the entries 6 and 1", list(lines(summary)))


class ForOtherPrograms(unittest.TestCase):
    def told(self, name: str) -> Any:
        """What `summary --json` prints of a journal of texts/."""
        status, out, err = printed("summary", "--json", text_path(f"{name}.trace"), text_path(f"{name}.journal"))
        self.assertEqual((status, err), (0, ""))
        return json.loads(out)

    def test_numbers_of_a_replay(self) -> None:
        told = self.told("throttled")
        self.assertEqual((told["ending"], told["steps"], told["latest"], told["ticks_a_second"]), ("done", 122, 236, 1000))
        self.assertEqual({name: told["tasks"][1][name] for name in ("task", "pauses", "longest_pause", "paused", "checks")},
                         {"task": 1, "pauses": 2, "longest_pause": 7, "paused": 12,
                          "checks": {"free": 0, "go": 1, "exempt": 1, "wait": 1}})
        self.assertEqual([(it["greatest"], it["greatest_at"], it["bound_there"], it["least_distance"]) for it in told["domains"]],
                         [(5, 87, 423, 418), (2, 36, 155, 153)])

    def test_what_is_not_told_is_null(self) -> None:
        told = self.told("threads")
        domain = told["domains"][0]
        self.assertEqual([domain[name] for name in ("greatest", "greatest_at", "bound_there", "least_distance", "nearest")], [None] * 5)
        self.assertEqual((domain["greatest_read"], domain["bound"]), (41, 399902 + 2 * 32 + 2 * 1024 + 2 * 32 * 2))
        self.assertEqual((domain["closer_there"], domain["closer"]), (None, 399902 + 2 * 32 + 2 * 1024 + 2 * 32))
        self.assertEqual((told["steps"], told["ending"]), (0, "faulted"))

    def test_its_numbers_are_those_of_the_tables(self) -> None:
        for trace_path, journal_path in examples():
            trace = read_trace(trace_path)
            summary = heard(Summary(trace), Reader(journal_path, trace).events())
            told, tables = json.loads(json.dumps(summary_json(summary))), "\n".join(lines(summary))
            of_task = [[it["task"], it["fresh"], it["already"], sum(it["checks"].values()), *it["checks"].values(), it["pauses"],
                        it["longest_pause"], it["paused"]] for it in told["tasks"]]
            of_device = [[it[name] for name in ("device", "batches", "pages", "longest_flight", "completions", "faults", "given_back",
                                                "absorbed", "estimates")] for it in told["devices"]]
            of_domain = [[it[name] for name in ("domain", "greatest", "greatest_at", "bound_there", "closer_there", "least_distance", "nearest",
                                                "publications", "periods")] for it in told["domains"]]
            rows = [[int(cell) for cell in line.split()] for line in tables.splitlines() if line.replace(" ", "").isdigit()]
            for row in of_task + of_device + (of_domain if told["steps"] else []):
                self.assertIn(row, rows, journal_path)
            for it in told["strict"]:
                self.assertIn([it["context"], it["most"], it["bound"], it["bound"] - it["most"]], rows)
