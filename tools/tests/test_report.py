"""A report: what stands in the file is what the journal or the text tells, and nothing in it asks a network."""
from __future__ import annotations

import contextlib
import io
import json
import os
import re
import unittest
from functools import cache
from html.parser import HTMLParser
from typing import Any
from unittest import mock

from journals import events
from journals.events import Event
from journals.reader import Reader
from journals.reasons import Reasons, rates_of
from journals.sentences import Sentences
from journals.trace import Trace
from journals.trace_reader import read_trace
from kernel.whole import story_of
from kernel.numbers import Kind
from kernel.tracepoints import Balance, State
from program.main import main
from report import of_journal, of_kernel, page, script
from report.causes import Cause, Causes
from report.content import Axis, CheckText, Report
from report.thinning import Peaks, Thinned

from . import long_journal
from .given import EXAMPLES, WithDirectory, text_path
from .test_kernel import CHECK, STATE, line_of

LEFT_OUT = "plotly's script isn't there: reports are not made by the program"
THREE = os.path.join(EXAMPLES, "kernel", "three-writers.txt")
STRICT = os.path.join(EXAMPLES, "kernel", "strict-disk.txt")
REALTIME = text_path("realtime.kernel.txt")
ADDRESS = re.compile(r"https?:|//[a-z]|\b(?:src|href)\s*=|@import|url\(", re.IGNORECASE)
"""What could make a browser ask for another file."""


class Contents(HTMLParser):
    """The scripts of a page by their number, and its content, read back."""

    def __init__(self, text: str) -> None:
        super().__init__()
        self.scripts: list[str] = []
        self.content: Any = None
        self._is_content = self._is_script = False
        self.feed(text)
        self.close()

    def handle_starttag(self, tag: str, attrs: list[tuple[str, str | None]]) -> None:
        self._is_script = tag == "script"
        self._is_content = self._is_script and dict(attrs).get("id") == "content"
        if self._is_script:
            self.scripts.append("")

    def handle_endtag(self, tag: str) -> None:
        self._is_script = self._is_content = False

    def handle_data(self, data: str) -> None:
        if self._is_script:
            self.scripts[-1] += data
        if self._is_content:
            self.content = json.loads(data)


def example(name: str) -> tuple[Trace, list[Event]]:
    """The trace and the journal of an example."""
    trace = read_trace(f"{EXAMPLES}/{name}.trace")
    return trace, list(Reader(f"{EXAMPLES}/{name}.journal", trace).events())


def read_back(report: Report) -> Any:
    """The content of a report, out of its page."""
    return Contents(page.page_of(report, "plotly();")).content


@cache
def page_content(name: str) -> Any:
    """That of an example."""
    trace = read_trace(f"{EXAMPLES}/{name}.trace")
    return read_back(of_journal.report_of(trace, f"{EXAMPLES}/{name}.journal", name))


@cache
def kernel_content(path: str, *disks: str) -> Any:
    """That of a kernel's text, of which these disks are strict."""
    return read_back(of_kernel.report_of(story_of(path, None, disks), "kernel"))


def panel_of(content: Any, title: str) -> Any:
    """The part whose title begins so."""
    return next(panel for panel in content["panels"] if panel["title"].startswith(title))


def part_of(panel: Any, kind: str, name: str) -> Any:
    """The curve, the bars or the dots of a part, by name."""
    return next(of for of in panel[kind] if of["name"] == name)


def is_within(short: list[int], whole: list[int]) -> bool:
    """Whether a list comes of another by leaving some out."""
    rest = iter(whole)
    return all(value in rest for value in short)


class OfJournals(WithDirectory):
    def test_the_counts_are_those_of_the_steps(self) -> None:
        for name in ("settled", "strict-disk", "cgroup", "two-pages"):
            _, told = example(name)
            steps = [event for event in told if isinstance(event, events.Step)]
            for domain in range(len(steps[0].counts)):
                panel = panel_of(page_content(name), f"pages of domain {domain}")
                counts = [step.counts[domain] for step in steps]
                y = part_of(panel, "lines", "exact count")["y"]
                self.assertTrue(is_within(y[:-1], counts), name)
                self.assertEqual((max(y), min(y), y[-1]), (max(counts), min(counts), counts[-1]))
                self.assertEqual(set(part_of(panel, "lines", "bound")["y"]), {step.bounds[domain] for step in steps})

    def test_the_limits_are_those_of_the_lines(self) -> None:
        _, told = example("memory-drop")
        limits = [event for event in told if isinstance(event, events.Limits)]
        panel = panel_of(page_content("memory-drop"), "pages of domain 0")
        for name, value in (("hard limit", "hard"), ("threshold", "thresh"), ("background threshold", "background")):
            changes = [(limits[0].now, getattr(limits[0], value))] + [
                (event.now, getattr(event, value)) for before, event in zip(limits, limits[1:])
                if getattr(event, value) != getattr(before, value)]
            line = part_of(panel, "lines", name)
            self.assertEqual(list(zip(line["x"], line["y"]))[:-1], changes)
            self.assertEqual(line["y"][-1], changes[-1][1], "held to the end")

    def test_each_pause_is_a_bar(self) -> None:
        for name in ("settled", "strict-disk", "cgroup"):
            _, told = example(name)
            checks = [event for event in told if isinstance(event, events.Check)]
            panel = panel_of(page_content(name), "pauses of tasks")
            bars = sorted((x, length, round(foot - 0.4)) for of in panel["bars"]
                          for x, length, foot in zip(of["x"], of["length"], of["foot"]))
            self.assertEqual(bars, sorted((it.now, it.pause, it.task) for it in checks if it.pause))
            self.assertEqual(sum(len(of["x"]) for of in panel["dots"]), len(checks))
            longest = max(it.pause for it in checks)
            for of in panel["bars"]:
                for length, height in zip(of["length"], of["height"]):
                    self.assertAlmostEqual(height, max(0.8 * length / longest, 0.08), 3)

    def test_a_check_says_what_annotate_says(self) -> None:
        for name in ("settled", "strict-disk", "stopped"):
            trace, told = example(name)
            reasons, sentences = Reasons(trace, rates_of(told)), Sentences(trace)
            wanted = []
            for event in told:
                why = list(reasons.of(event))
                if isinstance(event, events.Check):
                    wanted.append((event.now, sentences.of(event), why))
            found = [(it["sentence"], it["why"]) for it in page_content(name)["checks"]]
            self.assertEqual(sorted(found), sorted((sentence, why) for _, sentence, why in wanted), name)

    def test_a_bar_and_a_dot_name_their_check(self) -> None:
        content = page_content("settled")
        panel = panel_of(content, "pauses of tasks")
        for of in [*panel["bars"], *panel["dots"]]:
            for x, number in zip(of["x"], of["check"]):
                self.assertIn(f" at moment {x},", content["checks"][number]["sentence"])
        read = part_of(panel_of(content, "pages of domain 0"), "dots", "count that checks read")
        for x, number in zip(read["x"], read["check"]):
            self.assertIn(f" at moment {x},", content["checks"][number]["head"])

    def test_milliseconds_stand_beside_ticks(self) -> None:
        content = page_content("settled")
        self.assertEqual((content["axis"]["unit"], content["axis"]["second"]), ("ticks", 1000))
        self.assertIn("a tick is 1 ms", content["axis"]["name"])
        self.assertTrue(any("pause: 161 ticks (161 ms)" in check["head"] for check in content["checks"]))

    def test_rates_are_those_of_the_estimates(self) -> None:
        _, told = example("settled")
        rates = [event.rate_limit for event in told if isinstance(event, events.Estimate)]
        y = part_of(panel_of(page_content("settled"), "rates"), "lines", "rate limit, context 0")["y"]
        self.assertEqual(y[:-1], [rate for before, rate in zip([None, *rates], rates) if rate != before])

    def test_a_strict_context_and_inodes_that_wait_have_parts(self) -> None:
        own = panel_of(page_content("strict-disk"), "pages of context 1, of a strict device")
        self.assertEqual([line["name"] for line in own["lines"]], ["own threshold", "own freerun"])
        self.assertEqual((max(own["lines"][0]["y"]), min(own["lines"][0]["y"])), (99, 39))
        waiting = panel_of(page_content("age-disk"), "inodes that wait")
        self.assertEqual(max(waiting["lines"][0]["y"]), 18)

    def test_the_table_of_causes_has_all_pauses(self) -> None:
        _, told = example("settled")
        pauses = [event.pause for event in told if isinstance(event, events.Check)]
        causes, by_task = page_content("settled")["tables"]
        for table in (causes, by_task):
            at = {name: place for place, name in enumerate(table["head"])}
            self.assertEqual(sum(int(row[at["checks"]]) for row in table["rows"]), len(pauses))
            self.assertEqual(sum(int(row[at["paused, ticks"]]) for row in table["rows"]), sum(pauses))
            self.assertEqual(max(int(row[at["longest, ticks"]]) for row in table["rows"]), max(pauses))
        self.assertEqual(causes["rows"][0][:2], ["wait", "domain 0 is at its hard limit or above: its rate is 0, so the longest pause"])

    def test_causes_in_cgroups_and_on_strict_devices(self) -> None:
        found = {name: {row[1] for row in page_content(name)["tables"][0]["rows"]} for name in ("cgroup", "strict-disk")}
        self.assertIn("the cgroup's domain is at its hard limit or above: its rate is 0, so the longest pause", found["cgroup"])
        self.assertIn("its context is at its own threshold or above: its rate is 0, so the longest pause", found["strict-disk"])

    def test_a_journal_without_steps(self) -> None:
        trace = read_trace(text_path("threads.trace"))
        content = read_back(of_journal.report_of(trace, text_path("threads.journal"), "threads"))
        panel = panel_of(content, "pages of domain 0")
        self.assertEqual(part_of(panel, "lines", "bound by its formula")["y"], [399902 + 2 * 32 + 2 * 1024 + 2 * 32 * 2] * 2)
        self.assertNotIn("exact count", [line["name"] for line in panel["lines"]])
        self.assertEqual(part_of(panel, "dots", "count that checks read")["y"], [41])

    def test_a_long_journal_is_thinned_and_says_so(self) -> None:
        paths = long_journal.write(150, self.directory)
        with mock.patch.object(Thinned.__init__, "__defaults__", (32,)), mock.patch.object(Peaks.__init__, "__defaults__", (32,)):
            report = of_journal.report_of(read_trace(paths[0]), paths[1], "long")
        self.assertTrue(any(note.startswith(f"{len(report.checks)} of 150 checks are shown.") for note in report.notes), report.notes)
        self.assertLessEqual(len(report.checks), 64)
        self.assertEqual(sum(int(row[2]) for row in report.tables[0].rows), 150, "the table is of all checks")
        rates = part_of(panel_of(report.as_json(), "rates"), "lines", "rate limit, context 0")["y"]
        self.assertEqual((max(rates), min(rates)), (25599, 25600 - 150))
        counts = part_of(panel_of(report.as_json(), "pages of domain 0"), "lines", "exact count")["y"]
        self.assertEqual(max(counts), long_journal.START + long_journal.PAGES)
        self.assertTrue(any("bins of equal width" in note and "A curve" in note for note in report.notes))


class OfKernels(WithDirectory):
    def test_the_pages_are_those_of_the_text(self) -> None:
        text = story_of(THREE).text
        panel = panel_of(kernel_content(THREE), "pages of the global domain")
        counts = [line.count for line in text.lines if isinstance(line, State)]
        y = part_of(panel, "lines", "dirty or under writeback")["y"]
        self.assertTrue(is_within(y[:-1], counts))
        self.assertEqual((max(y), min(y), y[-1]), (max(counts), min(counts), counts[-1]))
        self.assertEqual(max(part_of(panel, "lines", "hard limit")["y"]), 849784)
        had = max(max(line.limit, line.dirty) for line in text.lines if isinstance(line, Balance))
        self.assertEqual(panel["top"], round(1.06 * had), "a limit that no check had doesn't squeeze the others")

    def test_each_pause_is_a_bar_above_and_below(self) -> None:
        first = next(line for line in story_of(THREE).text.lines if isinstance(line, Balance)).time
        checks = [line for line in story_of(THREE).text.lines if isinstance(line, Balance)]
        panel = panel_of(kernel_content(THREE), "pauses of tasks")
        rows = {name: row for row, name in enumerate(panel["rows"])}
        of_kernel_ = sorted((x, foot, length) for of in panel["bars"] if "kernel" in of["name"]
                            for x, foot, length, height in zip(of["x"], of["foot"], of["length"], of["height"]) if height > 0)
        self.assertEqual(of_kernel_, sorted((round(it.time - first, 6), rows[it.task], it.pause / 1000) for it in checks if it.pause > 0))
        laws = part_of(panel, "bars", "paused by the laws")
        self.assertTrue(all(height < 0 for height in laws["height"]))
        self.assertEqual(len(laws["x"]), 1817)

    def test_what_is_said_of_a_check(self) -> None:
        content = kernel_content(THREE)
        found = next(check for check in content["checks"] if "line 3066 of the text" in check["head"])
        self.assertTrue(found["head"].startswith("writer-1 on disk 7:0, pause: 12 ms (3 ticks); at 5.8016 s"))
        self.assertTrue(found["sentence"].startswith("its disk's rate limit is 5908 pages/s for each writer, and 96 pages were dirtied"))
        self.assertIn("pages                     46689 in the domain, of a hard limit of 51200 and a setpoint of 44800", found["why"])
        self.assertIn("task rate limit           5348 pages/s          equal by the laws", found["why"])

    def test_the_table_of_causes(self) -> None:
        rows = kernel_content(STRICT, "7:0")["tables"][0]["rows"]
        self.assertEqual(rows[0][:5], ["wait", "strict disk at its own threshold", "21", "21", "4164"])

    def test_a_disk_of_a_cgroup_has_a_part(self) -> None:
        check = CHECK.replace("limit=51200 setpoint=44800 dirty=43964", "limit=500 setpoint=400 dirty=600")
        lines = [line_of("global_dirty_state", STATE), line_of("balance_dirty_pages", check.replace("cgroup_ino=1", "cgroup_ino=77")), ""]
        content = kernel_content(self.file("text", "\n".join(lines)))
        panel = panel_of(content, "pages of disk 7:0 of cgroup 77")
        self.assertEqual(part_of(panel, "lines", "hard limit of its domain")["y"], [500, 500])
        self.assertEqual(panel_of(content, "pages of the global domain")["dots"], [])

    def test_limits_raised_for_a_real_time_task_are_no_part_of_curves(self) -> None:
        content = kernel_content(REALTIME)
        states = story_of(REALTIME).text.states
        y = part_of(panel_of(content, "pages of the global domain"), "lines", "threshold")["y"]
        self.assertEqual((set(y), {it.thresh for it in states}), ({25600}, {25600, 33024, 33025, 33027}))
        self.assertIn(of_kernel.RAISED, content["notes"])
        self.assertNotIn(of_kernel.RAISED, kernel_content(THREE)["notes"])

    def test_how_many_numbers_are_those_of_the_laws(self) -> None:
        table = kernel_content(THREE)["tables"][-1]
        self.assertIn([Kind.PERIOD.value, "1981", "0", "0", "0", "0", "0"], table["rows"])


class Causing(unittest.TestCase):
    def test_what_took_most_time_comes_first(self) -> None:
        causes = Causes("ticks")
        for task, cause, pause in (("task 10", "a", 5), ("task 2", "b", 0), ("task 2", "a", 10), ("task 2", "c", 85)):
            causes.take(task, Cause("go", cause), pause)
        whole, by_task = causes.tables()
        self.assertEqual(whole.rows, [
            ["go", "c", "1", "1", "85", "0.085", "85.0", "85"], ["go", "a", "2", "2", "15", "0.015", "15.0", "10"],
            ["go", "b", "1", "0", "0", "0.000", "0.0", "0"]])
        self.assertEqual([row[0] for row in by_task.rows], ["task 2", "task 2", "task 2", "task 10"])


class Pages(WithDirectory):
    def report(self, title: str) -> Report:
        """One with this title, a check and a text."""
        checks = [CheckText("</script>", "<!--", ["&"])]
        return Report(title, ["a fact"], Axis("time", "ticks", 1, 9, 1000), [], checks, [], [("t", title)], [])

    def test_what_is_told_ends_no_element(self) -> None:
        title = "</script><script>alert(1)</script> {{plotly}} \u20ac"
        text = page.page_of(self.report(title), "a('</script>'); b('<!--');")
        read = Contents(text)
        self.assertEqual(read.content["title"], title)
        self.assertEqual(read.content["checks"], [{"head": "</script>", "sentence": "<!--", "why": ["&"]}])
        self.assertIn("a('<\\/script>'); b('<\\!--');", read.scripts)
        self.assertEqual(len(read.scripts), 4, "what is told makes no script")

    def test_nothing_asks_a_network(self) -> None:
        for name, text in (("page", page.page_of(self.report("none"), "")), ("settled", json.dumps(page_content("settled")))):
            self.assertIsNone(ADDRESS.search(text), name)
        self.assertIn("default-src 'none'", page.page_of(self.report("none"), ""), "nor may the browser, whatever a script says")

    def test_each_role_has_a_colour_in_light_and_in_dark(self) -> None:
        light, dark = (set(re.findall(r"--([\w-]+):", of)) for of in page.part("page.css").split("* {")[0].split(":root[data-theme"))
        self.assertEqual(light, dark)
        contents = [page_content(name) for name in ("settled", "strict-disk", "cgroup", "age-disk")] + [kernel_content(THREE)]
        panels = [panel for content in contents for panel in content["panels"]]
        roles = {of["role"] for panel in panels for kind in ("lines", "dots", "bars") for of in panel[kind]}
        self.assertLessEqual(roles | {f"context-{number}" for number in range(8)}, light)


class Program(WithDirectory):
    TEXTS = (f"{EXAMPLES}/two-pages.trace", f"{EXAMPLES}/two-pages.journal")

    def run_words(self, *words: str) -> tuple[int, str, str]:
        """Status, output and standard error of `wb report`."""
        with contextlib.redirect_stdout(io.StringIO()) as out, contextlib.redirect_stderr(io.StringIO()) as said:
            try:
                status = main(["report", *words])
            except SystemExit as end:
                status = int(end.code or 0)
        return status, out.getvalue(), said.getvalue()

    @unittest.skipUnless(script.is_there(), LEFT_OUT)
    def test_a_page(self) -> None:
        path = os.path.join(self.directory, "new", "page.html")
        self.assertEqual(self.run_words(*self.TEXTS, "-o", path, "--title", "Two pages"), (0, path + "\n", ""))
        with open(path, encoding="utf-8") as file:
            text = file.read()
        read = Contents(text)
        self.assertEqual(read.content["title"], "Two pages")
        self.assertIn("plotly.js v", read.scripts[2])
        self.assertIsNone(ADDRESS.search(text.replace(read.scripts[2], "")), "but for plotly's own script")
        self.assertEqual(self.run_words(*self.TEXTS, "-o", path), (1, "", f"wb: {path} lies there already (--force writes over it)\n"))
        self.assertEqual(self.run_words(*self.TEXTS, "-o", path, "--force")[0], 0)
        self.assertEqual(os.listdir(os.path.dirname(path)), ["page.html"])

    @unittest.skipUnless(script.is_there(), LEFT_OUT)
    def test_one_journal_gives_one_page(self) -> None:
        found = set()
        for name in ("one.html", "other.html"):
            path = os.path.join(self.directory, name)
            self.assertEqual(self.run_words(*self.TEXTS, "-o", path)[0], 0)
            with open(path, encoding="utf-8") as file:
                found.add(file.read())
        self.assertEqual(len(found), 1)

    @unittest.skipUnless(script.is_there(), LEFT_OUT)
    def test_nothing_is_written_of_a_text_that_is_refused(self) -> None:
        bad = self.file("bad.journal", "timer\n")
        path = os.path.join(self.directory, "page.html")
        for words, status, said in (
                ((self.TEXTS[0], bad), 2, "ends early"), (("--kernel", bad), 2, "no line of balance_dirty_pages"),
                ((f"{EXAMPLES}/empty.trace", f"{EXAMPLES}/empty.journal"), 1, "nothing to show over time"),
                (("--kernel", STRICT, "--strict", "9:9"), 1, "no check is of that disk"), ((self.TEXTS[0], "/none"), 3, "read fault")):
            done = self.run_words(*words, "-o", path)
            self.assertEqual((done[0], done[1]), (status, ""), words)
            self.assertIn(said, done[2])
        self.assertEqual(os.listdir(self.directory), ["bad.journal"])

    def test_words_that_do_not_go_together(self) -> None:
        for words in ((self.TEXTS[0],), ("--kernel", *self.TEXTS), (*self.TEXTS, "--hz", "250"), (*self.TEXTS, "--strict", "7:0")):
            status, out, said = self.run_words(*words, "-o", os.path.join(self.directory, "page.html"))
            self.assertEqual((status, out), (1, ""), words)
            self.assertTrue(said.startswith("wb: "))
        self.assertEqual(self.run_words(*self.TEXTS)[0], 1, "-o is asked for")
        self.assertIn("names no file", self.run_words(*self.TEXTS, "-o", self.directory + "/")[2])
        self.assertEqual(os.listdir(self.directory), [])

    def test_without_plotly(self) -> None:
        with mock.patch.object(script, "path", lambda: None):
            status, out, said = self.run_words(*self.TEXTS, "-o", os.path.join(self.directory, "page.html"))
        self.assertEqual((status, out, os.listdir(self.directory)), (5, "", []))
        self.assertIn("python3-plotly", said)


if __name__ == "__main__":
    unittest.main()
