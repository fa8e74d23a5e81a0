"""The page of a report in a real browser: what is drawn, what the pointer tells, light and dark, and that it asks no network."""
from __future__ import annotations

import json
import os
import tempfile
import unittest
from typing import Any

from journals.trace_reader import read_trace
from kernel.whole import story_of
from report import of_journal, of_kernel, page, script
from report.content import Report

from . import browser
from .given import EXAMPLES

LEFT_OUT = "chromium or plotly's script isn't there: no page is opened in a browser"
CENTER = """(() => {
  const bars = plot.querySelectorAll('.barlayer .trace');
  const at = plot.data.filter(trace => trace.type === 'bar').findIndex(trace => trace.name === NAME);
  const box = bars[at].querySelectorAll('.point path')[NUMBER].getBoundingClientRect();
  return JSON.stringify([box.x + box.width / 2, box.y + box.height / 2]);
})()"""
"""Where the middle of a bar is in the window."""

SHOWN = "plot.data.filter(trace => trace.visible !== false).length"


def report_of(name: str) -> Report:
    """That of an example: a journal, or a kernel's text."""
    if name.startswith("kernel/"):
        return of_kernel.report_of(story_of(f"{EXAMPLES}/{name}.txt"), name)
    return of_journal.report_of(read_trace(f"{EXAMPLES}/{name}.trace"), f"{EXAMPLES}/{name}.journal", name)


@unittest.skipUnless(script.is_there() and browser.path(), LEFT_OUT)
class Pages(unittest.TestCase):
    browser: browser.Browser

    @classmethod
    def setUpClass(cls) -> None:
        held = tempfile.TemporaryDirectory()
        cls.addClassCleanup(held.cleanup)
        cls.directory = held.name
        cls.reports: dict[str, Report] = {}
        cls.browser = browser.Browser()
        cls.addClassCleanup(cls.browser.close)

    def open(self, name: str, is_dark: bool = False) -> Report:
        """Opens the page of an example."""
        path = os.path.join(self.directory, f"{name.replace('/', '-')}.html")
        if name not in self.reports:
            self.reports[name] = report_of(name)
            with open(path, "w", encoding="utf-8") as file:
                file.write(page.page_of(self.reports[name], script.text()))
        self.browser.open(path, is_dark)
        return self.reports[name]

    def tearDown(self) -> None:
        self.assertEqual((self.browser.asked, self.browser.said), ([], []), "no network is asked, and nothing goes wrong")

    def text(self, name: str) -> str:
        """What an element says."""
        return self.browser.value(f"document.getElementById('{name}').textContent")

    def center(self, name: str, number: int) -> tuple[float, float]:
        """Where the middle of a bar is."""
        x, y = json.loads(self.browser.value(CENTER.replace("NAME", json.dumps(name)).replace("NUMBER", str(number))))
        return x, y

    def hover(self, name: str, number: int) -> None:
        """The pointer comes onto a bar."""
        x, y = self.center(name, number)
        self.browser.mouse(x - 1, y - 1)
        self.browser.mouse(x, y)

    def told(self, report: Report, name: str, number: int) -> Any:
        """What is to be said of the check of a bar."""
        return next(report.checks[bars.check[number]] for panel in report.panels for bars in panel.bars if bars.name == name)

    def test_the_pointer_on_a_pause_tells_its_cause(self) -> None:
        report = self.open("settled")
        for name, number in (("paused after 'wait'", 20), ("paused after 'go'", 40)):
            self.hover(name, number)
            wanted = self.told(report, name, number)
            self.browser.wait(f"document.getElementById('check-head').textContent === {json.dumps(wanted.head)}")
            self.assertEqual((self.text("check-sentence"), self.text("check-why")), (wanted.sentence, "\n".join(wanted.why)))
            self.assertIn("longest pause", self.text("check-why"))
            self.browser.wait("document.querySelector('.hoverlayer .hovertext') !== null")
            beside = self.browser.value("[...document.querySelectorAll('.hoverlayer tspan')].map(line => line.textContent).join(' ')")
            self.assertIn(wanted.sentence, beside)

    def test_a_click_keeps_a_check(self) -> None:
        report = self.open("settled")
        kept, other = (self.told(report, "paused after 'wait'", number) for number in (20, 60))
        self.hover("paused after 'wait'", 20)
        self.browser.wait(f"document.getElementById('check-head').textContent === {json.dumps(kept.head)}")
        self.browser.click(*self.center("paused after 'wait'", 20))
        self.browser.wait("document.getElementById('check').classList.contains('kept')")
        self.hover("paused after 'wait'", 60)
        self.browser.wait(f"document.querySelector('.hoverlayer').textContent.includes({json.dumps(other.sentence[:30])})")
        self.assertEqual(self.text("check-head"), kept.head)

    def test_the_numbers_at_the_pointer(self) -> None:
        report = self.open("settled")
        x, y = self.center("paused after 'wait'", 20)
        self.browser.mouse(x, y)
        self.browser.wait("document.querySelector('#pointer span') !== null")
        moment = int(self.text("pointer").split(" ")[0])
        self.assertIn(f"{moment} ticks, {moment / 1000:.3f} s", self.text("pointer"))
        shown = dict(self.browser.value("[...document.querySelectorAll('.legend div')].map(row => [...row.children].slice(1)"
                                        ".map(cell => cell.textContent)).filter(cells => cells.length === 2)"))
        for panel in report.panels:
            for line in panel.lines:
                self.assertEqual(shown[line.name], str([value for at, value in zip(line.x, line.y) if at <= moment][-1]))

    def test_all_parts_zoom_together(self) -> None:
        self.open("settled")
        before, whole = self.center("paused after 'wait'", 80), self.browser.value("plot.layout.xaxis.range")
        self.browser.mouse(500, 250)
        self.browser.mouse(500, 250, "mousePressed", button="left", buttons=1, clickCount=1)
        for x in (550, 600, 700):
            self.browser.mouse(x, 250, button="left", buttons=1)
        self.browser.mouse(700, 250, "mouseReleased", button="left", clickCount=1)
        self.browser.wait("plot.layout.xaxis.range[1] - plot.layout.xaxis.range[0] < 12000")
        zoomed = self.browser.value("plot.layout.xaxis.range")
        self.assertTrue(whole[0] < zoomed[0] < zoomed[1] < whole[1])
        self.assertNotEqual(self.center("paused after 'wait'", 80), before, "the pauses are drawn by the same axis")
        self.browser.value("document.getElementById('switch').click()")
        self.browser.wait("document.documentElement.dataset.theme === 'dark'")
        self.assertEqual(self.browser.value("plot.layout.xaxis.range"), zoomed, "another look keeps the zoom")

    def test_light_and_dark(self) -> None:
        grounds = []
        for is_dark, name in ((False, "light"), (True, "dark")):
            self.open("strict-disk", is_dark)
            self.assertEqual(self.browser.value("document.documentElement.dataset.theme"), name)
            grounds.append(self.browser.value("plot.layout.paper_bgcolor"))
            self.assertEqual(self.browser.value("getComputedStyle(document.body).backgroundColor"),
                             {"light": "rgb(255, 255, 255)", "dark": "rgb(20, 23, 28)"}[name])
        self.assertNotEqual(*grounds)
        self.browser.look(False)
        self.browser.wait("document.documentElement.dataset.theme === 'light'")
        self.browser.value("document.getElementById('switch').click()")
        self.browser.wait("document.documentElement.dataset.theme === 'dark' && plot.layout.paper_bgcolor === '#14171c'")

    def test_a_curve_can_be_hidden_and_a_scale_changed(self) -> None:
        self.open("strict-disk")
        shown = self.browser.value(SHOWN)
        self.browser.value("[...document.querySelectorAll('.legend div')].find(row => row.textContent.startsWith('bound')).click()")
        self.browser.wait(f"{SHOWN} === {shown - 1}")
        self.browser.wait("plot.layout.yaxis.range[1] < 250")
        self.browser.value("document.querySelector('.legend button').click()")
        self.browser.wait("plot.layout.yaxis.type === 'log'")

    def test_its_tables_and_notes_are_there(self) -> None:
        report = self.open("strict-disk")
        cells = self.browser.value("[...document.querySelector('#tables table').rows].map(row => [...row.cells]"
                                   ".map(of => of.textContent))")
        self.assertEqual(cells, [report.tables[0].head, *report.tables[0].rows])
        self.assertEqual(self.browser.value("[...document.querySelectorAll('#notes li')].map(note => note.textContent)"), report.notes)
        self.assertEqual(self.browser.value("document.querySelector('#texts pre').textContent"), report.texts[0][1])

    def test_a_kernels_text(self) -> None:
        report = self.open("kernel/three-writers", True)
        drawn = self.browser.value("plot.data.map(trace => [trace.name, trace.x.length])")
        wanted = [[of.name, len(of.x)] for panel in report.panels for of in (
            [*panel.bars, *panel.dots] if panel.rows else [*panel.dots, *panel.lines])]
        self.assertEqual(drawn, wanted)
        self.hover("paused at a rate of 0, kernel", 1)
        head = self.told(report, "paused at a rate of 0, kernel", 1).head
        self.assertIn("pause: 200 ms (50 ticks)", head)
        self.browser.wait(f"document.getElementById('check-head').textContent === {json.dumps(head)}")


if __name__ == "__main__":
    unittest.main()
