"""A picture of each domain has what its names say. Left out where matplotlib isn't there."""
from __future__ import annotations

import contextlib
import io
import itertools
import os
import unittest
from typing import Any

from journals import picture
from journals.events import Decision
from journals.reader import Reader
from journals.scene import Scene
from journals.trace_reader import read_trace
from program.main import main

from .given import EXAMPLES, WithDirectory, heard, scene_of, text_path

LEFT_OUT = "matplotlib isn't there: the pictures are left out"
LIMITS = ["hard limit", "threshold", "setpoint", "freerun", "background threshold"]


def plot(name: str, *words: str) -> tuple[int, str]:
    """Draws a journal of texts/, and answers the status and what is said on standard error."""
    with contextlib.redirect_stdout(io.StringIO()), contextlib.redirect_stderr(io.StringIO()) as said:
        return main(["plot", text_path(f"{name}.trace"), text_path(f"{name}.journal"), *words]), said.getvalue()


def labels(axes: Any) -> list[str]:
    """The names in the legend of a part, without their values."""
    return [label.partition(":")[0] for label in axes.get_legend_handles_labels()[1]]


def label_of(axes: Any, name: str) -> str:
    """A name in the legend of a part, with its values."""
    return next(label for label in axes.get_legend_handles_labels()[1] if label.startswith(name))


def line_of(axes: Any, name: str) -> Any:
    """The line with a name."""
    return next(line for line in axes.get_lines() if line.get_label().startswith(name))


def example(name: str, is_over_steps: bool) -> Scene:
    """What is drawn of an example."""
    trace = read_trace(f"{EXAMPLES}/{name}.trace")
    return heard(Scene(trace, is_over_steps), Reader(f"{EXAMPLES}/{name}.journal", trace).events())


@unittest.skipUnless(picture.is_there(), LEFT_OUT)
class Files(WithDirectory):
    def test_a_file_for_each_domain(self) -> None:
        for ending, begins in (("png", b"\x89PNG"), ("svg", b"<?xml"), ("pdf", b"%PDF")):
            directory = os.path.join(self.directory, ending)
            self.assertEqual(plot("throttled", directory, "--name", "t", "--format", ending), (0, ""))
            names = [f"t-domain-0.{ending}", f"t-domain-1.{ending}"]
            self.assertEqual(sorted(os.listdir(directory)), names)
            for name in names:
                with open(os.path.join(directory, name), "rb") as file:
                    self.assertTrue(file.read().startswith(begins), name)

    def test_the_name_is_that_of_the_journal(self) -> None:
        self.assertEqual(plot("throttled", self.directory)[0], 0)
        self.assertEqual(sorted(os.listdir(self.directory)), ["throttled-domain-0.png", "throttled-domain-1.png"])

    def test_nothing_is_written_over(self) -> None:
        path = self.file("throttled-domain-1.png", "mine")
        status, said = plot("throttled", self.directory)
        self.assertEqual((status, said), (1, f"wb: {path} lies there already (--force writes over it)\n"))
        self.assertEqual(os.listdir(self.directory), ["throttled-domain-1.png"])
        with open(path, encoding="ascii") as file:
            self.assertEqual(file.read(), "mine")
        self.assertEqual(plot("throttled", "--force", self.directory)[0], 0)
        self.assertGreater(os.path.getsize(path), 1000)

    def test_one_journal_gives_one_picture(self) -> None:
        for ending in ("png", "svg", "pdf"):
            found = set()
            for turn in ("first", "second"):
                path = os.path.join(self.directory, f"{turn}.{ending}")
                picture.draw(scene_of("throttled", False), 0, "throttled", path)
                with open(path, "rb") as file:
                    found.add(file.read())
            self.assertEqual(len(found), 1, ending)

    def test_an_axis_without_length(self) -> None:
        new = os.path.join(self.directory, "new")
        self.assertEqual(plot("threads", new, "--over", "steps"), (1, "wb: --over steps: the journal has no steps\n"))
        with contextlib.redirect_stderr(io.StringIO()) as said:
            self.assertEqual(main(["plot", f"{EXAMPLES}/empty.trace", f"{EXAMPLES}/empty.journal", new]), 1)
        self.assertIn("the whole journal is at time 1", said.getvalue())
        self.assertEqual(os.listdir(self.directory), [])


@unittest.skipUnless(picture.is_there(), LEFT_OUT)
class Parts(unittest.TestCase):
    def test_parts_of_a_replay(self) -> None:
        counts, pauses, rates = picture.compose(scene_of("throttled", False), 1, "throttled").axes
        self.assertEqual(labels(counts), ["bound", *LIMITS, "exact count"])
        self.assertEqual(counts.get_title(loc="left"), "nearest to the bound at time 8: 2 of 155 pages, 153 below")
        self.assertEqual(labels(pauses), ["paused after 'go'", "paused after 'wait'"])
        self.assertEqual([label.get_text() for label in pauses.get_yticklabels()], ["task 1\npaused 5 %"], "12 of 235 ticks")
        self.assertEqual(labels(rates), ["rate limit, context 1", "bandwidth, context 1"])
        self.assertEqual((rates.get_xlabel(), rates.get_ylabel()), ("time (ticks of 1 ms)", "pages/s (log scale)"))

    def test_over_steps(self) -> None:
        counts, pauses, rates = picture.compose(scene_of("throttled", True), 1, "throttled").axes
        self.assertEqual(counts.get_title(loc="left"), "nearest to the bound at step 36: 2 of 155 pages, 153 below")
        self.assertIn("the highest is 13 steps", pauses.get_title(loc="left"))
        self.assertEqual(rates.get_xlabel(), "steps")

    def test_a_context_of_a_strict_device(self) -> None:
        scene = example("strict-disk", False)
        counts, own, pauses, rates = picture.compose(scene, 0, "strict-disk").axes
        self.assertEqual(labels(own), ["own threshold", "own freerun", "count that checks read"])
        self.assertEqual(label_of(own, "own threshold"), "own threshold: 39 to 99")
        self.assertEqual(own.get_title(loc="left"), "context 1, of a strict device")
        self.assertEqual(len(picture.compose(example("settled", False), 0, "settled").axes), 3, "no strict device")

    def test_the_inodes_that_wait(self) -> None:
        _, waiting, _ = picture.compose(example("age-disk", False), 0, "age-disk").axes
        self.assertEqual(labels(waiting), ["list of flusher 0"])
        self.assertEqual(label_of(waiting, "list"), "list of flusher 0: 0 to 18")
        self.assertEqual(waiting.get_title(loc="left"), "inodes that wait for their age")

    def test_a_part_of_which_nothing_is_told_is_left_out(self) -> None:
        self.assertEqual(len(picture.compose(example("stopped", True), 0, "stopped").axes), 2, "no estimates")
        self.assertEqual(len(picture.compose(example("two-disks", False), 0, "two-disks").axes), 1, "no pauses either")

    def test_a_bar_is_as_high_as_its_pause_is_long(self) -> None:
        axes = picture.compose(scene_of("throttled", False), 1, "throttled").axes[1]
        boxes = [collection.get_paths()[0].get_extents() for collection in axes.collections]
        self.assertEqual([(box.x0, box.x1) for box in boxes], [(1, 8), (8, 13)])
        self.assertAlmostEqual(boxes[1].height / boxes[0].height, 5 / 7)
        self.assertIn("the highest is 7 ticks", axes.get_title(loc="left"))

    def test_pauses_are_drawn_one_by_one(self) -> None:
        scene = example("settled", False)
        axes = picture.compose(scene, 0, "settled").axes[1]
        drawn = sum(len(collection.get_paths()) for collection in axes.collections)
        self.assertEqual(drawn, sum(len(bars.all()) for bars in scene.pauses.values()))
        self.assertEqual(drawn, 2 * 113, "as many as the tasks paused")
        parted = sum((collection.get_edgecolors() == 1).all(axis=1).sum() for collection in axes.collections)
        self.assertGreater(parted, 0.9 * drawn, "a white edge parts all but the shortest")

    def test_a_share_is_only_nothing_where_it_is(self) -> None:
        self.assertEqual([picture.percent(share) for share in (0, 0.0001, 0.051, 1)], ["0 %", "<1 %", "5 %", "100 %"])

    def test_a_cgroup_has_no_pause_of_another_domain(self) -> None:
        scene = scene_of("throttled", False)
        scene.pauses[(1, 0, Decision.EXEMPT)] = scene.pauses[(1, 1, Decision.GO)]
        self.assertNotIn("paused after 'exempt'", labels(picture.compose(scene, 1, "throttled").axes[1]))
        self.assertIn("paused after 'exempt'", labels(picture.compose(scene, 0, "throttled").axes[1]))

    def test_the_global_domain_has_all_tasks_and_contexts(self) -> None:
        _, pauses, rates = picture.compose(scene_of("throttled", True), 0, "throttled").axes
        self.assertEqual([label.get_text() for label in pauses.get_yticklabels()], ["task 0\npaused 0 %", "task 1\npaused 18 %"])
        self.assertEqual(len(labels(rates)), 4)


@unittest.skipUnless(picture.is_there(), LEFT_OUT)
class Looks(unittest.TestCase):
    def test_curves_hold_the_values(self) -> None:
        counts = picture.compose(scene_of("throttled", True), 0, "throttled").axes[0]
        self.assertEqual(list(line_of(counts, "exact count").get_ydata())[:6], [1, 1, 1, 1, 2, 2])
        self.assertEqual(set(line_of(counts, "bound").get_ydata()), {423})
        self.assertEqual(set(line_of(counts, "hard limit").get_ydata()), {199})
        self.assertEqual((label_of(counts, "hard limit"), label_of(counts, "exact count")), ("hard limit: 199", "exact count: at most 5"))

    def test_limits_of_one_value_are_told_apart(self) -> None:
        counts = picture.compose(example("settled", False), 0, "settled").axes[0]
        self.assertEqual((label_of(counts, "hard limit"), label_of(counts, "threshold")), ("hard limit: 192", "threshold: 192"))
        hard, bound, thresh = (line_of(counts, name) for name in ("hard limit", "bound", "threshold"))
        self.assertLess(hard.get_zorder(), bound.get_zorder())
        self.assertLess(bound.get_zorder(), thresh.get_zorder())
        self.assertGreater(hard.get_linewidth(), 2 * bound.get_linewidth())
        self.assertEqual((bound.get_linestyle(), thresh.get_linestyle()), ("-", "--"))

    def test_a_colour_has_one_meaning(self) -> None:
        colours = [picture.COUNT, picture.BOUND, picture.HARD, picture.THRESHOLD, picture.SETPOINT, picture.FREERUN,
                   picture.BACKGROUND, *picture.PAUSES.values(), *picture.CONTEXTS]
        parts = [[int(colour[place : place + 2], 16) for place in (1, 3, 5)] for colour in colours]
        for one, other in itertools.combinations(parts, 2):
            self.assertGreater(sum(abs(a - b) for a, b in zip(one, other)), 60, (one, other))

    def test_rates_that_lie_far_apart_have_a_log_scale(self) -> None:
        scene = scene_of("throttled", False)
        self.assertEqual(picture.compose(scene, 1, "throttled").axes[2].get_yscale(), "log", "1000 and 25600")
        scene.bandwidths[1] = scene.rate_limits[1]
        rates = picture.compose(scene, 1, "throttled").axes[2]
        self.assertEqual((rates.get_yscale(), rates.get_ylabel()), ("linear", "pages/s"), "25600 alone")

    def test_places_are_whole_numbers(self) -> None:
        axes = picture.compose(example("two-pages", False), 0, "two-pages").axes[-1]
        axes.figure.canvas.draw()
        self.assertTrue(all(place == int(place) for place in axes.get_xticks()), list(axes.get_xticks()))

    def test_a_journal_without_steps(self) -> None:
        counts = picture.compose(scene_of("threads", False), 0, "threads").axes[0]
        self.assertEqual(labels(counts), ["bound by its formula", *LIMITS, "count that checks read"])
        self.assertEqual(set(line_of(counts, "bound").get_ydata()), {402142})
        self.assertEqual(counts.get_ylabel(), "pages (log scale)")
