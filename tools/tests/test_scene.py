"""What is drawn of a journal: counts, limits and pauses, over time and over steps."""
from __future__ import annotations

import unittest

from journals.events import Check, Decision, End, Ending
from journals.reader import Reader
from journals.scene import Nearest, Scene
from journals.summary import Summary
from journals.trace_reader import read_trace

from .given import WithDirectory, events_of, examples, heard, scene_of, trace_of

LATE = """timer
limits 0 1 19995 9985 19995
cpu 0
write 0 0 fresh
claim 0 0
batch 0 1 5 7
done 0 0
est 0 1 25600 25600 25600 25600 1 1 5
cpu 1
census 0 0
totals 1 1
end done
"""
"""The last batch is given at 5, and completed at 7."""


class Scenes(WithDirectory):
    def test_pauses_over_time(self) -> None:
        scene = scene_of("throttled", False)
        spans = {key: bars.all() for key, bars in scene.pauses.items()}
        self.assertEqual(spans, {(1, 1, Decision.GO): [(1, 8, 7)], (1, 1, Decision.WAIT): [(8, 13, 5)]})
        self.assertAlmostEqual(scene.paused(1, 1), 12 / 235)

    def test_pauses_over_steps(self) -> None:
        """From the last step of the check to the first step that comes at the end of the pause or later, as high as they have steps."""
        scene = scene_of("throttled", True)
        spans = {key: bars.all() for key, bars in scene.pauses.items()}
        self.assertEqual(spans, {(1, 1, Decision.GO): [(23, 36, 13)], (1, 1, Decision.WAIT): [(49, 58, 9)]})
        self.assertAlmostEqual(scene.paused(1, 1), 22 / 122)

    def test_a_pause_that_goes_on_at_the_end(self) -> None:
        for is_over_steps, bar, share in ((True, (49, 122, 73), (73 + 13) / 122), (False, (8, 1008, 1000), 1)):
            scene = Scene(trace_of("throttled"), is_over_steps)
            for event in events_of("throttled"):
                if isinstance(event, Check) and event.decision is Decision.WAIT:
                    event.pause = 1000
                scene.take(event)
            self.assertEqual(scene.pauses[(1, 1, Decision.WAIT)].all(), [bar])
            self.assertAlmostEqual(scene.paused(1, 1), share, msg="what is left of it when the run ends doesn't count")

    def test_counts_and_limits(self) -> None:
        scene = scene_of("throttled", False)
        cgroup = scene.domains[1]
        self.assertEqual(cgroup.counts.points(), ([1, 1, 1, 1, 8, 13, 201, 231, 234, 236, 236, 236, 236],
                                                  [0, 0, 1, 1, 2, 2, 2, 2, 2, 1, 0, 1, 0]))
        self.assertEqual(cgroup.hard.points(), ([1, 201], [11, 10]))
        self.assertEqual(cgroup.freerun.points(), ([1, 201], [(11 + 5) // 2, (10 + 5) // 2]))
        self.assertEqual(cgroup.setpoint.points(), ([1, 201], [(8 + 11) // 2, (7 + 10) // 2]))

    def test_the_nearest_point_is_on_the_axis_that_is_drawn(self) -> None:
        self.assertEqual(scene_of("throttled", False).domains[1].nearest, Nearest(2, 155, 8))
        self.assertEqual(scene_of("throttled", True).domains[1].nearest, Nearest(2, 155, 36))

    def test_the_axis_ends_with_the_last_completion(self) -> None:
        trace = trace_of("threads")
        scene = heard(Scene(trace, False), Reader(self.file("late.journal", LATE), trace).events())
        self.assertEqual((scene.first, scene.last), (1, 7))

    def test_the_axis_ends_where_the_summary_says(self) -> None:
        for trace_path, journal_path in examples():
            trace = read_trace(trace_path)
            scene, summary = Scene(trace, False), Summary(trace)
            for event in Reader(journal_path, trace).events():
                scene.take(event)
                summary.take(event)
            self.assertEqual(scene.last, summary.latest, journal_path)
            self.assertLessEqual(max((curve.points()[0][-1] for curve in [scene.domains[0].counts] if curve), default=0), scene.last)

    def test_how_it_ended(self) -> None:
        scene = Scene(trace_of("threads"), False)
        scene.take(End(Ending.HALTED))
        self.assertEqual(scene.ending, "halted")


if __name__ == "__main__":
    unittest.main()
