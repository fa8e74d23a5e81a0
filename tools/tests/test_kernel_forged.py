"""Each reason that `compare` can print, in a text that bears it, and a forged number that loses it.

The texts are those of examples, of which a line is changed or left out, or a few lines made here. `test_kernel_reasons` has other forged
numbers, of whole texts.
"""
from __future__ import annotations

import os
import re
import unittest
from collections.abc import Callable, Iterable

from kernel import cgroups, checks, estimates, strict
from kernel.comparing import numbers
from kernel.numbers import Kind, Number, Verdict
from kernel.whole import Story, story_of

from .given import TESTS_TEXTS, WithDirectory
from .test_kernel import STRICT, THREE, TWO, line_of

CGROUP = os.path.join(TESTS_TEXTS, "cgroup.kernel.txt")
CONSTANTS = {value for of in (cgroups, checks, estimates, strict) for name, value in vars(of).items() if name.isupper() and isinstance(value, str)}
"""The reasons that are constants."""

LOST: set[str] = set()
"""Those that a test of this module saw lost."""

FULL = ("dirty=5000 writeback=2000 bg_thresh=4000 thresh=8000 limit=8000 dirtied=90000 written=80000")
OWN = ("bdi 7:0: limit=8000 setpoint=7000 dirty=7000 wb_setpoint=6999 wb_dirty={own} dirty_ratelimit={ratelimit} task_ratelimit={rate} "
       "dirtied={dirtied} dirtied_pause={allowance} paused=0 pause={pause} period={period} think={think} cgroup_ino=1")
TOLD = ("bdi 7:0: write_bw={bandwidth} awrite_bw={average} dirty_rate=4000 dirty_ratelimit=32000 task_ratelimit=32000 "
        "balanced_dirty_ratelimit=32000 cgroup_ino=1")
MANY = {"own": 30000, "rate": 40000, "period": 8, "pause": 8}


class EachReason(WithDirectory):
    def numbers(self, lines: Iterable[str], *disks: str) -> dict[tuple[int, Kind], Number]:
        """The numbers of a text of these lines."""
        return {(it.line, it.kind): it for it in numbers(self.story(lines, *disks))}

    def story(self, lines: Iterable[str], *disks: str) -> Story:
        """The text, read."""
        return story_of(self.file("text", "".join(lines)), 250, disks)

    def lines_of(self, path: str, many: int | None = None) -> list[str]:
        """The first lines of a text."""
        with open(path, encoding="latin-1") as file:
            return file.read().splitlines(keepends=True)[:many]

    def forged(self, lines: list[str], line: int, field: str, to: Callable[[int], int] | int) -> list[str]:
        """The lines, of which a field of one is another number."""
        changed, many = re.subn(rf"(?<= {field}=)-?\d+", lambda it: str(to if isinstance(to, int) else to(int(it[0]))), lines[line - 1], count=1)
        self.assertEqual(many, 1, (line, field))
        return [*lines[:line - 1], changed, *lines[line:]]

    def assert_lost(self, of: object, name: str, before: Number, after: Number | None) -> None:
        """A number had a reason, and where another one is forged it is unexplained."""
        reason = getattr(of, name)
        LOST.add(reason)
        self.assertIn(reason, before.reason, before)
        self.assertNotIn(before.verdict, (Verdict.EQUAL, Verdict.UNEXPLAINED))
        if after is not None:
            self.assertEqual((after.verdict, reason in after.reason), (Verdict.UNEXPLAINED, False), after)

    def small(self, average: int, bandwidth: int, after: int | None, *own: dict[str, int]) -> list[str]:
        """An estimate, checks of a task, and perhaps a next estimate with this average."""
        def line(event: str, fields: str, at: float) -> str:
            return line_of(event, fields, f"  dd-7  [000] .....  {100 + at:.6f}") + "\n"

        lines = [line("bdi_dirty_ratelimit", TOLD.format(bandwidth=4 * bandwidth, average=4 * average), 0)]
        for at, it in enumerate(own):
            fields = {"own": 3000, "ratelimit": 32000, "rate": 0, "dirtied": 32, "allowance": 32, "pause": 0, "period": 0, "think": 0, **it}
            lines += [line("global_dirty_state", FULL, 0.3 + 0.3 * at), line("balance_dirty_pages", OWN.format(**fields), 0.3001 + 0.3 * at)]
        return lines + ([line("bdi_dirty_ratelimit", TOLD.format(bandwidth=4 * after, average=4 * after), 0.9)] if after else [])

    def test_free_or_not_and_pages_by_a_counter(self) -> None:
        lines = self.lines_of(THREE, 400)
        story = self.story(lines)
        joined = next(it for it in story.checks if it.state and it.check.line > 300)
        assert joined.state
        state, freerun = joined.state, (joined.state.thresh + joined.state.background) // 2
        found = [self.numbers(self.forged(lines, state.line, "dirty", freerun - state.writeback - below)) for below in (100, 300)]
        self.assert_lost(checks, "COUNTERS", *(it[state.line, Kind.FREE] for it in found))
        free = story.frees[20].state
        near = self.forged(lines, free.line, "dirty", lambda of: of - free.count + freerun + 100)
        found = [self.numbers(it) for it in (near, self.forged(near, free.line, "dirty", lambda of: of + 200))]
        self.assert_lost(checks, "COUNTERS", *(it[free.line, Kind.FREE] for it in found))
        found = [self.numbers(self.forged(lines, state.line, "dirty", joined.check.dirty - state.writeback + more)) for more in (60, 300)]
        self.assert_lost(checks, "COUNTERS", *(it[joined.check.line, Kind.COUNT] for it in found))

    def test_an_allowance_after_a_free_check_by_a_counter(self) -> None:
        lines = self.lines_of(THREE, 700)
        joined = next(it for it in self.story(lines).checks if it.free and it.previous and it.state)
        assert joined.free
        free, line = joined.free, joined.check.line
        edge = self.forged(lines, free.line, "dirty", free.thresh - 1024 - 50 - (free.count - free.dirty))
        found = [self.numbers(self.forged(edge, line, "dirtied_pause", to))[line, Kind.ALLOWANCE] for to in (16, 32, 8)]
        self.assertEqual(found[1].verdict, Verdict.EQUAL)
        self.assert_lost(checks, "COUNTERS", found[0], found[2])

    def test_times_and_a_tick(self) -> None:
        lines = self.lines_of(THREE)
        of_text = self.numbers(lines)
        for name, kind, field in (("TIMES", Kind.THINK, "think"), ("TICK", Kind.PAUSE, "pause")):
            it = next(it for it in of_text.values() if it.kind is kind and it.verdict is Verdict.WITHIN)
            self.assert_lost(checks, name, it, self.numbers(self.forged(lines, it.line, field, it.kernel + 12))[it.line, kind])

    def test_a_think_that_is_counted_from_the_kernel_s_start(self) -> None:
        def line(event: str, fields: str, at: float) -> str:
            return line_of(event, fields, f"  cat-311  [001] .....  {at:.6f}") + "\n"

        def lines(think: int, period: int) -> list[str]:
            first, second = ({"own": 29, "ratelimit": 90700, "rate": 7792, "dirtied": 32, "allowance": 32, "pause": 0, **it}
                             for it in ({"period": period, "think": 0}, {"period": 0, "think": think}))
            return [line("global_dirty_state", FULL, 329.4), line("balance_dirty_pages", OWN.format(**first), 329.443343),
                    line("global_dirty_state", FULL, 333.0), line("balance_dirty_pages", OWN.format(**second), 333.082009)]

        told = 17179901136
        found = self.numbers(lines(told, 16))[4, Kind.THINK]
        for think, period in ((told + 4000, 16), (told - 4000, 16), (told - (4 << 32), 16), (told, 0)):
            self.assert_lost(checks, "START", found, self.numbers(lines(think, period)).get((4, Kind.THINK)))

    def test_a_rate_by_an_average_between(self) -> None:
        lines = self.lines_of(THREE, 1300)
        samples = [at for at, line in enumerate(lines) if "bdi_dirty_ratelimit" in line]
        fewer = [line for at, line in enumerate(lines) if at not in samples[8:11]]
        of_text = self.numbers(fewer)
        it = next(it for it in of_text.values() if it.kind is Kind.RATE and it.verdict is Verdict.BETWEEN)
        self.assert_lost(checks, "BETWEEN", it, self.numbers(self.forged(fewer, it.line, "task_ratelimit", lambda rate: 2 * rate))[it.line, it.kind])

    def test_spans_and_an_allowance_by_an_average_between(self) -> None:
        for kind, field in ((Kind.PERIOD, "period"), (Kind.PAUSE, "pause")):
            found = [self.numbers(self.small(1000, 1000, 4000, {field: ticks * 4}))[3, kind] for ticks in (38, 20)]
            self.assert_lost(checks, "BETWEEN", *found)
        found = [self.numbers(self.small(8000, 8000, 40000, MANY, {"allowance": pages}))[5, Kind.ALLOWANCE] for pages in (187, 188)]
        self.assert_lost(checks, "BETWEEN", *found)

    def test_spans_and_an_allowance_after_the_last_line(self) -> None:
        for kind, field in ((Kind.PERIOD, "period"), (Kind.PAUSE, "pause")):
            found = [self.numbers(self.small(4000, 400, None, {}, {field: ticks * 4}))[5, kind] for ticks in (30, 48)]
            self.assert_lost(checks, "LATER", *found)
        found = [self.numbers(self.small(8000, 40000, None, {}, MANY, {"allowance": pages}))[7, Kind.ALLOWANCE] for pages in (187, 188)]
        self.assert_lost(checks, "LATER", *found)

    def test_a_pause_after_the_last_line_and_a_tick(self) -> None:
        dirtied, rate = 30, 4 * 250
        found = [self.numbers(self.small(4000, 400, None, {}, {"rate": rate, "dirtied": dirtied, "period": 120, "pause": pause}))[5, Kind.PAUSE]
                 for pause in (124, 136)]
        self.assert_lost(checks, "TICK", *found)
        self.assert_lost(checks, "LATER", *found)

    def test_a_rate_after_the_last_line(self) -> None:
        lines = self.lines_of(THREE, 1300)
        samples = [at for at, line in enumerate(lines) if "bdi_dirty_ratelimit" in line]
        fewer = [line for at, line in enumerate(lines) if at < samples[8] or at not in samples]
        it = next(it for it in self.numbers(fewer).values() if it.kind is Kind.RATE and it.verdict is Verdict.BETWEEN)
        self.assert_lost(checks, "LATER", it, self.numbers(self.forged(fewer, it.line, "task_ratelimit", lambda rate: 2 * rate))[it.line, it.kind])

    def test_an_average_by_updates_without_a_line(self) -> None:
        lines = self.lines_of(THREE, 1300)
        samples = [at for at, line in enumerate(lines) if "bdi_dirty_ratelimit" in line]
        for left_out, how in (([5], "an update without a line gave it"), ([5, 6], "two updates without a line gave it"),
                              ([8, 9, 10], "there was time for 4 updates without a line")):
            fewer = [line for at, line in enumerate(lines) if at not in [samples[it] for it in left_out]]
            line = samples[left_out[0] - 1] + 1
            after = samples[left_out[-1] + 1] + 1 - len(left_out)
            it = self.numbers(fewer)[line, Kind.AVERAGE]
            self.assertEqual((it.verdict, it.reason[:len(how)]), (Verdict.BETWEEN, how))
            for times in (3, 0.1):
                found = self.numbers(self.forged(fewer, after, "awrite_bw", lambda of, times=times: int(of * times)))  # type: ignore[misc]
                self.assertEqual(found[line, Kind.AVERAGE].verdict, Verdict.UNEXPLAINED, (how, times))

    def test_a_limit_that_another_disk_s_check_moved(self) -> None:
        lines = self.lines_of(TWO)
        story = self.story(lines)
        sample = next(at.sample for before, at in zip(story.estimates, story.estimates[1:])
                      if at.check and at.sample.disk != before.sample.disk and at.sample.time - before.sample.time < 0.1)
        high = self.forged(lines, sample.line - 1, "limit", 80000)
        found = [self.numbers(self.forged(high, sample.line + 1, "limit", limit))[sample.line + 1, Kind.FOLLOWING] for limit in (80000, 79999)]
        self.assert_lost(estimates, "MOVED", *found)

    def test_numbers_of_a_strict_disk_that_isn_t_named(self) -> None:
        lines = self.lines_of(STRICT)
        of_text = self.numbers(lines)
        for kind, field in ((Kind.RATE, "task_ratelimit"), (Kind.ALLOWANCE, "dirtied_pause"), (Kind.SAMPLE_RATE, "task_ratelimit"),
                            (Kind.RATE_LIMIT, "dirty_ratelimit")):
            it = next(it for it in of_text.values() if it.kind is kind and it.reason == checks.STRICT and it.kernel > 20)
            self.assert_lost(checks, "STRICT", it, self.numbers(self.forged(lines, it.line, field, lambda of: of + 400))[it.line, kind])
        it = next(it for it in of_text.values() if it.kind is Kind.FREE and it.reason == checks.STRICT)
        check = next(at.check for at in self.story(lines).checks if at.state and at.state.line == it.line)
        found = self.numbers(self.forged(lines, check.line, "task_ratelimit", lambda of: of + 400))
        self.assert_lost(checks, "STRICT", it, found[it.line, Kind.FREE])

    def test_numbers_of_a_strict_disk(self) -> None:
        lines = self.lines_of(STRICT)
        of_text = self.numbers(lines, "7:0")
        for kind, field in ((Kind.SAMPLE_RATE, "task_ratelimit"), (Kind.RATE_LIMIT, "dirty_ratelimit")):
            it = next(it for it in of_text.values() if it.kind is kind and it.reason == strict.ESTIMATE)
            self.assert_lost(strict, "ESTIMATE", it, self.numbers(self.forged(lines, it.line, field, lambda of: of + 400), "7:0")[it.line, kind])
        it = next(it for it in of_text.values() if it.kind is Kind.ALLOWANCE and it.kernel == 32
                  and any(at.check.line == it.line and at.free for at in self.story(lines, "7:0").checks))
        found = [self.numbers(self.forged(lines, it.line, "dirtied_pause", to), "7:0")[it.line, Kind.ALLOWANCE] for to in (64, 65)]
        self.assert_lost(strict, "PAGES", *found)

    def test_a_free_writer_of_a_strict_disk_above_the_hard_limit(self) -> None:
        lines = self.lines_of(STRICT)
        free = next(it.state for it in self.story(lines, "7:0").frees if it.is_strict)
        above = self.forged(lines, free.line, "dirty", lambda of: of - free.count + free.limit + 1)
        found = [self.numbers(it, "7:0") for it in (above, self.forged(above, free.line, "dirty", lambda of: of - 1))]
        self.assert_lost(strict, "ABOVE_HARD", found[0][free.line, Kind.FREE], None)
        self.assertNotIn((free.line, Kind.FREE), found[1])

    def test_numbers_by_a_cgroup_s_own_domain(self) -> None:
        lines = self.lines_of(CGROUP)
        of_text = self.numbers(lines)
        line = next(it.line for it in of_text.values() if it.kind is Kind.COUNT and it.reason == cgroups.PAGES and it.line > 100
                    and of_text[it.line, Kind.RATE].kernel > 1000)
        for name, kind, field, to in (("THRESHOLD", Kind.RATE, "task_ratelimit", lambda of: 2 * of),
                                      ("PAGES", Kind.COUNT, "dirty", lambda of: of + 90000),
                                      ("SETPOINT", Kind.SETPOINT, "setpoint", lambda of: of - 7000)):
            found = self.numbers(self.forged(lines, line, field, to))
            self.assert_lost(cgroups, name, of_text[line, kind], found[line, kind])

    def test_what_a_cgroup_s_own_domain_held(self) -> None:
        lines = self.lines_of(CGROUP)
        joined = [at for at in self.story(lines).checks if at.check.is_of_cgroup and at.check.rate > 1000 and at.state][-1]
        state, line = joined.state, joined.check.line
        assert state
        freerun = (state.thresh + state.background) // 2
        self.assertGreater(freerun - 300, joined.check.dirty)
        free = self.forged(lines, state.line, "dirty", freerun - 300 - state.writeback)
        found = [self.numbers(it)[state.line, Kind.FREE] for it in (free, self.forged(free, line, "task_ratelimit", lambda of: 2 * of))]
        self.assert_lost(cgroups, "DOMAIN", *found)

    def test_the_smaller_interval_of_a_cgroup(self) -> None:
        lines = self.lines_of(CGROUP)
        joined = [at for at in self.story(lines).checks if at.check.is_of_cgroup and at.previous and at.state][-1]
        assert joined.state
        twice = [*lines[:joined.state.line], *lines[joined.state.line - 1:]]
        line = joined.check.line + 1
        found = [self.numbers(self.forged(twice, line, "dirtied_pause", to))[line, Kind.ALLOWANCE] for to in (8, 9, 1 << 14)]
        for other in found[1:]:
            self.assert_lost(cgroups, "INTERVAL", found[0], other)

    def test_an_estimate_by_the_machine_s_domain_in_a_cgroup(self) -> None:
        lines = self.lines_of(CGROUP)
        pair = [at for at in self.story(lines).estimates if at.first and at.check][3]
        alone = [*lines[:pair.sample.line - 1], *lines[pair.sample.line:]]
        line = pair.sample.line - 1
        found = [self.numbers(it)[line, Kind.SAMPLE_RATE] for it in (alone, self.forged(alone, line, "task_ratelimit", lambda of: 9 * of + 4000))]
        self.assert_lost(cgroups, "CONTEXT", *found)

    def test_an_estimate_by_a_cgroup_s_domain_of_a_check_by_the_machine_s(self) -> None:
        lines = self.lines_of(CGROUP)
        pair = [at for at in self.story(lines).estimates if at.first and at.check and at.check.state][3]
        assert pair.check and pair.check.state and pair.first
        state, check = pair.check.state, pair.check.check
        plain = self.forged(self.forged(lines, check.line, "dirty", state.count), check.line, "setpoint",
                            (check.limit + (state.thresh + state.background) // 2) // 2)
        least = check.rate * 1024 // check.ratelimit * pair.first.ratelimit // 1024
        found = [self.numbers(self.forged(plain, pair.sample.line, "task_ratelimit", 4 * rate))[pair.sample.line, Kind.SAMPLE_RATE]
                 for rate in (2 * least + 9, least // 2)]
        self.assert_lost(cgroups, "RATIO", *found)

    @classmethod
    def tearDownClass(cls) -> None:
        if len(LOST) > 9 and (kept := CONSTANTS - LOST):
            raise AssertionError(f"no test saw these reasons lost: {sorted(kept)}")
        super().tearDownClass()


if __name__ == "__main__":
    unittest.main()
