"""Each line has its sentence, and a step the page that its CPU's entry tells."""
from __future__ import annotations

import unittest

from journals.events import Step, StepKind
from journals.reader import Reader
from journals.sentences import Sentences
from journals.trace_reader import read_trace

from .given import EXAMPLES, events_of, trace_of


def sentences_of(name: str) -> list[str]:
    """The sentences of a journal of texts/."""
    sentences = Sentences(trace_of(name))
    return [sentences.of(event) for event in events_of(name)]


class EachLine(unittest.TestCase):
    def test_of_a_cpu(self) -> None:
        told = sentences_of("throttled")
        for sentence in [
            "domain 1 (a cgroup) opens with a threshold of 11, a background threshold of 5 and a hard limit of 11 pages, at moment 1",
            "domain 1 (a cgroup) gets a threshold of 10, a background threshold of 5 and a hard limit of 10 pages, at moment 201",
            "task 1 dirtied page 4 (inode 1), which was not dirty",
            "flusher 0 gave 3 pages to device 0 at moment 231; they are written at 234",
            "flusher 0 completed page 5 (inode 1)",
        ]:
            self.assertIn(sentence, told)

    def test_of_each_decision(self) -> None:
        checks = [sentence for sentence in sentences_of("throttled") if "by estimate" in sentence]
        for sentence, parts in zip(checks, [("free", "doesn't pause", "dirty 16 pages"), ("go on", "pauses 7 ticks, until 8"),
                                            ("wait", "pauses 5 ticks, until 13", "checked again"), ("exempt", "doesn't pause")]):
            for part in parts:
                self.assertIn(part, sentence)

    def test_of_steps(self) -> None:
        steps = sentences_of("throttled")[-125:-3]
        self.assertEqual(steps[4:9], [
            "CPU 0 sets the dirty bit of page 4 (inode 1); domain 0 has 2 pages, 421 below its bound; domain 1 has 1 page, 154 "
            "below its bound",
            "CPU 0 adds 1 to its own number of context 1",
            "CPU 0 adds 1 to its own number of domain 0",
            "CPU 0 adds 1 to its own number of domain 1",
            "CPU 0 marks inode 1",
        ])
        self.assertEqual(steps[81], "the timer loads the shared count of domain 1")
        self.assertEqual(steps[98], "CPU 1 takes the bit of writeback from page 0 (inode 0); domain 0 has 4 pages, 419 below its "
                                    "bound")
        self.assertEqual(steps[99], "CPU 1 adds -1 to its own number of context 0")

    def test_of_a_run_that_faulted(self) -> None:
        told = sentences_of("threads")
        self.assertEqual(told.count("the disk of flusher 0 failed on 1 page, which the flusher gives back"), 7)
        self.assertIn("flusher 0 gave page 0 (inode 0) back: it had been dirtied again, and is dirty once", told)
        self.assertIn("flusher 0 gave page 0 (inode 0) back: it is dirty as before", told)
        self.assertEqual(told.count("the disk of flusher 0 failed on 1 page, for the eighth time: the flusher does nothing more"), 1)
        self.assertIn("page 0 (inode 0) is left both dirty and under writeback", told)
        self.assertIn("the CPU's own number of domain 0, -32 pages, went into its shared count, which is now at version 4", told)
        self.assertEqual(told[-1], "the disk of a flusher failed eight times")

    def test_of_a_strict_context(self) -> None:
        trace = read_trace(f"{EXAMPLES}/strict-disk.trace")
        sentences = Sentences(trace)
        told = [sentences.of(event) for event in Reader(f"{EXAMPLES}/strict-disk.journal", trace).events()]
        self.assertEqual(told[-2], "context 1, of a strict device, had at most 108 pages after a step, 15 below its bound")
        own = "free, since its context has at most its own freerun, and no domain more than its hard limit"
        self.assertEqual(sum(own in sentence for sentence in told), 12)

    def test_of_an_ageing_device(self) -> None:
        trace = read_trace(f"{EXAMPLES}/age-background.trace")
        sentences = Sentences(trace)
        told = [sentences.of(event) for event in Reader(f"{EXAMPLES}/age-background.journal", trace).events()]
        for sentence in [
            "flusher 0 noticed inode 1 at moment 1, which now waits in its list and is due at 101",
            "flusher 0 noticed inode 0 at moment 101, which now waits in its list and is due at 30101",
            "flusher 0 took inode 1 for its age, the first of its list, at moment 101: it was due at 101",
            "flusher 0 took inode 0, the first of its list, which is due at 30101",
        ]:
            self.assertEqual(told.count(sentence), 1, sentence)

    def test_of_a_fold_among_steps(self) -> None:
        trace = read_trace(f"{EXAMPLES}/fold.trace")
        sentences = Sentences(trace)
        told = {}
        for event in Reader(f"{EXAMPLES}/fold.journal", trace).events():
            sentence = sentences.of(event)
            if isinstance(event, Step):
                told[event.number] = sentence
        self.assertEqual(told[33], "CPU 0 sets the dirty bit of page 7 (inode 0); domain 0 has 8 pages, 21059 below its bound")
        self.assertEqual(told[35], "CPU 0 adds its own number of context 0 to the shared count")
        self.assertEqual(told[36], "CPU 0 takes what it folded from its own number of context 0")
        self.assertEqual(told[37], "CPU 0 adds 1 to its own number of domain 0")

    def test_each_kind_of_step_has_words(self) -> None:
        for kind in StepKind:
            sentences = Sentences(trace_of("throttled"))
            who = None if kind in (StepKind.PEAK, StepKind.UNSEAL, StepKind.THRESH, StepKind.PUBLISH) else 0
            told = sentences.of(Step(1, who, kind, (0, 0), (423, 155)))
            self.assertRegex(told, r"^(CPU 0|the timer) [a-z]+s .*[a-z]{3}")
