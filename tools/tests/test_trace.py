"""A trace means here what it means to wbsim, and is refused at the same line for the same cause."""
from __future__ import annotations

import os

from journals.trace import Cgroup, FirstEstimate, Flusher, Order, Pace, RestAction, Tick, WriteAction
from journals.trace_reader import read_trace, trace_of as trace_of_text
from journals.trace_text import trace_text
from journals.whole_text import WholeText
from program.errors import Cause, Fault

from .given import EXAMPLES, WithDirectory, trace_of

MACHINE = "cpus 1\navail 0 100000\ndevice 0 25600 0 100\ncontext 0 0 0\ninode 0 0 2\ntask 0 0\nflusher 0 0 0\n"

REFUSED = [
    ("", 0, Cause.MISSING),
    ("cpus 1\n", 0, Cause.MISSING),
    ("cpus 1\navail 0 1\ndevice 0 1 0 100\n", 0, Cause.MISSING),
    ("cpus 01\n", 1, Cause.BAD_LINE),
    ("cpus  1\n", 1, Cause.BAD_LINE),
    ("cpus 1 2\n", 1, Cause.BAD_LINE),
    ("cpus 1\r\n", 1, Cause.BAD_LINE),
    ("cpus 1\n\n", 2, Cause.BAD_LINE),
    ("cpus 1\navail 0 1", 2, Cause.BAD_LINE),
    ("cpus 1000000000000000000\n", 1, Cause.BAD_LINE),
    ("cpus 999999999999999999\n", 1, Cause.OUT_OF_RANGE),
    ("\xff\n", 1, Cause.BAD_LINE),
    ("cpus 65\n", 1, Cause.OUT_OF_RANGE),
    ("cpus 1\ncpus 1\n", 2, Cause.GIVEN_TWICE),
    ("avail 1 1\n", 1, Cause.OUT_OF_RANGE),
    ("avail 0 1\navail 0 1\n", 2, Cause.OUT_OF_RANGE),
    ("device 0 1 60 100\ndevice 1 1 41 100\n", 2, Cause.OUT_OF_RANGE),
    ("device 0 1 0 100\ndevice 0 1 0 100\n", 2, Cause.GIVEN_TWICE),
    ("device 0 1 0 100\ncontext 0 0 1\n", 2, Cause.UNKNOWN_NAME),
    ("device 0 1 0 100\nstrict 1\n", 2, Cause.UNKNOWN_NAME),
    ("device 0 1 0 100\nstrict 0\nstrict 0\n", 3, Cause.GIVEN_TWICE),
    ("device 0 1 0 100\nstrict 0 0\n", 2, Cause.BAD_LINE),
    (MACHINE + "expire 1 10\n", 8, Cause.UNKNOWN_NAME),
    (MACHINE + "expire 0 10\nexpire 0 100001\n", 9, Cause.GIVEN_TWICE),
    (MACHINE + "expire 0 0\n", 8, Cause.OUT_OF_RANGE),
    (MACHINE + "expire 0 100001\n", 8, Cause.OUT_OF_RANGE),
    (MACHINE + "expire 0\n", 8, Cause.BAD_LINE),
    (MACHINE + "chunk 0 0\n", 8, Cause.OUT_OF_RANGE),
    (MACHINE + "chunk 0 2097153\n", 8, Cause.OUT_OF_RANGE),
    (MACHINE + "chunk 0 2097152\nchunk 0 5\n", 9, Cause.GIVEN_TWICE),
    (MACHINE + "chunk 1 0\n", 8, Cause.UNKNOWN_NAME),
    (MACHINE + "chunk 0\n", 8, Cause.BAD_LINE),
    (MACHINE + "cyclic 7\n", 8, Cause.UNKNOWN_NAME),
    (MACHINE + "cyclic 0\ncyclic 0\n", 9, Cause.GIVEN_TWICE),
    (MACHINE + "cyclic 0 1\n", 8, Cause.BAD_LINE),
    (MACHINE + "estimate 0 0 1 1\n", 8, Cause.OUT_OF_RANGE),
    (MACHINE + "estimate 0 1 1 1099511627777\n", 8, Cause.OUT_OF_RANGE),
    (MACHINE + "estimate 0 1 1099511627776 1\nestimate 0 1 1 0\n", 9, Cause.GIVEN_TWICE),
    (MACHINE + "estimate 1 1 1 1\n", 8, Cause.UNKNOWN_NAME),
    (MACHINE + "pace 1 1 1\n", 8, Cause.UNKNOWN_NAME),
    (MACHINE + "pace 0 0 1\n", 8, Cause.OUT_OF_RANGE),
    (MACHINE + "pace 0 2097153 1\n", 8, Cause.OUT_OF_RANGE),
    (MACHINE + "pace 0 1 1000000000001\n", 8, Cause.OUT_OF_RANGE),
    (MACHINE + "pace 0 2097152 1000000000000\npace 0 0 0\n", 9, Cause.GIVEN_TWICE),
    ("task 0 0\n", 1, Cause.UNKNOWN_NAME),
    ("order 0 1\n", 1, Cause.UNKNOWN_NAME),
    ("cpus 1\ntask 1 0\n", 2, Cause.OUT_OF_RANGE),
    ("halt 1\nhalt 1\n", 2, Cause.GIVEN_TWICE),
    (MACHINE + "write 0 0 1 2\n", 8, Cause.OUT_OF_RANGE),
    (MACHINE + "write 0 1 0 1\n", 8, Cause.UNKNOWN_NAME),
    (MACHINE + "inode 1 0 2097151\n", 8, Cause.TOO_MANY),
    (MACHINE + "set dirty_ratio 101\n", 8, Cause.OUT_OF_RANGE),
    (MACHINE + "set dirty_speed 1\n", 8, Cause.BAD_LINE),
    ("".join(f"device {d} 1 0 100\n" for d in range(17)), 17, Cause.TOO_MANY),
]


class Traces(WithDirectory):
    def test_each_cause_and_line(self) -> None:
        for content, line, cause in REFUSED:
            with self.subTest(content[-40:]), self.assertRaises(Fault) as caught:
                read_trace(self.file("trace", content))
            self.assertEqual((caught.exception.line, caught.exception.cause), (line, cause), content)

    def test_every_example_is_read(self) -> None:
        names = [name for name in os.listdir(EXAMPLES) if name.endswith(".trace")]
        self.assertGreater(len(names), 5)
        for name in names:
            self.assertGreater(read_trace(os.path.join(EXAMPLES, name)).cpus, 0, name)

    def test_what_a_trace_has(self) -> None:
        trace = trace_of("throttled")
        self.assertEqual((trace.cpus, trace.cap, trace.domains, trace.pages), (2, 16, 2, 8))
        self.assertEqual(trace.flushers, [Flusher(device=0, cpu=1)])
        self.assertEqual(trace.actions[0], [WriteAction(0, 0, 2), RestAction(230), WriteAction(0, 2, 1)])
        self.assertEqual(trace.actions[1], [WriteAction(1, 4, 2)], "pages run through the inodes")
        self.assertEqual(trace.writers(), {(0, 0), (1, 1)})
        self.assertEqual((trace.contexts_of(0), trace.contexts_of(1)), ([0, 1], [1]))

    def test_strict_devices(self) -> None:
        more = "device 1 1 0 100\ncontext 1 1 0\ncontext 2 0 0\nflusher 1 1 0\nstrict 0\n"
        trace = trace_of_text(WholeText("t", f"{MACHINE}{more}".encode("ascii")))
        self.assertEqual([device.is_strict for device in trace.devices], [True, False])
        self.assertEqual(trace.strict_contexts(), [0, 2])

    def test_ageing_devices(self) -> None:
        more = "device 1 1 0 100\ncontext 1 1 0\ncontext 2 1 0\nflusher 1 1 0\nexpire 2 100000\n"
        trace = trace_of_text(WholeText("t", f"{MACHINE}{more}".encode("ascii")))
        self.assertEqual([context.expire for context in trace.contexts], [None, None, 100000])
        self.assertEqual(trace.ageing_devices(), [1])

    def test_further_lines_of_things(self) -> None:
        more = "device 1 1 0 100\ncontext 1 1 0\nflusher 1 1 0\nchunk 1 5\ncyclic 0\nestimate 1 100 90 50\npace 0 2 50\n"
        trace = trace_of_text(WholeText("t", f"{MACHINE}{more}".encode("ascii")))
        self.assertEqual([(device.chunk, device.is_cyclic) for device in trace.devices], [(None, True), (5, False)])
        self.assertEqual([context.estimate for context in trace.contexts], [None, FirstEstimate(100, 90, 50)])
        self.assertEqual(trace.paces, {0: Pace(2, 50)})

    def test_a_pace_cuts_writes(self) -> None:
        more = "inode 1 0 7\npace 0 2 50\nwrite 0 1 0 5\nrest 0 3\nwrite 0 1 5 2\n"
        trace = trace_of_text(WholeText("t", f"{MACHINE}{more}".encode("ascii")))
        rest = RestAction(50)
        self.assertEqual(list(trace.works(0)), [WriteAction(1, 2, 2), rest, WriteAction(1, 4, 2), rest, WriteAction(1, 6, 1), RestAction(3),
                                                WriteAction(1, 7, 1), rest, WriteAction(1, 8, 1)])
        self.assertEqual(len(trace.actions[0]), 3)

    def test_its_text_is_that_of_check(self) -> None:
        for name in ("ordinary", "realistic"):
            with open(os.path.join(EXAMPLES, f"{name}.out"), encoding="ascii") as file:
                wanted = file.read()
            text = "".join(f"{line}\n" for line in trace_text(read_trace(os.path.join(EXAMPLES, f"{name}.trace"))))
            self.assertEqual(text, wanted)
            self.assertEqual(list(trace_text(trace_of_text(WholeText("t", text.encode("ascii"))))), text.splitlines())

    def test_where_lines_stand_in_its_text(self) -> None:
        more = ("pace 0 2 50\ndevice 1 1 0 100\ncontext 1 1 0\nestimate 0 100 90 50\nexpire 1 10\nflusher 1 1 0\ncyclic 1\nchunk 1 5\n"
                "strict 1\ncyclic 0\ntask 1 0\nwrite 1 0 0 1\nrest 0 3\nwrite 1 0 1 1\n")
        text = list(trace_text(trace_of_text(WholeText("t", f"{MACHINE}{more}".encode("ascii")))))
        self.assertEqual(text[7:], [
            "device 0 25600 0 100", "device 1 1 0 100", "strict 1", "chunk 1 5", "cyclic 0", "cyclic 1", "context 0 0 0", "context 1 1 0",
            "expire 1 10", "estimate 0 100 90 50", "inode 0 0 2", "task 0 0", "task 1 0", "pace 0 2 50", "flusher 0 0 0", "flusher 1 1 0",
            "write 1 0 0 1", "rest 0 3", "write 1 0 1 1"])

    def test_what_orders_its_steps(self) -> None:
        trace = trace_of_text(WholeText("t", f"{MACHINE}cgroup 1 7 8\norder 0 3\norder timer 2\ntick 9\nhalt 5\n".encode("ascii")))
        self.assertEqual((trace.orders, trace.halt), ([Order(0, 3), Order(None, 2), Tick(9)], 5))
        self.assertEqual(trace.cgroups, [Cgroup(7, 8)])
