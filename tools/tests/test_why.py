"""Why a text is refused: the line, the column and the fault in words. The verdict is that of wbsim."""
from __future__ import annotations

import os
import re
import subprocess
import sys
from unittest import mock

from journals.law_reader import DomainReading, law_of
from journals.trace_reader import trace_of
from journals.whole_text import MOST_BYTES, WholeText, read_whole
from program.errors import Cause, Fault, ReadFault

from .given import EXAMPLES, ROOT, TOOLS, WithDirectory
from .test_kernel import printed

MACHINE = "cpus 1\navail 0 100000\ndevice 0 25600 0 100\ncontext 0 0 0\ninode 0 0 2\ntask 0 0\nflusher 0 0 0\n"
LAW = "cpus 4\ncap 1024\nnow 5000\ntask 250 250 4999\nestimate 25600 25600\ncontext 17492\ndomain 19995 9985 19995 17492 19995\n"

TRACES = [
    # bad lines: text, line, column, verdict, the fault in words
    ("cpus\t1\n", 1, 5, "bad line", "tab where one space is wanted"),
    ("\tcpus 1\n", 1, 1, "bad line", "tab at the beginning of the line"),
    ("cpus 1\t\n", 1, 7, "bad line", "tab at the end of the line"),
    ("cpus 1\r\n", 1, 7, "bad line", "carriage return"),
    ("cpus  1\n", 1, 6, "bad line", "second space where one is wanted"),
    (" cpus 1\n", 1, 1, "bad line", "space at the beginning of the line"),
    ("cpus 1 \n", 1, 7, "bad line", "space at the end of the line"),
    ("# one CPU\n", 1, 1, "bad line", "comment"),
    ("cpus 1 # one\n", 1, 8, "bad line", "comment"),
    ("cpus 1\n\n", 2, 1, "bad line", "empty line"),
    ("cpus 1\navail 0 100000", 2, 15, "bad line", "no line feed at the end"),
    ("cpus 1\navail 0 01", 2, 9, "bad line", "number spelled with a leading zero"),
    ("CPUS 1\n", 1, 1, "bad line", "no line of a trace begins with 'CPUS'; is it 'cpus'?"),
    ("now 5000\n", 1, 1, "bad line", "no line of a trace begins with 'now'"),
    (MACHINE + "cyclic 0 1\n", 8, 10, "bad line", "a field too many: 'cyclic' has 1 number"),
    (MACHINE + "pace 0 x 1\n", 8, 8, "bad line", "'x' where a number is wanted"),
    ("set dirty_speed 1\n", 1, 5, "bad line", "no setting is named 'dirty_speed'"),
    ("set\n", 1, 4, "bad line", "a field is missing: 'set' has a second word"),
    ("cpus 01\n", 1, 6, "bad line", "number spelled with a leading zero"),
    ("cpus +1\n", 1, 6, "bad line", "number spelled with a sign"),
    ("cpus 0x1\n", 1, 6, "bad line", "'0x1' where a number is wanted"),
    ("cpus 1000000000000000000\n", 1, 6, "bad line", "number of 19 digits: the most are 18"),
    ("avail 0\n", 1, 8, "bad line", "a field is missing: 'avail' has 2 numbers"),
    ("order timer\n", 1, 12, "bad line", "a field is missing: 'order timer' has 1 number"),
    ("cpus 1 2\n", 1, 8, "bad line", "a field too many: 'cpus' has 1 number"),
    ("\xef\xbb\xbfcpus 1\n", 1, 1, "bad line", "byte order mark"),
    ("cpus\x001\n", 1, 5, "bad line", "byte 0x00, which no line has"),
    # names
    ("context 0 0 0\n", 1, 11, "unknown name", "no line before has device 0: there is no device so far"),
    ("device 0 1 0 100\ncontext 0 0 1\n", 2, 13, "unknown name", "no line before has cgroup 1: there is no cgroup so far"),
    (MACHINE + "inode 2 1 2\n", 8, 9, "unknown name", "no line before has context 1: the last one so far is context 0"),
    (MACHINE + "write 0 1 0 1\n", 8, 9, "unknown name", "no line before has inode 1: the last one so far is inode 0"),
    ("task 0 0\n", 1, 8, "unknown name", "no line before says how many CPUs there are"),
    ("order 0 1\n", 1, 7, "unknown name", "no line before says how many CPUs there are"),
    # what is given twice
    ("cap 1\ncpus 1\ncpus 1\n", 3, 6, "given twice", "a second 'cpus' line: the first is line 2"),
    ("cap 1\ndevice 0 1 0 100\ndevice 0 1 0 100\n", 3, 8, "given twice", "device 0 stands already, in line 2"),
    ("cgroup 0 1 1\n", 1, 8, "given twice", "cgroup 0 stands already: it is the global domain"),
    ("halt 1\nhalt 1\n", 2, 6, "given twice", "a second 'halt' line: the first is line 1"),
    (MACHINE + "expire 0 10\nexpire 0 10\n", 9, 8, "given twice", "a second 'expire 0' line: the first is line 8"),
    # ranges
    (MACHINE + "chunk 0 2\nchunk 0 0\n", 9, 7, "given twice", "a second 'chunk 0' line: the first is line 8"),
    (MACHINE + "cyclic 0\ncyclic 0\n", 9, 8, "given twice", "a second 'cyclic 0' line: the first is line 8"),
    (MACHINE + "pace 0 0 1\n", 8, 8, "out of range", "number below 1, the least number of pages after which a task rests"),
    (MACHINE + "estimate 1 0 1 1\n", 8, 10, "unknown name", "no line before has context 1: the last one so far is context 0"),
    (MACHINE + "expire 0 0\n", 8, 10, "out of range",
     "number below 1, the least number of hundredths of a second after which an inode is due"),
    ("cpus 65\n", 1, 6, "out of range", "number above 64, the greatest number of CPUs"),
    ("cap 0\n", 1, 5, "out of range", "number below 1, the least cap"),
    ("device 0 1048577 0 100\n", 1, 10, "out of range", "number above 1048576, the greatest rate of a device"),
    ("device 0 1 60 50\n", 1, 12, "out of range", "a least share of 60 percent above the greatest, 50"),
    ("device 0 1 60 100\ndevice 1 1 41 100\n", 2, 12, "out of range",
     "all least shares together come to 101 percent, above 100"),
    ("device 1 1 0 100\n", 1, 8, "out of range", "device 1 where device 0 is the next"),
    ("avail 1 1\n", 1, 7, "out of range", "the first 'avail' line has tick 1: it has to be 0"),
    ("avail 0 1\navail 0 1\n", 2, 7, "out of range", "tick 0 where the 'avail' line before has tick 0: ticks go up"),
    ("set dirty_ratio 101\n", 1, 17, "out of range", "number above 100, the greatest dirty_ratio"),
    ("cpus 1\ntask 0 1\n", 2, 8, "out of range", "no CPU 1: the last is CPU 0"),
    (MACHINE + "write 0 0 2 1\n", 8, 11, "out of range", "a write from page 2: the last page of inode 0 is its page 1"),
    (MACHINE + "write 0 0 1 2\n", 8, 13, "out of range", "a write up to page 2: the last page of inode 0 is its page 1"),
    (MACHINE + "write 0 0 0 0\n", 8, 13, "out of range", "a write of no page"),
    ("order timer 0\n", 1, 13, "out of range", "number below 1, the least number of steps of an order"),
    # limits
    ("".join(f"device {d} 1 0 100\n" for d in range(17)), 17, 8, "too many",
     "the most are 16 'device' lines, and they stand already"),
    ("".join(f"cgroup {d} 1 1\n" for d in range(1, 10)), 9, 8, "too many",
     "the most are 8 'cgroup' lines, and they stand already"),
    (MACHINE + "inode 1 0 2097151\n", 8, 11, "too many", "all inodes together come to 2097153 pages, above 2097152"),
    ("".join(f"avail {t} 1\n" for t in range(257)), 257, 7, "too many", "the most are 256 'avail' lines, and they stand already"),
    (MACHINE + "rest 0 1\n" * 65537, 65544, 6, "too many", "the most are 65536 'write' and 'rest' lines, and they stand already"),
    ("tick 1\n" * 65537, 65537, 6, "too many", "the most are 65536 'order' and 'tick' lines, and they stand already"),
    # what is missing
    ("", 0, 0, "missing cpus", "no line says how many CPUs there are"),
    ("cpus 1\n", 0, 0, "missing avail", "no line says how many pages are available"),
    ("cpus 1\navail 0 1\ndevice 0 1 0 9\ndevice 1 1 0 9\nflusher 0 0 0\n", 0, 0, "missing flusher", "device 1 has no flusher"),
]

LAWS = [
    (LAW.replace("cap", "now"), 2, 1, "bad line", "'now' where the 'cap' line is wanted"),
    (LAW.replace("cap 1024", "cap 01024"), 2, 5, "bad line", "number spelled with a leading zero"),
    (LAW.replace("task 250 250 4999", "task 250 250"), 4, 13, "bad line", "a field is missing: 'task' has 3 numbers"),
    (LAW + "domain 1 1 1 1 1\n" * 2, 9, 1, "bad line", "line after the last: a law text has at most two 'domain' lines"),
    (LAW.partition("domain")[0], 7, 0, "bad line", "the text ends where the 'domain' line is wanted"),
    (LAW[:-1], 7, 36, "bad line", "no line feed at the end"),
    (LAW.replace("cpus 4", "cpus 65"), 1, 6, "out of range", "number above 64, the greatest number of CPUs"),
    (LAW.replace("estimate 25600", "estimate 0"), 5, 10, "out of range", "number below 1, the least average bandwidth"),
    (LAW.replace("19995 9985 19995", "19995 19996 19995"), 7, 14, "out of range",
     "a background threshold of 19996 above the threshold, 19995"),
    (LAW.replace("19995 9985 19995", "19996 9985 19995"), 7, 8, "out of range", "a threshold of 19996 above the hard limit, 19995"),
]


def why(*words: str, given: str = "") -> tuple[int, str, str]:
    """A run of `wb why`: its status and what it writes."""
    done = subprocess.run([sys.executable, os.path.join(TOOLS, "wb"), "why", *words], input=given.encode("latin-1"),
                          capture_output=True, check=False)
    return done.returncode, done.stdout.decode(), done.stderr.decode()


class Why(WithDirectory):
    def test_each_fault_of_a_trace(self) -> None:
        for content, *wanted in TRACES:
            self.refused(trace_of, content, *wanted)

    def test_each_fault_of_a_law_text(self) -> None:
        for content, *wanted in LAWS:
            self.refused(law_of, content, *wanted)

    def refused(self, read: object, content: str, line: int, column: int, verdict: str, found: str) -> None:
        """A text is refused with this line and column, verdict and sentence."""
        with self.subTest(content[-40:]), self.assertRaises(Fault) as caught:
            read(WholeText("t", content.encode("latin-1")))
        fault = caught.exception
        place = f"line {line}, column {column}: " if column else f"line {line}: " if line else ""
        self.assertEqual(str(fault), f"t: {place}{verdict}: {found}")
        self.assertEqual((fault.line, fault.column), (line, column), content)
        self.assertEqual(fault.verdict, f"line {line}: {verdict}" if line else verdict, content)

    def test_each_bad_line_of_the_formats_is_one(self) -> None:
        with open(os.path.join(ROOT, "docs", "FORMATS.md"), encoding="utf-8") as file:
            table = file.read().partition("| A bad line |")[2].partition("\n\n")[0]
        lines = [line for row in table.splitlines()[2:] for line in re.findall("`([^`]*)`", row.split("|")[2])]
        self.assertGreater(len(lines), 12)
        for line in lines:
            line = line.replace("→", "\t").replace("↵", "\r")
            ending = "" if line == "avail 0 100000" else "\n"
            with self.subTest(line), self.assertRaises(Fault) as caught:
                trace_of(WholeText("t", f"{line}{ending}".encode("ascii")))
            self.assertEqual((caught.exception.line, caught.exception.cause), (1, Cause.BAD_LINE))

    def test_a_text_that_is_too_long(self) -> None:
        path = self.file("long", "")
        os.truncate(path, MOST_BYTES)
        self.assertEqual(len(read_whole(path).data), MOST_BYTES)
        os.truncate(path, MOST_BYTES + 1)
        with self.assertRaises(Fault) as caught:
            read_whole(path)
        self.assertEqual(caught.exception.verdict, "input too long")

    def test_what_a_law_text_says(self) -> None:
        law = law_of(WholeText("t", (LAW + "domain 9 8 10 7 6\n").encode("ascii")))
        self.assertEqual((law.cpus, law.cap, law.now, law.dirtied, law.allowance, law.paused_until), (4, 1024, 5000, 250, 250, 4999))
        self.assertEqual((law.average, law.rate_limit, law.pages), (25600, 25600, 17492))
        self.assertEqual(law.domains, [DomainReading(19995, 9985, 19995, 17492, 19995), DomainReading(9, 8, 10, 7, 6)])

    def test_the_place_is_shown(self) -> None:
        path = self.file("t", "cpus 1\navail\t0 1\r\n")
        self.assertEqual(why(path), (2, f"{path}: line 2, column 6: bad line: tab where one space is wanted\n"
                                     "    avail→0 1↵\n         ^\n", ""))

    def test_a_terminal_without_the_character(self) -> None:
        with mock.patch.dict(os.environ, PYTHONIOENCODING="ascii"):
            status, said, _ = why("-", given="cpus\t1\n")
        self.assertEqual((status, said.splitlines()[1]), (2, "    cpus?1"))

    def test_a_part_of_a_long_line_is_shown(self) -> None:
        _, said, _ = why("-", given="cpus 1\n" + "x" * 500 + "\t" + "y" * 500 + "\n")
        _, shown, mark = said.splitlines()
        self.assertEqual(shown[len(mark) - 1], "→")
        self.assertLess(len(shown), 130)

    def test_what_is_missing_has_no_place(self) -> None:
        self.assertEqual(why("-"), (2, "standard input: missing cpus: no line says how many CPUs there are\n", ""))

    def test_lawful_texts(self) -> None:
        self.assertEqual(why("-", given=MACHINE), (
            0, "standard input: a lawful trace: 1 CPU, 1 device, 0 cgroups, 1 context, 1 inode, 2 pages, 1 task, 1 flusher\n", ""))
        for name in sorted(os.listdir(EXAMPLES)):
            if name.endswith((".trace", ".law")):
                status, said, _ = printed("why", os.path.join(EXAMPLES, name))
                self.assertEqual((status, "lawful " + ("law" if name.endswith(".law") else "trace") in said), (0, True), name)

    def test_what_the_text_is_to_be(self) -> None:
        self.assertIn("lawful law text: a check in no cgroup", why("-", given=LAW)[1])
        self.assertIn("line 3, column 1: bad line: no line of a trace begins with 'now'", why("--as", "trace", "-", given=LAW)[1])
        self.assertIn("line 2, column 1: bad line: 'avail' where the 'cap'", why("--as", "law", "-", given=MACHINE)[1])
        self.assertIn("unknown name: no line before has context 0", why("-", given="estimate 0 1 1 1\n")[1])
        self.assertIn("bad line: 'estimate' where the 'cpus'", why("-", given="estimate 1 1\n")[1])

    def test_other_words_and_read_faults(self) -> None:
        self.assertEqual(why()[0], 1)
        self.assertEqual(why("--as", "journal", "-")[0], 1)
        self.assertEqual(why(self.directory)[0], 3)
        with self.assertRaises(ReadFault):
            read_whole(os.path.join(self.directory, "none"))
