"""The numbers behind a decision: of a law text, and of each check of a journal."""
from __future__ import annotations

import json
import os
import re
import unittest

from .given import EXAMPLES, WithDirectory, examples
from .test_kernel import printed

LAW = os.path.join(EXAMPLES, "decision.law")
WITHOUT_RATE = """cpus 4
cap 1024
now 5000
task 250 250 4999
estimate 25600 25600
context 90
domain 19995 9985 19995 19995 19995
"""


def rows(text: str) -> dict[str, str]:
    """The value of each named row."""
    return {line[:18].strip(): line[18:38].strip() for line in text.splitlines()}


class OfALawText(WithDirectory):
    def test_the_worked_decision(self) -> None:
        status, out, err = printed("explain", LAW)
        self.assertEqual((status, err), (0, ""))
        wanted = {"freerun": "14990 pages", "setpoint": "17492 pages", "polynomial": "1024 of 1024", "context's weight": "19995 pages",
                  "its setpoint": "17492 pages", "its span": "204800 pages", "ratio": "1023 of 1024", "task rate": "25575 pages/s",
                  "period": "9 ticks", "think": "1 tick", "longest pause": "88 ticks", "least pause": "6 ticks", "pause": "8 ticks",
                  "decision": "go", "left": "250 pages"}
        self.assertEqual({name: rows(out)[name] for name in wanted}, wanted)
        self.assertIn("between the least and the longest pause", out)

    def test_a_rate_of_zero_has_no_period(self) -> None:
        _, out, _ = printed("explain", self.file("law", WITHOUT_RATE))
        self.assertEqual((rows(out)["decision"], rows(out)["task rate"], rows(out)["error"]), ("exempt", "0 pages/s", "96 pages"))
        self.assertNotIn("period", rows(out))

    def test_a_strict_device(self) -> None:
        own = WITHOUT_RATE.replace("context 90", "context 850").replace("19995 19995 19995", "19995 17492 1000")
        status, out, err = printed("explain", "--strict", self.file("law", own))
        self.assertEqual((status, err), (0, ""))
        wanted = {"own threshold": "1000 pages", "own freerun": "749 pages", "ratio": "957 of 1024", "decision": "go"}
        self.assertEqual({name: rows(out)[name] for name in wanted}, wanted)
        free = self.file("free", own.replace("context 850", "context 749"))
        self.assertEqual(rows(printed("explain", "--strict", free)[1])["decision"], "free")
        self.assertEqual(rows(printed("explain", free)[1])["decision"], "go", "the domain is above its freerun")

    def test_for_other_programs(self) -> None:
        status, out, err = printed("explain", "--json", LAW)
        self.assertEqual((status, err), (0, ""))
        told = json.loads(out)
        wanted = {"text": LAW, "decision": "go", "pause": 8, "left": 250, "ratio": 1023, "rate": 25575, "longest": 88, "period": 9,
                  "think": 1}
        self.assertEqual({name: told[name] for name in wanted}, wanted)
        self.assertEqual((told["least"]["pause"], told["task"]["ended"], told["rule"]),
                         (6, 5008, "between the least and the longest pause: as it is"))
        self.assertEqual({name: told["domains"][0][name] for name in ("freerun", "setpoint", "pages", "hard")},
                         {"freerun": 14990, "setpoint": 17492, "pages": 17492, "hard": 19995})
        self.assertEqual(told["domains"][0]["position"]["span"], 204800)

    def test_what_was_not_needed_is_null(self) -> None:
        other = self.file("law", WITHOUT_RATE)
        told = json.loads(printed("explain", "--json", "--many", LAW, other)[1])
        self.assertEqual([it["text"] for it in told], [LAW, other])
        self.assertEqual((told[1]["decision"], told[1]["rate"], told[1]["period"], told[1]["error"]), ("exempt", 0, None, 96))
        free = json.loads(printed("explain", "--json", self.file("free", WITHOUT_RATE.replace("19995 19995\n", "14990 19995\n")))[1])
        self.assertEqual((free["decision"], free["ratio"], free["least"], free["domains"][0]["position"]), ("free", None, None, None))

    def test_a_strict_device_for_other_programs(self) -> None:
        own = WITHOUT_RATE.replace("context 90", "context 850").replace("19995 19995 19995", "19995 17492 1000")
        told = json.loads(printed("explain", "--json", "--strict", self.file("law", own))[1])
        self.assertEqual((told["is_strict"], told["ratio"], told["domains"][0]["own_freerun"]), (True, 957, 749))
        self.assertEqual(told["domains"][0]["position"]["ratio"], 957)

    def test_another_clock(self) -> None:
        _, out, _ = printed("explain", "--hz", "250", LAW)
        wanted = {"period": "2 ticks, 8 ms", "longest pause": "22 ticks, 88 ms", "least pause": "2 ticks, 8 ms", "pause": "0 ticks, 0 ms"}
        self.assertEqual({name: rows(out)[name] for name in wanted}, wanted)
        self.assertIn("17492 / (1 + 25600 / 32) + 1, at most 50", out)
        self.assertEqual([printed("explain", "--hz", hz, LAW)[0] for hz in ("0", "1001")], [1, 1])

    def test_numbers_as_large_as_kernels_print(self) -> None:
        large = WITHOUT_RATE.replace("cap 1024", "cap 16384").replace("task 250 250", "task 9000 12000").replace("context 90", "context 9000000")
        path = self.file("law", large.replace("domain 19995 9985 19995 19995", "domain 20000000 9985 20000000 15000000"))
        status, out, _ = printed("explain", path)
        self.assertEqual((status, rows(out)["decision"]), (0, "go"))
        self.assertRegex(printed("why", path)[1], "line 2, column 5: out of range: number above 1024, the greatest cap")

    def test_many(self) -> None:
        other = self.file("law", WITHOUT_RATE)
        self.assertEqual(printed("explain", LAW, other)[0], 1)
        status, out, _ = printed("explain", "--many", LAW, other)
        self.assertEqual(status, 0)
        self.assertEqual([line for line in out.splitlines() if line.endswith(":")], [f"{LAW}:", f"{other}:"])

    def test_a_text_that_is_refused(self) -> None:
        status, out, err = printed("explain", self.file("law", WITHOUT_RATE.replace("cpus 4", "cpus 65")))
        self.assertEqual((status, out), (2, ""))
        self.assertRegex(err, "line 1.*: out of range")


class OfAJournal(WithDirectory):
    def test_each_check_of_each_example_is_explained(self) -> None:
        explained = 0
        for trace, journal in examples():
            status, out, _ = printed("annotate", "--why", trace, journal)
            self.assertEqual(status, 0)
            checks = re.findall(r"^check \d+ \d+ \d+ \d+ (\w+) (\d+) ", out, re.MULTILINE)
            self.assertEqual(re.findall(r"^    decision +(\w+)", out, re.MULTILINE), [kind for kind, _ in checks], journal)
            explained += len(checks)
        self.assertGreater(explained, 500)

    def test_a_check_that_no_law_decides_is_not_explained(self) -> None:
        trace = os.path.join(EXAMPLES, "stopped.trace")
        with open(os.path.join(EXAMPLES, "stopped.journal"), encoding="ascii") as file:
            other = self.file("journal", re.sub(r"^(check \d+ \d+ \d+ \d+ go) 0 ", r"\1 7 ", file.read(), flags=re.MULTILINE))
        _, out, _ = printed("annotate", "--why", trace, other)
        self.assertIn("the numbers that its task had before aren't told in full", out)

    def test_standard_input_is_read_once(self) -> None:
        self.assertEqual(printed("annotate", "--why", os.path.join(EXAMPLES, "stopped.trace"), "-")[0], 1)


if __name__ == "__main__":
    unittest.main()
