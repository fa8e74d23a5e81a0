"""What is told of a kernel's text for other programs is what the tables tell."""
from __future__ import annotations

import json
import os
import re
import unittest

from .given import EXAMPLES
from .test_kernel import printed

THREE = os.path.join(EXAMPLES, "kernel", "three-writers.txt")
STRICT = os.path.join(EXAMPLES, "kernel", "strict-disk.txt")


class Compared(unittest.TestCase):
    def test_it_has_the_numbers_of_the_table(self) -> None:
        status, out, err = printed("kernel", "compare", "--json", THREE)
        told = json.loads(out)
        self.assertEqual((status, err, told["checks"], told["free"], told["estimates"], told["unexplained"]), (0, "", 1981, 149, 57, 0))
        [group] = told["groups"]
        rows = re.findall(r"^([a-z ]+?)  +(\d+)  +(\d+)  +(\d+)  +(\d+)  +(\d+)  +[\d.]+$", printed("kernel", "compare", THREE)[1], re.MULTILINE)
        verdicts = ("equal", "within rounding", "between two averages", "different", "unexplained")
        self.assertEqual([(it["number"], *(str(it[name]) for name in verdicts)) for it in group["numbers"]], rows)

    def test_it_has_the_list(self) -> None:
        for word, wanted in (("--list", {"equal", "within rounding", "different"}), ("--different", {"within rounding", "different"})):
            _, out, _ = printed("kernel", "compare", "--json", word, "--strict", "7:0", STRICT)
            told = json.loads(out)
            self.assertLessEqual(wanted, {it["verdict"] for it in told["list"]}, word)
            self.assertEqual("equal" in {it["verdict"] for it in told["list"]}, "equal" in wanted, word)
            self.assertEqual(told["strict"], ["7:0"])
            self.assertIn(told["farthest"][0]["number"], {it["number"] for it in told["list"]})


class Explained(unittest.TestCase):
    def test_causes_and_the_longest(self) -> None:
        status, out, err = printed("kernel", "explain", "--json", THREE)
        told = json.loads(out)
        self.assertEqual((status, err, told["checks"], sum(it["pauses"] for it in told["causes"])), (0, "", 1981, 1818))
        [one] = told["explained"]
        self.assertEqual((one["line"], one["pause"], one["cause"]), (77, 200, "domain at its hard limit"))
        self.assertEqual((one["decision"]["pause"], one["decision"]["rate"], one["half_as_long"][0]["pause"]), (50, 0, 24))

    def test_one_line_is_that_of_the_longest(self) -> None:
        of_line = json.loads(printed("kernel", "explain", "--json", THREE, "77")[1])
        self.assertEqual(of_line["explained"], json.loads(printed("kernel", "explain", "--json", THREE)[1])["explained"])
        self.assertNotIn("causes", of_line)


if __name__ == "__main__":
    unittest.main()
