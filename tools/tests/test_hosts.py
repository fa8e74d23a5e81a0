"""Jobs on other hosts, which are this machine by ssh. One of them dies in mid-study."""
from __future__ import annotations

import collections
import csv
import os
import shutil
import subprocess
import sys
import time
import unittest
from importlib.util import find_spec

from jobs import engine, joblog

from .given import EXAMPLES, TOOLS, WithDirectory
from .loopback import Hosts, why_not

NO_PARALLEL = "GNU parallel isn't there (Debian's package is parallel): no test of jobs on hosts"
NO_TOML = "Python is older than 3.11: no test of studies"
WHY_NOT = why_not() or ("" if engine.gnu_parallel() else NO_PARALLEL) or ("" if find_spec("tomllib") else NO_TOML)
RUNS, MOST_SECONDS = 8, 600


@unittest.skipIf(WHY_NOT, WHY_NOT)
class OnHosts(WithDirectory):
    def setUp(self) -> None:
        super().setUp()
        self.hosts = Hosts(self.directory, ["alpha", "beta"])
        self.addCleanup(self.hosts.end)
        self.out = os.path.join(self.directory, "out")
        study = self.file("study.toml", f'traces = ["{EXAMPLES}/fold.trace"]\n[over]\ncap = ["1..{RUNS}..1"]\n')
        self.words = [sys.executable, os.path.join(TOOLS, "wb"), "study", study, self.out, "--python", "--runs-a-job", "1", "--hosts"]

    def logged(self) -> list[joblog.Entry]:
        """The jobs that have ended."""
        return joblog.entries(os.path.join(self.out, "jobs"))

    def rows(self) -> list[dict[str, str]]:
        """The table that was made."""
        with open(os.path.join(self.out, "runs.csv"), encoding="ascii", newline="") as file:
            return list(csv.DictReader(file))

    def place(self) -> str:
        """The folder into which the inputs were put, on each host."""
        with open(os.path.join(self.out, "jobs", "hosts.list"), encoding="utf-8") as file:
            return file.readline().split()[2]

    def test_a_host_that_dies_in_mid_study(self) -> None:
        hosts = self.file("hosts", self.hosts.line("alpha") + "1/beta\n" + "1/ssh -p 1 127.0.0.1\n")
        with subprocess.Popen([*self.words, hosts], stdout=subprocess.DEVNULL, stderr=subprocess.PIPE, text=True,
                              env={**os.environ, "PARALLEL_SSH": f"ssh -F {self.hosts.client}"}) as process:
            end = time.monotonic() + MOST_SECONDS
            while process.poll() is None and not any("alpha" in it.host for it in self.logged()) and time.monotonic() < end:
                time.sleep(0.05)
            self.hosts.die("alpha")
            died_after = len(self.logged())
            said = process.stderr.read()
        self.assertEqual(process.returncode, 0, said)
        self.assertLess(died_after, RUNS)
        self.assertIn("wb: 127.0.0.1 is left out: ", said)
        rows = self.rows()
        self.assertEqual([row["cap"] for row in rows], [str(cap) for cap in range(1, RUNS + 1)], "no row is lost or twice")
        made = collections.Counter(row["host"] for row in rows)
        self.assertEqual(set(made), {"alpha", "beta"})
        self.assertLessEqual(made["alpha"], died_after)
        self.assertEqual({row["version"] for row in rows}, {"tools/replay.py"})
        self.assertRegex(self.place(), "^/tmp/wbsim-jobs-[0-9a-f]{16}$")
        self.assertFalse(os.path.exists(self.place()), "the inputs are gone")

    def test_a_host_with_another_program(self) -> None:
        there = os.path.join(self.directory, "there")
        shutil.copytree(TOOLS, os.path.join(there, "tools"), ignore=shutil.ignore_patterns("tests", "__pycache__"))
        with open(os.path.join(there, "tools", "replay.py"), "a", encoding="utf-8") as file:
            file.write("# another one\n")
        hosts = self.file("hosts", self.hosts.line("beta"))
        done = subprocess.run([*self.words, hosts, "--there", there], stdout=subprocess.DEVNULL, stderr=subprocess.PIPE, text=True,
                              check=False)
        self.assertEqual(done.returncode, 5)
        self.assertRegex(done.stderr, "wb: beta is left out: .* has another program: version tools/replay.py, sum ")


if __name__ == "__main__":
    unittest.main()
