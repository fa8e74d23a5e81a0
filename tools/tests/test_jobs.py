"""Jobs: what a folder of them keeps, how one goes on where it was stopped, and which engine does them."""
from __future__ import annotations

import io
import os
import threading
import unittest
from unittest import mock

from jobs import engine, files, hosts, joblog, kinds, listing, options, origin, plan, watching, worker
from program.errors import NotThere, OtherWords

from . import counting
from .given import WithDirectory
from .test_kernel import printed

PROGRAM = "/bin/true"
LOG = "1\t:\t0.1\t0.2\t0\t0\t{}\t0\tcommand\n"


class WithJobs(WithDirectory):
    """A folder of jobs whose runs are counted."""

    def setUp(self) -> None:
        super().setUp()
        patched = mock.patch.dict(kinds.KINDS, {"counting": "tests.counting"})
        patched.start()
        self.addCleanup(patched.stop)
        counting.MADE.clear()

    def plan(self, runs: int = 7, runs_a_job: int = 3, **more: object) -> plan.Plan:
        """A plan, which is saved."""
        program = {"choice": PROGRAM, "version": "none", "sum": origin.sum_of(PROGRAM)}
        planned = plan.Plan("counting", {"fail": []}, runs, runs_a_job, program)
        planned = plan.Plan(**{**planned.__dict__, **more})
        planned.save(self.directory)
        return planned

    def squares(self, job: int, runs: range) -> list[int]:
        """What the file of a job says of its runs."""
        rows = files.rows_of(files.read(files.done_path(self.directory, job)), runs)
        return [rows[run]["square"] for run in sorted(rows)]


class Plans(WithJobs):
    def test_each_run_is_in_one_job(self) -> None:
        planned = self.plan()
        self.assertEqual([list(planned.runs_of(job)) for job in range(1, planned.jobs + 1)], [[0, 1, 2], [3, 4, 5], [6]])
        self.assertEqual(plan.load(self.directory), planned)

    def test_what_is_no_plan(self) -> None:
        self.file("plan.json", "{}")
        with self.assertRaises(OtherWords):
            plan.load(self.directory)

    def test_the_list_has_a_command_for_each_job(self) -> None:
        lines = listing.lines(self.directory, self.plan())
        self.assertEqual([line.split()[-3:] for line in lines], [["job", self.directory, str(job)] for job in (1, 2, 3)])

    def test_rules_name_each_file_and_the_inputs(self) -> None:
        rules = listing.rules(self.directory, self.plan(inputs=["traces/0.trace"]))
        self.assertEqual(rules[1], "all: " + " ".join(files.done_path(self.directory, job) for job in (1, 2, 3)))
        self.assertIn(f"{files.done_path(self.directory, 2)}: | {self.directory}/plan.json {self.directory}/traces/0.trace", rules)


class Work(WithJobs):
    def test_a_job_makes_its_file_once(self) -> None:
        self.plan()
        worker.do(self.directory, 2)
        worker.do(self.directory, 2)
        self.assertEqual((self.squares(2, range(7)), counting.MADE), ([9, 16, 25], [3, 4, 5]))

    def test_a_job_goes_on_behind_its_last_whole_row(self) -> None:
        self.plan()
        worker.do(self.directory, 1)
        had = files.read(files.done_path(self.directory, 1)).splitlines(keepends=True)
        os.remove(files.done_path(self.directory, 1))
        with open(files.part_path(self.directory, 1), "wb") as part:
            part.write(had[0] + had[1][:-5])
        counting.MADE.clear()
        worker.do(self.directory, 1)
        self.assertEqual((self.squares(1, range(7)), counting.MADE), ([0, 1, 4], [1, 2]))

    def test_a_run_that_fails_keeps_no_other_from_being_made(self) -> None:
        self.plan(spec={"fail": [1]})
        with self.assertRaisesRegex(NotThere, "1 of 3 runs have failed: run 1: 1 is one that fails"):
            worker.do(self.directory, 1)
        self.assertFalse(os.path.exists(files.done_path(self.directory, 1)))
        self.plan()
        worker.do(self.directory, 1)
        self.assertEqual((self.squares(1, range(7)), counting.MADE), ([0, 1, 4], [0, 1, 2, 1]))

    def test_a_row_says_where_and_by_what_it_was_made(self) -> None:
        self.plan()
        with mock.patch.dict(os.environ, {"PARALLEL_SSHHOST": "alpha"}):
            worker.do(self.directory, 3)
        row = files.rows_of(files.read(files.done_path(self.directory, 3)), range(7))[6]
        self.assertEqual((row["host"], row["version"], row["sum"]), ("alpha", "none", origin.sum_of(PROGRAM)))

    def test_another_program_is_refused(self) -> None:
        self.plan(program={"choice": PROGRAM, "version": "none", "sum": "0"})
        with self.assertRaisesRegex(NotThere, "has another program: version none, sum [0-9a-f]{64}; the plan's is version none, sum 0"):
            worker.do(self.directory, 1)
        self.plan(program={"choice": PROGRAM, "version": "none", "sum": "0"}, is_any_program=True)
        worker.do(self.directory, 1)
        self.assertEqual(self.squares(1, range(7)), [0, 1, 4])

    def test_a_machine_is_asked_once_for_its_program(self) -> None:
        path = self.file("program", "#!/bin/sh\n")
        os.chmod(path, 0o755)
        first = origin.found_before(path, self.directory)
        with mock.patch.object(origin, "looked_for", side_effect=AssertionError):
            self.assertEqual(origin.found_before(path, self.directory).__dict__, first.__dict__)
        with open(path, "a", encoding="ascii") as file:
            file.write("exit 0\n")
        self.assertNotEqual(origin.found_before(path, self.directory).sum, first.sum, "a binary that has changed is looked at anew")

    def test_who_comes_second_waits_and_makes_nothing(self) -> None:
        self.plan()
        with files.part(self.directory, 1) as part:
            second = threading.Thread(target=worker.do, args=(self.directory, 1))
            second.start()
            second.join(0.3)
            self.assertTrue(second.is_alive(), "it waits for the lock")
            part.write(b"".join(files.line_of({"run": run, "square": -run}) for run in range(3)))
            os.rename(files.part_path(self.directory, 1), files.done_path(self.directory, 1))
        second.join(30)
        self.assertEqual((self.squares(1, range(7)), counting.MADE), ([0, -1, -2], []))
        self.assertEqual(os.listdir(os.path.join(self.directory, "done")), ["1.rows"])

    def test_a_job_that_there_is_not(self) -> None:
        self.plan()
        with self.assertRaisesRegex(OtherWords, "the jobs 1 to 3"):
            worker.do(self.directory, 4)
        self.assertEqual(printed("job", self.directory)[0], 1)


class Logs(WithJobs):
    def test_what_is_done_again_is_not_in_the_log(self) -> None:
        lines = [LOG.format(0), LOG.format(5).replace("1", "2", 1), LOG.format(0).replace("1", "3", 1), "4\t:\t0.1"]
        self.file("jobs.log", joblog.HEAD + "".join(lines))
        joblog.keep_done(self.directory, {1, 4})
        with open(os.path.join(self.directory, "jobs.log"), encoding="ascii") as log:
            self.assertEqual(log.read(), joblog.HEAD + lines[0] + joblog.line_of(4, 0, 0, 0, "was done before"))

    def test_a_line_that_was_written_here(self) -> None:
        joblog.add(self.directory, 7, 1.0, 2.0, 5, "command")
        self.assertEqual([(it.job, it.host, it.status) for it in joblog.entries(self.directory)], [(7, ":", 5)])

    def test_rows_that_came_from_hosts_are_taken_once(self) -> None:
        planned = self.plan()
        said = engine.Said.new(self.directory)
        rows = [files.line_of({"run": run, "square": run}) for run in (3, 5, 4, 3, 0, 1)]
        with open(said.rows, "wb") as file:
            file.write(b"".join(rows) + files.line_of({"run": 2, "square": 2})[:-4])
        engine.take_said(self.directory, planned)
        self.assertEqual((self.squares(2, range(7)), engine.missing(self.directory, planned)), ([3, 4, 5], [1, 3]))


class Hosts(unittest.TestCase):
    def test_lines(self) -> None:
        self.assertEqual(hosts.host_of("4/user@alpha"), hosts.Host("4/user@alpha", "user@alpha", [*hosts.LOGIN, "user@alpha"]))
        self.assertEqual(hosts.host_of("alpha:2222").words, [*hosts.LOGIN, "-p", "2222", "alpha"])
        self.assertEqual(hosts.host_of("2/ssh -F 'a b' beta").words, ["ssh", "-F", "a b", "beta"])
        self.assertEqual(hosts.host_of("@fast/50%/:").words, [])
        with mock.patch.dict(os.environ, {"PARALLEL_SSH": "ssh -F settings"}):
            self.assertEqual(hosts.host_of("alpha").words, ["ssh", "-F", "settings", "alpha"])


class Watching(WithJobs):
    def test_the_time_to_the_end(self) -> None:
        self.assertEqual(watching.sentence(40, 100, 20, 10.0), "40 of 100 runs, 40 percent, 30 s to the end")
        self.assertEqual(watching.sentence(20, 100, 20, 10.0), "20 of 100 runs, 20 percent")
        self.assertEqual([watching.duration(seconds) for seconds in (59, 61, 7260)], ["59 s", "1 min 1 s", "2 h 1 min"])

    def test_rows_of_all_kinds_are_counted(self) -> None:
        planned, said = self.plan(), self.file("said", '{"run": 6}\n')
        worker.do(self.directory, 1)
        with open(files.part_path(self.directory, 2), "wb") as part:
            part.write(b"{}\n{}")
        count = watching.Count(self.directory, planned, said)
        self.assertEqual((count.made(), count.made()), (5, 5))

    def test_it_is_told(self) -> None:
        stream = io.StringIO()
        with mock.patch.object(watching, "SECONDS_BETWEEN_LINES", 0.01), watching.watched(self.directory, self.plan(), "none", stream):
            threading.Event().wait(0.3)
        self.assertIn("wb: 0 of 7 runs, 0 percent\n", stream.getvalue())


class Engines(unittest.TestCase):
    def test_another_parallel_is_none(self) -> None:
        with mock.patch("shutil.which", return_value="/bin/true"):
            self.assertIsNone(engine.gnu_parallel())
        with mock.patch("shutil.which", return_value=None):
            self.assertIsNone(engine.gnu_parallel())

    def test_how_many_runs_a_job_has(self) -> None:
        given = mock.Mock(jobs=4, retries=3, runs_a_job=None, hosts=None)
        self.assertEqual([options.runs_a_job(given, runs) for runs in (1, 16, 100, 10000)], [1, 1, 7, 250])
        given.runs_a_job = 0
        with self.assertRaisesRegex(OtherWords, "--runs-a-job is at least 1"):
            options.runs_a_job(given, 5)


if __name__ == "__main__":
    unittest.main()
