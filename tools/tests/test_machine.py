"""A trace of a machine in use, and of a job file of fio."""
from __future__ import annotations

import os
import unittest

from journals.trace_reader import read_trace
from machine.making import Files

from .given import WithDirectory
from .test_kernel import printed

MEMORY = "MemTotal: 4000 kB\nMemFree:  200000 kB\nActive(file):  120000 kB\nInactive(file):   80000 kB\n"
JOBS = """; two writers and a reader
[global]
size=8m
direct=0

[slow]
rw=write
rate=1m
numjobs=2
bs=64k

[fast]
rw=randwrite
size=2M   # of its own

[reader]
rw=read
"""


class FromMachine(WithDirectory):
    def setUp(self) -> None:
        super().setUp()
        self.put("proc/stat", "cpu  1 2 3\ncpu0 1 2 3\ncpu1 1 2 3\nintr 5\n")
        self.put("proc/meminfo", MEMORY)
        for name, value in (("dirty_ratio", 20), ("dirty_background_ratio", 10), ("dirty_bytes", 0), ("dirty_background_bytes", 0),
                            ("dirty_expire_centisecs", 3000)):
            self.put(f"proc/sys/vm/{name}", f"{value}\n")
        self.disk("8:0", 0, 100)
        self.trace = os.path.join(self.directory, "made.trace")

    def put(self, path: str, content: str) -> str:
        whole = os.path.join(self.directory, path)
        os.makedirs(os.path.dirname(whole), exist_ok=True)
        with open(whole, "w", encoding="ascii") as file:
            file.write(content)
        return whole

    def disk(self, name: str, least: int, greatest: int) -> None:
        self.put(f"sys/class/bdi/{name}/min_ratio", f"{least}\n")
        self.put(f"sys/class/bdi/{name}/max_ratio", f"{greatest}\n")

    def made(self, *words: str) -> tuple[int, str, str]:
        return printed("from-machine", self.trace, "--root", self.directory, *words)

    def lines(self, ending: str = "") -> list[str]:
        with open(self.trace + ending, encoding="ascii") as file:
            return file.read().splitlines()

    def test_a_machine_without_jobs(self) -> None:
        status, out, err = self.made()
        self.assertEqual((status, err), (0, "wb: disk 8:0\n"))
        self.assertEqual(out.splitlines(), [self.trace, f"{self.trace}.about"])
        self.assertEqual(self.lines()[:7], ["cpus 2", "set dirty_ratio 20", "set dirty_background_ratio 10", "set dirty_bytes 0",
                                            "set dirty_background_bytes 0", "avail 0 100000", "device 0 25600 0 100"])
        self.assertIn("threshold 19995, background threshold 9985 pages, scaled", self.lines(".about"))
        self.assertEqual(read_trace(self.trace).tasks, [])

    def test_when_files_are_due(self) -> None:
        self.made()
        self.assertIn("expire 0 3000", self.lines())
        self.put("proc/sys/vm/dirty_expire_centisecs", "0\n")
        self.made("--force")
        self.assertFalse([line for line in self.lines() if line.startswith("expire")])
        self.assertIn("vm.dirty_expire_centisecs=0: left out, as a trace can't say it", self.lines(".about"))

    def test_jobs(self) -> None:
        self.assertEqual(self.made("--fio", self.put("jobs", JOBS))[0], 0)
        trace = read_trace(self.trace)
        self.assertEqual([inode.pages for inode in trace.inodes], [2048, 2048, 512])
        self.assertEqual(len([it for it in trace.actions[2]]), 1)
        self.assertIn("write 0 0 0 16", self.lines())
        self.assertIn("rest 0 62", self.lines())
        about = "\n".join(self.lines(".about"))
        self.assertIn("job slow: 2 of 8388608 bytes, 65536 a call, 1048576 bytes a second", about)
        self.assertIn("passed over: [global] direct; [reader], which doesn't write", about)

    def test_a_bandwidth_that_is_told(self) -> None:
        self.put("sys/kernel/debug/bdi/8:0/stats", "BdiWriteback: 0 kB\nBdiWriteBandwidth:     40000 kBps\n")
        self.made()
        self.assertIn("device 0 10000 0 100", self.lines())

    def test_a_disk_by_name(self) -> None:
        self.disk("7:0", 5, 50)
        self.made("--disk", "7:0")
        self.assertIn("device 0 25600 5 50", self.lines())
        self.assertEqual(self.made("--disk", "9:9"), (5, "", "wb: there is no disk 9:9 (there: 7:0, 8:0)\n"))

    def block(self, number: str, name: str, sectors: int) -> None:
        """A block device: its number, name and size."""
        self.put(f"sys/devices/{name}/size", f"{sectors}\n")
        self.put(f"sys/devices/{name}/dev", f"{number}\n")
        self.link(number, name)

    def link(self, number: str, name: str) -> None:
        """Where a block device is found by its number."""
        os.makedirs(os.path.join(self.directory, "sys/dev/block"), exist_ok=True)
        os.symlink(os.path.join(self.directory, "sys/devices", name), os.path.join(self.directory, "sys/dev/block", number))

    def test_the_disk_of_the_root(self) -> None:
        for name in ("7:0", "253:0", "254:0", "254:16"):
            self.disk(name, 0, 100)
        for number, name, sectors in (("7:0", "loop0", 8), ("8:0", "sda", 0), ("253:0", "zram0", 8), ("254:0", "vda", 8), ("254:16", "vdb", 8)):
            self.block(number, name, sectors)
        self.put("sys/devices/vdb/vdb1/partition", "1\n")
        self.link("254:17", "vdb/vdb1")
        self.assertEqual(self.made()[2], "wb: disk 254:0 (vda)\n")
        for line, named in (("25 1 254:17 / / rw - ext4 /dev/vdb1 rw", "disk 254:16 (vdb), the one of /"),
                            ("25 1 254:16 / / rw shared:1 - xfs /dev/vdb rw", "disk 254:16 (vdb), the one of /"),
                            ("25 1 254:16 / /home rw - xfs /dev/vdb rw", "disk 254:0 (vda)"),
                            ("25 1 7:0 / / rw - ext4 /dev/loop0 rw", "disk 254:0 (vda)"),
                            ("25 1 0:30 / / rw - overlay overlay rw", "disk 254:0 (vda)")):
            self.put("proc/self/mountinfo", f"20 1 0:5 / /proc rw - proc proc rw\n{line}\n")
            self.assertEqual(self.made("--force")[2], f"wb: {named}\n", line)
            self.assertTrue(any(it.startswith(f"{named}: not told") for it in self.lines(".about")))
        self.assertEqual(self.made("--force", "--disk", "253:0")[0], 0)

    def test_only_disks_that_are_none(self) -> None:
        self.block("8:0", "loop8", 8)
        self.assertEqual(self.made(), (5, "", "wb: there is no disk in sys/class/bdi to which files are written (there: 8:0 (loop8))\n"))

    def test_what_is_too_large_is_scaled_or_refused(self) -> None:
        self.put("proc/meminfo", MEMORY.replace("200000", "409600000000"))
        self.assertEqual(self.made("--scale", "1")[:2], (1, ""))
        self.assertIn("a trace has at most 4294967295", self.made("--scale", "1")[2])
        self.assertFalse(os.path.exists(self.trace))
        self.assertEqual(self.made("--force")[0], 0)
        self.assertTrue(self.lines(".about")[0].startswith("scale: 8; "))
        self.assertIn("device 0 3200 0 100", self.lines())

    def test_a_trace_for_a_forecast_has_more_pages(self) -> None:
        jobs = self.put("jobs", "[a]\nrw=write\nsize=3g\n")
        self.made("--fio", jobs)
        self.assertEqual((read_trace(self.trace).pages, self.lines(".about")[0].partition(";")[0]), (393216, "scale: 2"))
        self.assertEqual(self.made("--fio", jobs, "--scale", "1", "--force")[:2], (1, ""))
        self.assertEqual(self.made("--fio", jobs, "--forecast", "--force")[0], 0)
        trace = read_trace(self.trace)
        self.assertEqual((trace.pages, self.lines(".about")[0], len(trace.inodes), trace.inodes[0].pages), (786432, "scale: 1", 192, 4096))
        self.assertEqual(sum(it.pages for it in trace.actions[0]), 786432)
        self.put("jobs", "[a]\nrw=write\nsize=9g\n")
        self.assertIn("2359296 pages of files; a trace has at most 2097152", self.made("--fio", jobs, "--forecast", "--force", "--scale", "1")[2])

    def test_writes_over_files(self) -> None:
        self.assertEqual(list(Files(7, 10).writes(1, 8, 23)), ["write 1 7 8 2", "write 1 8 0 10", "write 1 9 0 10", "write 1 10 0 1"])

    def test_faults_of_a_job_file(self) -> None:
        for text, found in (("rw=write\n", "line 1: out of place"), ("[a]\nrw=write\n", r"line 1: missing: \[a\] has no size"),
                            ("[a]\nrw=write\nsize=8x\n", "line 3: bad line: '8x' is no number of bytes"),
                            ("[a]\nrw=wright\nsize=8\n", "line 2: bad line: rw=wright"),
                            ("[a]\nrw=write\nsize=8\nnumjobs=900\n", "line 4: out of range"), ("[a]\nrw=read\n", "no job of it writes")):
            status, out, err = self.made("--fio", self.put("jobs", text))
            self.assertEqual((status, out), (2, ""), text)
            self.assertRegex(err, found)

    def test_what_isnt_there(self) -> None:
        os.remove(os.path.join(self.directory, "proc/meminfo"))
        self.assertEqual(self.made()[0], 5)
        self.put("proc/meminfo", "MemFree: 1 kB\n")
        self.assertRegex(self.made()[2], "missing: Active\\(file\\)")


if __name__ == "__main__":
    unittest.main()
