"""The program on this machine: its words, its version and the sum of its binary."""
from __future__ import annotations

import json
import os
import sys

from program.errors import NotThere

TOOLS = os.path.dirname(os.path.dirname(os.path.abspath(__file__)))
ROOT = os.path.dirname(TOOLS)
SCRIPT = os.path.join(ROOT, "wbsim")
PROVED = os.path.join(ROOT, "crates", "wbsim_top", "out", "wbsim_top")
UNPROVED = os.path.join(ROOT, "out", "wbsim_unproved")
REPLAY = os.path.join(TOOLS, "replay.py")
NOTE = "program"
"""How the name of the note begins that a machine has in a folder of jobs."""

BUILT, PYTHON = "built", "python"
"""What is chosen: the program that ./wbsim would run, tools/replay.py, or else a path."""

PYTHON_SOURCES = ("replay.py", "laws", "journals", "program", "forecasting")
"""What tools/replay.py stands on."""


class Origin:
    """What runs, and which one it is: the words, the version, the sum, and what its file is known by."""

    def __init__(self, words: list[str], version: str, sum: str, file: list[int] | None = None) -> None:
        self.words, self.version, self.sum, self.file = words, version, sum, file


FOUND: dict[str, Origin] = {}
"""What this process has found, by its choice."""


def found(choice: str) -> Origin:
    """The program of a choice on this machine. Nothing is compiled."""
    FOUND[choice] = it = looked_for(choice)
    return it


def looked_for(choice: str) -> Origin:
    """The same."""
    if choice == PYTHON:
        return Origin([sys.executable, REPLAY], "tools/replay.py", sum_of_python())
    if choice != BUILT:
        if not os.access(choice, os.X_OK):
            raise NotThere(f"{choice} can't be run (--binary names another, --python runs tools/replay.py)")
        file = file_of(choice)
        return Origin([choice], version_of([choice]), sum_of(choice), file)
    version = version_of([SCRIPT])
    binary = {"proved": PROVED, "unproved": UNPROVED}.get(version.rpartition(" ")[2])
    if binary is None or not os.access(binary, os.X_OK):
        raise NotThere(f"{SCRIPT} has no program yet, and compiles one at its first run (--python runs tools/replay.py)")
    file = file_of(binary)
    return Origin([binary], version, sum_of(binary), file)


def found_before(choice: str, folder: str) -> Origin:
    """The same, from the note that this machine has in a folder, where the file of the binary is still the one of which that was written.
    Else the program is looked at anew, and noted: what a machine is asked once costs each job as much as a short run."""
    try:
        with open(note_path(folder), encoding="utf-8") as file:
            note = json.load(file)
        if (note.pop("choice"), note.pop("root")) == (choice, ROOT) and note["file"] == file_of(note["words"][0]):
            return Origin(**note)
    except (OSError, ValueError, KeyError, TypeError):
        pass
    it = found(choice)
    write_note(folder, choice, it)
    return it


def note_path(folder: str) -> str:
    """This machine's note."""
    return os.path.join(folder, f"{NOTE}-{os.uname().nodename}.json")


def write_note(folder: str, choice: str, it: Origin) -> None:
    """Writes this machine's note, whole or not at all. There is none of a program that isn't one file, or where it can't be written."""
    new = f"{note_path(folder)}.{os.getpid()}"
    try:
        if it.file and it.file == file_of(it.words[0]):
            with open(new, "w", encoding="utf-8") as file:
                json.dump({"choice": choice, "root": ROOT, **it.__dict__}, file)
            os.replace(new, note_path(folder))
    except OSError:
        pass


def file_of(path: str) -> list[int]:
    """What a file is known by unless it is written again: its place, its length and its times."""
    it = os.stat(path)
    return [it.st_dev, it.st_ino, it.st_size, it.st_mtime_ns, it.st_ctime_ns]


def version_of(words: list[str]) -> str:
    """The line that a program says of itself; a binary says none."""
    import subprocess

    done = subprocess.run([*words, "--version"], stdin=subprocess.DEVNULL, capture_output=True, text=True, check=False)
    return done.stdout.strip() if done.returncode == 0 and done.stdout.count("\n") == 1 else "none"


def build() -> None:
    """Has ./wbsim compile where there is no program, so that each job finds one."""
    import subprocess

    if version_of([SCRIPT]).endswith(" unbuilt"):
        with open(os.path.join(ROOT, "examples", "empty.trace"), "rb") as trace:
            if subprocess.run([SCRIPT, "check"], stdin=trace, stdout=subprocess.DEVNULL, check=False).returncode:
                raise NotThere(f"{SCRIPT} runs no program here, and above is why (--python runs tools/replay.py)")


def sum_of(path: str) -> str:
    """The SHA-256 sum of a file."""
    import hashlib

    digest = hashlib.sha256()
    with open(path, "rb") as file:
        while piece := file.read(1 << 20):
            digest.update(piece)
    return digest.hexdigest()


def sum_of_python() -> str:
    """The SHA-256 sum of the sources of tools/replay.py, in the order of their names."""
    import hashlib

    digest = hashlib.sha256()
    for name in PYTHON_SOURCES:
        path = os.path.join(TOOLS, name)
        files = [path] if name.endswith(".py") else [
            os.path.join(folder, file) for folder, _, files in sorted(os.walk(path)) for file in sorted(files) if file.endswith(".py")]
        for file in files:
            digest.update(sum_of(file).encode())
    return digest.hexdigest()


def host() -> str:
    """This machine's name: the one by which GNU parallel has logged in, else its own."""
    name = os.environ.get("PARALLEL_SSHHOST", ":")
    return os.uname().nodename if name == ":" else name
