"""A scratch clone of the checkout, in which mutants stand beside the edits that the gate tries."""
from __future__ import annotations

import os
import shutil
import subprocess
from collections.abc import Iterable

from .standing import GATE, MUTANTS, names_in, path_of, with_those_below

READ = ("crates", "crates.txt", "HANDLES")
"""What `rt` reads of a checkout."""

KEPT = ("incremental", "rlib")
"""What a check keeps in a crate's out/, with which the next one begins."""

LINKED = ".oantt"
"""Files of this ending are replaced by a check and never written to, so links to them do."""


class Scratch:
    """A clone in a folder, with the changes of the checkout that aren't committed. In its room checks have what they need for a time, so that
    it goes with the clone."""

    def __init__(self, root: str, folder: str) -> None:
        self.root, self.folder, self.room = root, os.path.join(folder, "clone"), os.path.join(folder, "room")
        os.mkdir(self.room)
        git(root, "clone", "--quiet", root, self.folder)
        for path in changed_paths(root):
            self.bring(path)

    def bring(self, path: str) -> None:
        """Makes a path what it is in the checkout."""
        here, there = os.path.join(self.root, path), os.path.join(self.folder, path)
        if os.path.isfile(here):
            os.makedirs(os.path.dirname(there), exist_ok=True)
            shutil.copy2(here, there)
        elif os.path.lexists(there):
            os.remove(there)

    def bring_kept(self, crates: Iterable[str]) -> None:
        """Brings what checks in the checkout kept of the crates and those below them, so that those here begin with it."""
        for crate in with_those_below(self.root, crates):
            for part in KEPT:
                here, there = (os.path.join(it, "crates", crate, "out", part) for it in (self.root, self.folder))
                if os.path.isdir(here):
                    shutil.copytree(here, there, symlinks=True, copy_function=link_or_copy)

    def put_mutants(self, crates: Iterable[str]) -> None:
        """Puts the mutants of the crates beside their edits, and no other crate's."""
        for crate in crates:
            os.makedirs(os.path.join(self.folder, "crates", crate, GATE), exist_ok=True)
            for name in names_in(self.folder, crate, MUTANTS):
                os.rename(path_of(self.folder, crate, MUTANTS, name), path_of(self.folder, crate, GATE, name))


def changed_paths(root: str) -> list[str]:
    """The paths below `READ` at which the checkout differs from its commit, those included that git doesn't know yet."""
    changed = git(root, "diff", "--name-only", "--no-renames", "-z", "HEAD", "--", *READ)
    unknown = git(root, "ls-files", "--others", "--exclude-standard", "-z", "--", *READ)
    return sorted({*changed.split("\0"), *unknown.split("\0")} - {""})


def commit_of(root: str) -> str:
    """The short name of the commit that is checked out."""
    return git(root, "rev-parse", "--short", "HEAD").strip()


# What git prints. Raises `OSError` where it fails.
def git(root: str, *words: str) -> str:
    done = subprocess.run(["git", "-C", root, *words], capture_output=True, text=True, check=False)
    if done.returncode:
        raise OSError(f"git {words[0]}: {done.stderr.strip()}")
    return done.stdout


def link_or_copy(here: str, there: str) -> None:
    """Links what a check never writes to, and copies all else."""
    try:
        if here.endswith(LINKED):
            os.link(here, there)
            return
    except OSError:
        pass
    shutil.copy2(here, there)
