"""Another Python, where this one lacks a package that Debian's may have: pyenv, conda or a venv often stands before it on the path."""
from __future__ import annotations

import os
import subprocess
import sys

SYSTEM = "/usr/bin/python3"
"""The one for which Debian's packages are."""

BEGUN = "WB_OTHER_PYTHON"
"""Set in the environment of a program that another Python was begun with, so that no third one is looked for."""


def has_package(interpreter: str, package: str) -> bool:
    """Whether this Python runs the program and has the package."""
    probe = f"import sys, {package}; sys.exit(sys.version_info < (3, 10))"
    try:
        done = subprocess.run([interpreter, "-c", probe], stdin=subprocess.DEVNULL, capture_output=True, check=False)
    except OSError:
        return False
    return done.returncode == 0


def go_on_with(package: str) -> None:
    """Goes on as the same program of another Python that has the package, and never returns; returns where there is none."""
    if BEGUN not in os.environ and SYSTEM != sys.executable and has_package(SYSTEM, package):
        os.execve(SYSTEM, [SYSTEM, *sys.argv], {**os.environ, BEGUN: "1"})
