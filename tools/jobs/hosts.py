"""Other machines, as GNU parallel logs in to them. The inputs are put into a folder of one name on each, and are gone at the end.

A host has this repository with its program, Python, Perl and tar, and lets in without a password. One that isn't reached, or whose program
is another, is named and left out.
"""
from __future__ import annotations

import os
import re
import shlex
import subprocess
import sys
from collections.abc import Iterator
from contextlib import contextmanager
from dataclasses import dataclass

from program.errors import NotThere, OtherWords, ReadFault

from . import plan

LOGIN = ["ssh", "-o", "BatchMode=yes", "-o", "ConnectTimeout=10", "-o", "ServerAliveInterval=5", "-o", "ServerAliveCountMax=3"]
"""How a host is logged in to of which the file names no command: one that is gone is noticed within some 20 seconds."""

MOST_SECONDS = 120
"""What it may take to put the inputs on a host."""


@dataclass(frozen=True)
class Host:
    """A line of the file, its name, and the words that run a command there; this machine where there are none."""

    line: str
    name: str
    words: list[str]

    def run(self, command: str, given: bytes = b"") -> subprocess.CompletedProcess[bytes]:
        """A command of a shell on the host."""
        words = [*self.words, command] if self.words else ["/bin/sh", "-c", command]
        return subprocess.run(words, input=given, capture_output=True, check=False, timeout=MOST_SECONDS)


def ssh() -> list[str]:
    """The command by which a host is logged in to: that of the environment, as GNU parallel has it, or else the one above."""
    return shlex.split(os.environ.get("PARALLEL_SSH", "")) or LOGIN


def read_hosts(path: str) -> list[Host]:
    """The hosts of a file, a line each: `[N/]HOST`, `[N/]HOST:PORT`, `[N/]COMMAND.. HOST`, or `:` for this machine."""
    try:
        with open(path, encoding="utf-8") as file:
            lines = [line.strip() for line in file]
    except OSError as error:
        raise ReadFault(f"{path}: {error.strerror or error}") from error
    found = [host_of(line) for line in lines if line and not line.startswith("#")]
    if not found:
        raise OtherWords(f"{path} names no host")
    return found


def host_of(line: str) -> Host:
    """The host of a line."""
    login = re.sub(r"^(@[^/]*/)?([0-9]+%?/)?", "", line)
    if login == ":":
        return Host(line, "this machine", [])
    if " " in login:
        words = shlex.split(login)
        return Host(line, words[-1], words)
    port = re.fullmatch(r"([^:]+):([0-9]+)", login)
    return Host(line, login, [*ssh(), "-p", port[2], port[1]] if port else [*ssh(), login])


@contextmanager
def placed(path: str, folder: str, planned: plan.Plan, there: str) -> Iterator[tuple[str, str]]:
    """A file of the hosts that are ready, and the folder of the inputs on each of them."""
    from concurrent.futures import ThreadPoolExecutor

    named = read_hosts(path)
    at = f"/tmp/wbsim-jobs-{os.urandom(8).hex()}"
    given = packed(folder, planned)
    with ThreadPoolExecutor(min(len(named), 32)) as pool:
        try:
            whys = list(pool.map(lambda host: place(host, given, at, there), named))
            for host, why in zip(named, whys):
                if why:
                    print(f"wb: {host.name} is left out: {why}", file=sys.stderr)
            ready = [host for host, why in zip(named, whys) if not why]
            if not ready:
                raise NotThere(f"{path} names no host that is ready")
            logins = os.path.join(folder, "hosts.ready")
            with open(logins, "w", encoding="utf-8") as file:
                file.writelines(host.line + "\n" for host in ready)
            yield logins, at
        finally:
            list(pool.map(lambda host: clear(host, at), named))


def packed(folder: str, planned: plan.Plan) -> bytes:
    """The plan and the inputs as an archive."""
    import io
    import tarfile

    held = io.BytesIO()
    with tarfile.open(fileobj=held, mode="w") as archive:
        for name in [plan.FILE, *planned.inputs]:
            archive.add(os.path.join(folder, name), name)
    return held.getvalue()


def place(host: Host, given: bytes, at: str, there: str) -> str:
    """Puts the inputs on a host, and looks for its program. The answer is why that went wrong, and nothing where it went well."""
    wb = shlex.quote(os.path.join(there, "tools", "wb"))
    try:
        done = host.run(f"umask 077 && mkdir -p {at} && tar -xf - -C {at} && {wb} job {at} --check", given)
    except subprocess.TimeoutExpired:
        return f"no answer in {MOST_SECONDS} seconds"
    except OSError as error:
        return str(error)
    said = done.stderr.decode("utf-8", "replace").strip().splitlines()
    return (said[-1].removeprefix("wb: ") if said else f"status {done.returncode}") if done.returncode else ""


def clear(host: Host, at: str) -> None:
    """Takes the inputs from a host, where it is still there."""
    try:
        host.run(f"rm -rf {at}")
    except (subprocess.TimeoutExpired, OSError):
        pass
