"""Hosts that are this machine: an sshd for each, on a port of the loopback, with keys and settings in a folder of the test."""
from __future__ import annotations

import getpass
import os
import shutil
import signal
import socket
import subprocess
import time

SSHD = shutil.which("sshd") or "/usr/sbin/sshd"
PRIVILEGES = "/run/sshd"
"""A folder that sshd wants where root runs it."""

SERVER = """Port {port}
ListenAddress 127.0.0.1
HostKey {folder}/host_key
AuthorizedKeysFile {folder}/user_key.pub
PidFile {folder}/{name}.pid
StrictModes no
UsePAM no
PasswordAuthentication no
KbdInteractiveAuthentication no
PermitRootLogin yes
MaxStartups 100:30:200
"""
CLIENT = """Host {name}
  HostName 127.0.0.1
  Port {port}
  User {user}
  IdentityFile {folder}/user_key
  IdentitiesOnly yes
  UserKnownHostsFile /dev/null
  StrictHostKeyChecking no
  LogLevel ERROR
  BatchMode yes
  ConnectTimeout 5
"""


def why_not() -> str:
    """Why there can be no such hosts here; nothing where there can."""
    for name in ("ssh", "ssh-keygen", "tar", "perl"):
        if not shutil.which(name):
            return f"{name} isn't there: no test of jobs on hosts"
    if not os.access(SSHD, os.X_OK):
        return "sshd isn't there (Debian's package is openssh-server): no test of jobs on hosts"
    return ""


class Hosts:
    """Some hosts, which end with the test or one by one before."""

    def __init__(self, folder: str, names: list[str]) -> None:
        self.folder = folder
        self.processes: dict[str, subprocess.Popen[bytes]] = {}
        if os.getuid() == 0:
            os.makedirs(PRIVILEGES, exist_ok=True)
        for key in ("host_key", "user_key"):
            subprocess.run(["ssh-keygen", "-q", "-t", "ed25519", "-N", "", "-f", os.path.join(folder, key)], check=True)
        with open(self.client, "w", encoding="utf-8") as file:
            for name in names:
                file.write(CLIENT.format(name=name, port=self.begin(name), user=getpass.getuser(), folder=folder))

    @property
    def client(self) -> str:
        """The settings by which one logs in."""
        return os.path.join(self.folder, "client")

    def line(self, name: str, slots: int = 1) -> str:
        """The line of a host in a file of hosts."""
        return f"{slots}/ssh -F {self.client} {name}\n"

    def begin(self, name: str) -> int:
        """Starts a host, and answers its port."""
        port = free_port()
        settings = os.path.join(self.folder, f"{name}.server")
        with open(settings, "w", encoding="utf-8") as file:
            file.write(SERVER.format(port=port, folder=self.folder, name=name))
        self.processes[name] = subprocess.Popen([SSHD, "-D", "-e", "-f", settings], stdin=subprocess.DEVNULL, stdout=subprocess.DEVNULL,
                                                stderr=subprocess.DEVNULL)
        for _ in range(200):
            if is_answered(port):
                return port
            time.sleep(0.05)
        raise RuntimeError(f"sshd doesn't answer on port {port}")

    def die(self, name: str) -> None:
        """Ends a host at once, with all that it runs, as where its power fails."""
        process = self.processes.pop(name)
        family = [process.pid, *below(process.pid)]
        for number in family:
            try:
                os.kill(number, signal.SIGKILL)
            except ProcessLookupError:
                pass
        process.wait()

    def end(self) -> None:
        """Ends all of them."""
        for name in list(self.processes):
            self.die(name)


def below(process: int) -> list[int]:
    """The processes that a process has begun, and those that they have."""
    try:
        with open(f"/proc/{process}/task/{process}/children", encoding="ascii") as file:
            children = [int(word) for word in file.read().split()]
    except OSError:
        return []
    return [number for child in children for number in (child, *below(child))]


def free_port() -> int:
    """A port that nobody has now."""
    with socket.socket() as it:
        it.bind(("127.0.0.1", 0))
        return it.getsockname()[1]


def is_answered(port: int) -> bool:
    """Whether somebody listens."""
    with socket.socket() as it:
        return it.connect_ex(("127.0.0.1", port)) == 0
