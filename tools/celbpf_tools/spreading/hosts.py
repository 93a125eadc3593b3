"""Two hosts for a test: `sshd` on ports of the loopback, with keys and settings in a folder of their own.

Nothing of the user's or the system's ssh is read or written, but for the folder that sshd of root wants below /run.
The home of the hosts' commands is that folder too, so no file of the user's shell is run: a host that is killed in one
would leave what that file holds, as a lock.
"""

import os
import signal
import socket
import subprocess
import time
from pathlib import Path
from typing import Any

from ..entry import Stop

SSHD = "/usr/sbin/sshd"
# sshd of root wants it, and only the start of the system's sshd makes it
SEPARATION = Path("/run/sshd")
NAMES = ("one", "two")
# the seconds until a host has to answer
PATIENCE = 30
SERVER = """Port {port}
ListenAddress 127.0.0.1
HostKey {folder}/{name}.key
AuthorizedKeysFile {folder}/client.key.pub
PidFile none
StrictModes no
UsePAM no
PasswordAuthentication no
KbdInteractiveAuthentication no
PermitRootLogin prohibit-password
MaxStartups 100
PrintMotd no
SetEnv HOME={folder}
"""
CLIENT = """Host {name}
    HostName 127.0.0.1
    Port {port}
    HostKeyAlias {name}
    IdentityFile {folder}/client.key
    IdentitiesOnly yes
    IdentityAgent none
    UserKnownHostsFile {folder}/known_hosts
    GlobalKnownHostsFile /dev/null
    StrictHostKeyChecking yes
    BatchMode yes
    LogLevel ERROR
"""


def free_port() -> int:
    """A port of the loopback above 1024 that nothing listens on."""
    with socket.socket() as found:
        found.bind(("127.0.0.1", 0))
        return int(found.getsockname()[1])


def descendants(pid: int) -> list[int]:
    """The processes that a process has begun, and those that these have."""
    children: dict[int, list[int]] = {}
    for folder in Path("/proc").iterdir():
        if folder.name.isdigit():
            try:
                # the name of the command is in brackets, and may have blanks
                parent = int((folder / "stat").read_text().rsplit(")", 1)[1].split()[1])
            except (OSError, IndexError):
                continue
            children.setdefault(parent, []).append(int(folder.name))
    found, waiting = [], [pid]
    while waiting:
        new = children.get(waiting.pop(), [])
        found += new
        waiting += new
    return found


def command_of(pid: int) -> str:
    """The name of a process's command; empty if it is gone."""
    try:
        return Path(f"/proc/{pid}/comm").read_text().strip()
    except OSError:
        return ""


class Hosts:
    """The hosts, which are ended with the block that they are opened for."""

    names = NAMES

    def __init__(self, folder: Path):
        self.folder = folder
        self.running: dict[str, subprocess.Popen[bytes]] = {}
        self.made_separation = False

    @property
    def ssh(self) -> str:
        """The command that reaches a host by its name."""
        return f"ssh -F {self.folder}/ssh_config"

    def __enter__(self) -> "Hosts":
        try:
            self.begin()
        except BaseException:
            self.__exit__()
            raise
        return self

    def __exit__(self, *_: Any) -> None:
        for name in self.names:
            self.kill(name)
        if self.made_separation:
            SEPARATION.rmdir()

    def begin(self) -> None:
        """Makes the keys and the settings, and starts the hosts."""
        if os.geteuid() == 0 and not SEPARATION.exists():
            SEPARATION.mkdir(mode=0o755)
            self.made_separation = True
        self.key("client")
        known, settings = "", ""
        for name in self.names:
            self.key(name)
            port = free_port()
            fields = {"name": name, "port": port, "folder": self.folder}
            (self.folder / f"{name}.config").write_text(SERVER.format(**fields))
            known += f"{name} {(self.folder / f'{name}.key.pub').read_text()}"
            settings += CLIENT.format(**fields)
            words = [SSHD, "-D", "-f", str(self.folder / f"{name}.config"), "-E", str(self.folder / f"{name}.log")]
            self.running[name] = subprocess.Popen(words, stdin=subprocess.DEVNULL, start_new_session=True)
        (self.folder / "known_hosts").write_text(known)
        (self.folder / "ssh_config").write_text(settings)
        for name in self.names:
            self.reach(name)

    def key(self, name: str) -> None:
        """Makes a pair of keys."""
        words = ["ssh-keygen", "-q", "-t", "ed25519", "-N", "", "-C", name, "-f", str(self.folder / f"{name}.key")]
        subprocess.run(words, check=True, stdin=subprocess.DEVNULL)

    def reach(self, name: str) -> None:
        """Waits until a host runs a command."""
        end = time.monotonic() + PATIENCE
        while True:
            words = [*self.ssh.split(), name, "true"]
            ran = subprocess.run(words, stdin=subprocess.DEVNULL, capture_output=True, text=True, check=False)
            if ran.returncode == 0:
                return
            if time.monotonic() > end:
                log = self.folder / f"{name}.log"
                raise Stop(f"host {name} does not answer: {ran.stderr}{log.read_text() if log.exists() else ''}".strip())
            time.sleep(0.1)

    def runs(self, name: str, command: str) -> bool:
        """Whether a host runs this command now."""
        return any(command_of(pid) == command for pid in descendants(self.running[name].pid))

    def kill(self, name: str) -> int:
        """Kills a host with all that it runs, as a power cut would; how many processes that were."""
        host = self.running.pop(name, None)
        if host is None:
            return 0
        # the listener first, so that nothing new is begun
        host.send_signal(signal.SIGSTOP)
        killed = [host.pid, *descendants(host.pid)]
        for pid in killed:
            try:
                os.kill(pid, signal.SIGKILL)
            except ProcessLookupError:
                pass
        host.wait()
        return len(killed)
