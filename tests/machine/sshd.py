"""A real sshd, behind which a machine's key reaches a socket."""
from __future__ import annotations

import os
import shutil
import subprocess
from pathlib import Path
from typing import TYPE_CHECKING

from waiting import free_port, listens, wait_until

if TYPE_CHECKING:
    from conftest import Machine

SSHD = shutil.which("sshd") or "/usr/sbin/sshd"
CONFIG = """Port {port}
ListenAddress 127.0.0.1
HostKey {folder}/host
AuthorizedKeysFile {folder}/authorized_keys
PidFile none
StrictModes no
UsePAM no
PermitRootLogin prohibit-password
"""


class Sshd:
    """A server that lets the machine's key reach a socket, and do nothing else."""

    def __init__(self, machine: Machine, socket_path: Path) -> None:
        self.folder, self.machine = machine.base / "sshd", machine
        self.folder.mkdir()
        etc = machine.base / "etc"
        etc.mkdir(exist_ok=True)
        self.port = free_port()
        for path in (self.folder / "host", etc / "key"):
            subprocess.run(["ssh-keygen", "-q", "-t", "ed25519", "-N", "", "-f", path], check=True)
        (self.folder / "authorized_keys").write_text(
            f'command="/usr/bin/nc.openbsd -NU {socket_path}",restrict {(etc / "key.pub").read_text()}')
        (self.folder / "config").write_text(CONFIG.format(port=self.port, folder=self.folder))
        self.is_reached_by(self.port)
        os.makedirs("/run/sshd", exist_ok=True)
        self.begin()

    def begin(self) -> None:
        self.process = subprocess.Popen([SSHD, "-D", "-e", "-f", self.folder / "config"], stderr=subprocess.DEVNULL)
        wait_until(lambda: listens(self.port))

    def end(self) -> None:
        self.process.terminate()
        self.process.wait()

    def is_reached_by(self, port: int) -> None:
        """The machine goes to this port, and knows whose key is there."""
        host = " ".join((self.folder / "host.pub").read_text().split()[:2])
        (self.machine.base / "etc" / "known_hosts").write_text(f"[127.0.0.1]:{port} {host}\n")
        self.machine.set(CONNECT="", COLLECTOR=f"root@127.0.0.1:{port}")
