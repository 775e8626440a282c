"""A journald beside the machine's: with files, settings and sockets of its own. It sees whose process logs."""
from __future__ import annotations

import os
import shutil
import socket
import subprocess
import time
from collections.abc import Iterable

PROGRAM = "/lib/systemd/systemd-journald"
ALONE = ("unshare", "--mount")
# It is to have no more to do with this machine's kernel than its clocks, and the number of files alone bounds them.
SETTINGS = """[Journal]
Storage=persistent
Audit=no
ReadKMsg=no
ForwardToWall=no
SystemMaxUse=3G
SystemKeepFree=1M
"""
BEGIN = """set -e
mount --bind "$1/run" /run
mount --bind "$1/etc" /etc/systemd
mount --bind "$1/log" /var/log
exec "$2"
"""
ROOM = 3 << 30
SECONDS = 300.0


def lacking(folder: str) -> str:
    """Why none can be begun here; nothing if it can."""
    if not os.access(PROGRAM, os.X_OK):
        return "there is no systemd-journald"
    if os.geteuid() or not shutil.which("unshare"):
        return "only root can begin a journald, by unshare"
    if subprocess.run([*ALONE, "true"], capture_output=True, check=False).returncode:
        return "namespaces can't be made"
    return "" if shutil.disk_usage(folder).free >= ROOM else f"{folder} has too little room for journal files"


class Journald:
    """One journald. `journal` is the folder of its files, once it has one."""

    def __init__(self, folder: str, *drop_ins: str) -> None:
        """With these files of settings beside its own."""
        self.socket = f"{folder}/run/systemd/journal/socket"
        for part in ("log/journal", "run/systemd/journal", "etc/journald.conf.d"):
            os.makedirs(f"{folder}/{part}")
        with open("/etc/machine-id", encoding="ascii") as file:
            self.journal = f"{folder}/log/journal/{file.read().strip()}"
        with open(f"{folder}/etc/journald.conf", "w", encoding="ascii") as file:
            file.write(SETTINGS)
        for path in drop_ins:
            shutil.copy(path, f"{folder}/etc/journald.conf.d")
        # It writes to the disk from its beginning, as it does once it was told that the disk is there.
        open(f"{folder}/run/systemd/journal/flushed", "wb").close()
        self.process = subprocess.Popen([*ALONE, "sh", "-c", BEGIN, "sh", folder, PROGRAM], stdin=subprocess.DEVNULL,
                                        stdout=subprocess.DEVNULL, stderr=subprocess.DEVNULL)
        end = time.monotonic() + SECONDS
        while not os.path.exists(self.socket):
            self.look(end, self.socket)

    def __enter__(self) -> Journald:
        return self

    def __exit__(self, *_: object) -> None:
        self.process.kill()
        self.process.wait()

    def log(self, user: int, entries: Iterable[bytes]) -> None:
        """A user's process logs entries, each of which is its fields."""
        sender = os.fork()
        if sender == 0:
            status = 1
            try:
                with socket.socket(socket.AF_UNIX, socket.SOCK_DGRAM) as to:
                    to.connect(self.socket)
                    os.setgroups([])
                    os.setresgid(user, user, user)
                    os.setresuid(user, user, user)
                    for entry in entries:
                        to.send(entry)
                status = 0
            finally:
                os._exit(status)
        if os.waitstatus_to_exitcode(os.waitpid(sender, 0)[1]):
            raise OSError("a user can't log")

    def shown(self, *options: str) -> list[str]:
        """The messages that journalctl shows."""
        told = subprocess.run(["journalctl", "--quiet", "--output=cat", f"--directory={self.journal}", *options],
                              capture_output=True, text=True, errors="replace", check=False)
        return told.stdout.splitlines()

    def wait_for_message(self, text: str) -> None:
        """Waits until journalctl shows it among the last ones: journald may have something to say itself."""
        end = time.monotonic() + SECONDS
        while text not in self.shown("--lines=20"):
            self.look(end, text)

    def look(self, end: float, wanted: str) -> None:
        """Waits a moment, until a time."""
        if time.monotonic() > end or self.process.poll() is not None:
            raise OSError(f"waited in vain for {wanted}")
        time.sleep(0.2)
