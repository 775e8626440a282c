"""A computer's disk: a file system of its own in an image, so that losing power, a full disk, a snapshot and a clone
are what they are on real computers: operations on that image. It takes root and loop devices."""
from __future__ import annotations

import contextlib
import filecmp
import os
import re
import shutil
import subprocess
import time
from collections.abc import Sequence
from pathlib import Path
from typing import Any

from waiting import wait_until

# What isn't synced stays in memory: it isn't on the disk when the power goes.
OPTIONS = "loop,noatime,commit=600,noauto_da_alloc"
SIZE, INODES = 64 << 20, 2_000
# What machines send, one of which is hostile, is there as databases and as journal files; and the service wants room
# for 10,000 files more.
COLLECTOR_SIZE, COLLECTOR_INODES = 2 * SIZE, 16_000


def can_mount(folder: Path) -> bool:
    """Whether disks can be had here."""
    try:
        Disk(folder / "trial").remove()
        return True
    except (OSError, subprocess.SubprocessError):
        return False


def run(*words: str | Path) -> None:
    subprocess.run(words, check=True, stdin=subprocess.DEVNULL, stdout=subprocess.DEVNULL, stderr=subprocess.PIPE)


def groups() -> Path:
    """Where control groups of version 2 are."""
    with open("/proc/mounts", encoding="ascii") as file:
        for line in file:
            if line.split()[2] == "cgroup2":
                return Path(line.split()[1])
    raise OSError("no control groups of version 2 are mounted")


class Disk:
    """An image and where it is mounted. Its computer's processes are in a control group, which ends with its power; in
    that each unit has one of its own, as systemd has it."""

    def __init__(self, folder: Path, copied: Path | None = None, size: int = SIZE, inodes: int = INODES) -> None:
        folder.mkdir()
        self.group = groups() / f"world-{os.getpid()}-{folder.parent.name}-{time.monotonic_ns()}"
        self.group.mkdir()
        self.folder, self.image, self.at = folder, folder / "image", folder / "mounted"
        self.at.mkdir()
        self.processes: list[subprocess.Popen[bytes]] = []
        if copied:
            shutil.copy(copied, self.image)
        else:
            with self.image.open("wb") as file:
                file.truncate(size)
            run("mkfs.ext4", "-q", "-F", "-m", "0", "-N", str(inodes), self.image)
        self.mount()

    def mount(self) -> None:
        run("mount", "-o", OPTIONS, self.image, self.at)

    def unmount(self) -> None:
        """What was killed has its files open for a moment still."""
        words = ["umount", str(self.at)]
        wait_until(lambda: subprocess.run(words, stderr=subprocess.DEVNULL, check=False).returncode == 0,
                   f"{self.at} isn't used by {self.group}: that")
        # who made a namespace of mounts meanwhile has it mounted still, for a moment
        words = ["losetup", "--associated", str(self.image)]
        wait_until(lambda: not subprocess.run(words, capture_output=True, check=True).stdout, f"{self.at} is free")

    def begin(self, unit: str, words: Sequence[str | Path], **options: Any) -> subprocess.Popen[bytes]:
        """A process of a unit."""
        group = self.group / unit
        group.mkdir(exist_ok=True)

        def join() -> None:
            (group / "cgroup.procs").write_text(str(os.getpid()))

        self.processes.append(subprocess.Popen(words, preexec_fn=join, **options))
        return self.processes[-1]

    def runs(self, process: subprocess.Popen[bytes] | None) -> bool:
        return process in self.processes and process is not None and process.poll() is None

    def kill(self, unit: str = "") -> None:
        """All processes of a unit, or of the computer, end at once."""
        group = self.group / unit
        if group.is_dir():
            (group / "cgroup.kill").write_text("1")
            while "populated 1" in (group / "cgroup.events").read_text():
                time.sleep(0.005)
        for process in self.processes:
            process.poll()
        self.processes = [process for process in self.processes if process.poll() is None]

    def lose_power(self) -> None:
        """The disk is what was written to it so far, and nothing of what memory had for it."""
        self.kill()
        left = self.folder / "left"
        shutil.copy(self.image, left)
        while not filecmp.cmp(self.image, left, shallow=False):     # something was still being written
            shutil.copy(self.image, left)
        self.unmount()
        left.replace(self.image)
        self.mount()

    def damage(self, path: Path) -> None:
        """The computer stops, and its disk can't read any more what a file is: it has no length, and can't be moved."""
        self.kill()
        node, size = path.stat().st_ino, os.statvfs(self.at).f_bsize
        self.unmount()
        told = subprocess.run(["debugfs", "-R", f"imap <{node}>", self.image], capture_output=True, check=True).stdout
        block, offset = re.findall(rb"block (\d+), offset 0x([0-9a-f]+)", told)[0]
        with self.image.open("r+b") as file:
            file.seek(int(block) * size + int(offset, 16) + 8)
            file.write(b"\xff" * 4)                 # its sum isn't that of these bytes
        self.mount()

    def mend(self) -> None:
        """What its computer can't read any more it can: nothing of it was lost."""
        self.unmount()
        subprocess.run(["e2fsck", "-fy", self.image], capture_output=True, check=False)
        self.mount()

    def sync(self) -> None:
        run("sync", "--file-system", self.at)

    def snapshot(self, to: Path) -> None:
        """A copy of the disk as it is, as a hypervisor makes it: processes stand still meanwhile."""
        (self.group / "cgroup.freeze").write_text("1")
        run("fsfreeze", "--freeze", self.at)
        try:
            shutil.copy(self.image, to)
        finally:
            run("fsfreeze", "--unfreeze", self.at)
            (self.group / "cgroup.freeze").write_text("0")

    def set_back(self, snapshot: Path) -> None:
        """The computer goes on as it was then. The image is another file: a mount takes the loop device of one that it
        knows, if anybody has that open still, with what it keeps of blocks."""
        self.kill()
        self.unmount()
        left = self.folder / "left"
        shutil.copy(snapshot, left)
        left.replace(self.image)
        self.mount()

    def fill(self, left: int) -> None:
        """Another program takes all room of the disk but some bytes."""
        piece = b"x" * (1 << 20)
        with contextlib.suppress(OSError), (self.at / "filled").open("ab", buffering=0) as file:
            while (room := self.room() - left) > 0:     # somebody else may take the last of it, or the last name
                file.write(piece[:room])

    def room(self) -> int:
        told = os.statvfs(self.at)
        return told.f_bavail * told.f_frsize

    def take_inodes(self, left: int) -> None:
        """Another program makes all files that there can be but some."""
        name = self.at / "files" / str(time.monotonic_ns())
        with contextlib.suppress(OSError):
            name.parent.mkdir(exist_ok=True)
            for number in range(os.statvfs(self.at).f_favail - left):
                os.mknod(f"{name}-{number}")

    def free(self) -> None:
        (self.at / "filled").unlink(missing_ok=True)
        shutil.rmtree(self.at / "files", ignore_errors=True)

    def remove(self) -> None:
        self.kill()
        self.unmount()
        for each in [*(path for path in self.group.iterdir() if path.is_dir()), self.group]:
            each.rmdir()
        shutil.rmtree(self.folder)
