"""Computers that systemd starts: each is a container with a copy of this computer's own system, or of another folder's,
in which nothing that is written stays, and all share a network of their own. The package is installed on each."""
from __future__ import annotations

import json
import os
import re
import shutil
import subprocess
import time
from collections.abc import Callable
from pathlib import Path

HERE = Path(__file__).resolve().parent
TESTS = HERE.parent
NETWORK = f"journal-collect-guide-{os.getpid()}"
# What of this computer isn't to be there: its own logs, and what earlier installations left; and units not to start.
EMPTY = ("var/log/journal", "var/lib/journal-collect", "var/lib/journal-collect-send", "etc/journal-collect")
MASKED = ("systemd-timesyncd.service", "systemd-networkd-wait-online.service", "getty.target", "console-getty.service",
          "systemd-resolved.service")
SECONDS = 1800.0


def lacking() -> str:
    """Why none can be started here; nothing if they can."""
    for program in ("systemd-nspawn", "sshd", "ip", "dpkg-deb", "strip", "objdump"):
        if not shutil.which(program, path=f"{os.environ['PATH']}:/usr/sbin:/sbin"):
            return f"there is no {program}"
    return "only root can start containers" if os.geteuid() else ""


def run(*words: str | Path, given: bytes = b"") -> str:
    return subprocess.run(words, input=given, capture_output=True, check=True).stdout.decode(errors="replace")


def package(folder: Path, version: str = "") -> Path:
    """The package with the program that PROGRAM names; as a later version, if one is said."""
    run(TESTS.parent / "deploy/build-deb.sh", folder)
    made = next(folder.glob("*.deb"))
    if not version:
        return made
    run("dpkg-deb", "--raw-extract", made, folder / "raw")
    control = folder / "raw/DEBIAN/control"
    control.write_text(re.sub("(?m)^Version: .*", f"Version: {version}", control.read_text()))
    run("dpkg-deb", "-Zgzip", "--root-owner-group", "--build", folder / "raw", made)
    return made


class Network:
    """Loopback alone, which all computers share."""

    def __enter__(self) -> Network:
        run("ip", "netns", "add", NETWORK)
        run("ip", "-n", NETWORK, "link", "set", "lo", "up")
        return self

    def __exit__(self, *_: object) -> None:
        run("ip", "netns", "delete", NETWORK)


class Booted:
    """One computer."""

    def __init__(self, folder: Path, name: str, package: Path, system: str = "/") -> None:
        self.folder, self.name = folder / name, name
        self.root = self.folder / "root"
        self.root.mkdir(parents=True)
        run("mount", "-t", "tmpfs", "-o", "size=3G", "none", self.folder)
        for each in ("upper", "work", "root"):
            (self.folder / each).mkdir()
        run("mount", "-t", "overlay", "overlay", "-o",
            f"lowerdir={system},upperdir={self.folder / 'upper'},workdir={self.folder / 'work'}", self.root)
        self.prepare()
        command: list[str | Path] = ["systemd-nspawn", "--quiet", "--directory", self.root, "--boot",
                                    "--register=no", "--keep-unit", f"--machine={name}-{os.getpid()}",
                                    f"--hostname={name}",
                                    f"--network-namespace-path=/run/netns/{NETWORK}", "--resolv-conf=off",
                                    "--console=pipe", "--private-users=no"]
        self.process = subprocess.Popen(command, stdin=subprocess.DEVNULL, stdout=subprocess.DEVNULL,
                                        stderr=subprocess.DEVNULL)
        try:
            self.wait_for(lambda: self.call("systemctl", "is-system-running").stdout in (b"running\n", b"degraded\n"))
            shutil.copy(package, self.root / "root")
        except BaseException:
            self.__exit__()
            raise

    def prepare(self) -> None:
        for each in EMPTY:
            shutil.rmtree(self.root / each, ignore_errors=True)
            (self.root / each).mkdir(parents=True)
        (self.root / "etc/journal-collect").rmdir()
        for path in (self.root / "var/lib/journal-collect", self.root / "var/lib/journal-collect-send"):
            path.rmdir()
        (self.root / "etc/machine-id").unlink(missing_ok=True)
        (self.root / "etc/machine-id").write_text(os.urandom(16).hex() + "\n")
        (self.root / "etc/hosts").write_text(f"127.0.0.1 localhost logs.example.org {self.name}\n")
        (self.root / "etc/hostname").write_text(f"{self.name}\n")
        (self.root / "etc/fstab").write_text("")
        for unit in MASKED:
            (self.root / "etc/systemd/system" / unit).unlink(missing_ok=True)
            (self.root / "etc/systemd/system" / unit).symlink_to("/dev/null")
        # what else is installed on this computer isn't started
        (self.root / "etc/systemd/system/default.target").unlink(missing_ok=True)
        (self.root / "etc/systemd/system/default.target").symlink_to("/usr/lib/systemd/system/basic.target")
        for path in (self.root / "usr/bin").glob("journal-collect*"):
            path.unlink()

    def findings(self) -> list[dict[str, object]]:
        """What journal-collect-status finds."""
        ended = self.call("journal-collect-status", "--json")
        value = json.loads(ended.stdout)
        assert value["status"] == ended.returncode, ended
        found: list[dict[str, object]] = value["findings"]
        return found

    def __enter__(self) -> Booted:
        return self

    def __exit__(self, *_: object) -> None:
        self.process.terminate()
        try:
            self.process.wait(timeout=20)
        except subprocess.TimeoutExpired:
            self.process.kill()
            self.process.wait()
        for path in (self.root, self.folder):
            subprocess.run(["umount", "-l", path], check=False)

    def leader(self) -> str:
        """The process of its systemd."""
        return Path(f"/proc/{self.process.pid}/task/{self.process.pid}/children").read_text().split()[0]

    def call(self, *words: str | Path, given: bytes = b"") -> subprocess.CompletedProcess[bytes]:
        """A program that root runs there."""
        try:
            there = ["nsenter", f"--target={self.leader()}", "--all", "--wdns=/root", "env", "-i", "HOME=/root",
                     "PATH=/usr/sbin:/usr/bin:/sbin:/bin", "LANG=C.UTF-8"]
        except (OSError, IndexError):
            return subprocess.CompletedProcess(words, 255, b"", b"it isn't started")
        return subprocess.run([*there, *words], input=given, capture_output=True, check=False, timeout=300)

    def shell(self, text: str) -> subprocess.CompletedProcess[bytes]:
        """A block of the guide, as it is typed."""
        return self.call("bash", "-euo", "pipefail", "-c", text)

    def wait_for(self, holds: Callable[[], object], what: str = "it to start") -> None:
        end = time.monotonic() + SECONDS
        while not holds():
            if time.monotonic() > end or self.process.poll() is not None:
                raise TimeoutError(f"{self.name}: waited in vain for {what}; {self.call('journal-collect-status')}")
            time.sleep(0.2)
