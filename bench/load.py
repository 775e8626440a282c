#!/usr/bin/env python3
"""The load of a fleet on one collector: how soon machines are answered, and what it takes.

usage: load.py PROGRAM KIND [--machines N] [--seconds S] [--entries N] [--ssh] [--folder FOLDER]

`each` and `kept`: N machines with an upload each minute, over a connection of its own for each upload, or one that is
there before and kept. `burst`: N machines bring uploads of five entries, 20,000 in a minute, and whoever is told
`later` comes again. `idle`: N connections that carry nothing, and what memory they take. `syncs`: N machines wait at
once; how often the program syncs for them.

All of the collector (sshd, nc, the service and its programs) is bound to the last processor, which it has before all
else, and the machines to the others; `--processor -1` binds nothing. With --ssh machines come by sshd, as an account
whose shell is /bin/sh, otherwise by the service's sockets. It takes root. What is told is processor time, besides the
clock's: machines share the other processors with all else, and a disk's syncs with all that syncs.
"""
from __future__ import annotations

import argparse
import contextlib
import hashlib
import os
import re
import resource
import signal
import socket
import statistics
import subprocess
import sys
import tempfile
import threading
import time
from collections.abc import Callable, Iterator
from concurrent.futures import ThreadPoolExecutor
from pathlib import Path

ROOT = Path(__file__).resolve().parents[1]
sys.path[:0] = [str(ROOT / "tests/machine"), str(ROOT / "tests")]
from samples import second_head  # noqa: E402
from sshd import CONFIG, SSHD  # noqa: E402
from waiting import free_port, listens, wait_until  # noqa: E402

OPTIONS = ("BatchMode=yes", "IdentitiesOnly=yes", "ControlPath=none", "UserKnownHostsFile=/dev/null",
           "StrictHostKeyChecking=no", "LogLevel=ERROR")
# As journald has them: some 20 fields.
FIELDS = """PRIORITY=6
SYSLOG_FACILITY=3
SYSLOG_IDENTIFIER=worker
_TRANSPORT=journal
_UID=1000
_GID=1000
_COMM=worker
_EXE=/usr/bin/worker
_CMDLINE=/usr/bin/worker --config /etc/worker.conf
_CAP_EFFECTIVE=0
_SYSTEMD_CGROUP=/system.slice/worker.service
_SYSTEMD_UNIT=worker.service
_SYSTEMD_SLICE=system.slice
_SYSTEMD_INVOCATION_ID=0123456789abcdef0123456789abcdef
_HOSTNAME=machine
CODE_FILE=src/worker.c
CODE_LINE=120
CODE_FUNC=handle
_MACHINE_ID=00112233445566778899aabbccddeeff
_BOOT_ID=ffeeddccbbaa99887766554433221100
"""
BURST = 20_000
REALTIME = 1_700_000_000_000_000


def upload(machine: int, first: int, count: int) -> bytes:
    """An upload of a machine's entries, from a number on."""
    sequence = f"{machine:032x}"
    body = "".join(f"__REALTIME_TIMESTAMP={REALTIME + number}\n__MONOTONIC_TIMESTAMP={number}\n__SEQNUM={number}\n"
                   f"__SEQNUM_ID={sequence}\nMESSAGE=request {number} was answered in {number % 97} ms\n{FIELDS}\n"
                   for number in range(first, first + count)).encode()
    return whole(body, count)


def whole(body: bytes, count: int) -> bytes:
    """An upload of its own source."""
    return second_head(0, True, count, os.urandom(16)) + body


class Line:
    """A machine's connection, by its socket or by ssh."""

    def __init__(self, collector: Collector, machine: int) -> None:
        self.process: subprocess.Popen[bytes] | None = None
        self.own: socket.socket | None = None
        if collector.sshd:
            self.process = subprocess.Popen(collector.ssh(machine), stdin=subprocess.PIPE, stdout=subprocess.PIPE,
                                            stderr=subprocess.DEVNULL)
            assert self.process.stdin and self.process.stdout
            self.writes, self.reads = self.process.stdin, self.process.stdout
        else:
            self.own = socket.socket(socket.AF_UNIX)
            self.own.settimeout(300)
            self.own.connect(str(collector.folder / "var/sockets" / f"m{machine}"))
            self.writes, self.reads = self.own.makefile("wb"), self.own.makefile("rb")
        if not self.line().startswith("journal-collect 1 "):
            raise OSError("no greeting")

    def line(self) -> str:
        line = self.reads.readline()
        if not line.endswith(b"\n"):
            raise OSError("the connection ended")
        return line.decode()

    def send(self, data: bytes) -> str:
        self.put(data)
        return self.line()

    def put(self, data: bytes) -> None:
        head = f"upload {len(data)} {hashlib.sha256(data).hexdigest()} {time.time_ns() // 1000}\n".encode()
        self.writes.write(head + data)
        self.writes.flush()

    def close(self) -> None:
        self.writes.close()
        self.reads.close()
        if self.own:
            self.own.close()
        if self.process:
            self.process.wait()


class Collector:
    """The service, and perhaps an sshd before it, on a processor of their own."""

    def __init__(self, folder: Path, program: str, machines: int, processor: int | None, is_by_ssh: bool) -> None:
        self.folder, self.processor, self.sshd = folder, processor, None
        (folder / "etc/keys").mkdir(parents=True)
        (folder / "etc/collector.conf.d").mkdir()
        (folder / "var").mkdir()
        (folder / "etc/collector.conf.d/10-load.conf").write_text(f"FOLDER={folder}/var\nFREE_BYTES=0\n")
        for machine in range(machines):
            (folder / "etc/keys" / f"m{machine}.pub").write_text("ssh-ed25519 A A\n")
        environment = {**os.environ, "JOURNAL_COLLECT": program, "JOURNAL_COLLECT_SETTINGS": str(folder / "etc")}
        with open(folder / "log", "wb") as log:
            service = ["/usr/bin/python3", "-B", ROOT / "deploy/programs/journal-collect-service"]
            self.service = subprocess.Popen(service, env=environment, stderr=log, preexec_fn=self.bind)
        last = folder / "var/sockets" / f"m{machines - 1}"
        while not last.exists():
            time.sleep(0.05)
        if is_by_ssh:
            self.begin_sshd(machines)

    def bind(self) -> None:
        """It has that processor before all else that the computer does."""
        if self.processor is not None:
            os.sched_setaffinity(0, {self.processor})
            os.sched_setscheduler(0, os.SCHED_RR, os.sched_param(1))

    def begin_sshd(self, machines: int) -> None:
        folder = self.folder / "sshd"
        folder.mkdir()
        self.port, keys = free_port(), []
        for name in ["host", *(f"m{machine}" for machine in range(machines))]:
            subprocess.run(["ssh-keygen", "-q", "-t", "ed25519", "-N", "", "-f", folder / name], check=True)
            command = f'command="/usr/bin/nc.openbsd -NU {self.folder}/var/sockets/{name}",restrict'
            keys.append(f"{command} {(folder / f'{name}.pub').read_text()}")
        (folder / "authorized_keys").write_text("".join(keys[1:]))
        (folder / "config").write_text(f"{CONFIG.format(port=self.port, folder=folder)}MaxStartups 1000\n")
        os.makedirs("/run/sshd", exist_ok=True)
        self.sshd = subprocess.Popen([*with_plain_shells(folder), SSHD, "-D", "-e", "-f", folder / "config"],
                                     stderr=subprocess.DEVNULL, preexec_fn=self.bind)
        wait_until(lambda: listens(self.port))

    def ssh(self, machine: int) -> list[str]:
        options = [word for option in (*OPTIONS, f"Port={self.port}") for word in ("-o", option)]
        return ["ssh", "-T", "-i", f"{self.folder}/sshd/m{machine}", *options, "root@127.0.0.1"]

    def processes(self) -> dict[str, list[int]]:
        """All that runs now of the collector, by what it is."""
        found = {"service": [self.service.pid], "its programs": below(self.service.pid)}
        if self.sshd:
            found["sshd and nc"] = [self.sshd.pid, *below(self.sshd.pid)]
        return found

    def used(self) -> dict[str, float]:
        """The seconds of a processor that each part took so far. What ended counts for who began it, but that the
        service's programs count for themselves."""
        used = {name: sum(sum(seconds(each)) for each in processes) for name, processes in self.processes().items()}
        ended = seconds(self.service.pid)[1]
        return used | {"service": used["service"] - ended, "its programs": used["its programs"] + ended}

    def end(self) -> None:
        for process in (self.service, self.sshd):
            if process:
                process.terminate()
                process.wait()


def with_plain_shells(folder: Path) -> list[str | Path]:
    """What begins a program for which each account has /bin/sh, as machines' login has: root's own shell may read much
    of what its home has, at each login."""
    accounts = [line.rpartition(":")[0] for line in Path("/etc/passwd").read_text().splitlines()]
    (folder / "passwd").write_text("".join(f"{each}:/bin/sh\n" for each in accounts))
    return ["unshare", "--mount", "sh", "-c", 'mount --bind "$0" /etc/passwd && exec "$@"', folder / "passwd"]


def below(process: int) -> list[int]:
    """The processes that one began, and those that they began."""
    found = []
    for task in Path(f"/proc/{process}/task").iterdir():
        for child in map(int, (task / "children").read_text().split()):
            found += [child, *below(child)]
    return found


def seconds(process: int) -> tuple[float, float]:
    """What a process took of a processor itself, and what those took that it began and that ended."""
    with contextlib.suppress(ProcessLookupError, FileNotFoundError):        # it has just ended
        words = Path(f"/proc/{process}/stat").read_text().rpartition(")")[2].split()
        own, ended = (sum(map(int, words[first:first + 2])) / os.sysconf("SC_CLK_TCK") for first in (11, 13))
        return own, ended
    return 0.0, 0.0


def pss(processes: list[int]) -> float:
    """MiB that processes take, each its part of what is shared."""
    total = 0
    for each in processes:
        with contextlib.suppress(ProcessLookupError, FileNotFoundError):    # it has just ended
            text = Path(f"/proc/{each}/smaps_rollup").read_text()
            total += int(re.findall(r"^Pss: +(\d+)", text, re.MULTILINE)[0])
    return total / 1024


class Answers:
    """What machines heard, and how long after they began."""

    def __init__(self) -> None:
        self.taken: list[float] = []
        self.later = self.lost = 0
        self.wrong: list[str] = []

    def say(self) -> None:
        taken = sorted(self.taken) or [0.0]
        print(f"{len(self.taken)} acknowledged, {self.later} told later, {self.lost} connections lost; answered in "
              f"{statistics.median(taken):.2f} s in the median, {taken[len(taken) * 99 // 100]:.2f} s of 99 in 100, "
              f"{taken[-1]:.2f} s at most{''.join(f'; wrong: {each}' for each in self.wrong[:3])}")


def in_threads(count: int, does: Callable[[int], None]) -> None:
    threading.stack_size(256 << 10)
    threads = [threading.Thread(target=does, args=(number,), daemon=True) for number in range(count)]
    for thread in threads:
        thread.start()
    for thread in threads:
        thread.join()


def fleet(collector: Collector, asked: argparse.Namespace, answers: Answers) -> None:
    """Each machine has an upload each minute, at a time of its own. Those that keep a connection have it before."""
    lines = dict(enumerate(opened(collector, asked.machines))) if asked.kind == "kept" else {}
    minute = 60.0
    with measured(collector) as begun:

        def machine(number: int) -> None:
            due, first = begun + minute * number / asked.machines, 1
            while due < begun + asked.seconds:
                time.sleep(max(0.0, due - time.monotonic()))
                data, before = upload(number, first, asked.entries), time.monotonic()
                try:
                    line = lines.pop(number, None) or Line(collector, number)
                    first = told(line.send(data), before, answers, first, asked.entries)
                    if asked.kind == "kept":
                        lines[number] = line
                    else:
                        line.close()
                except OSError:
                    answers.lost += 1
                due += minute

        in_threads(asked.machines, machine)
    for line in lines.values():
        line.close()


def opened(collector: Collector, machines: int) -> list[Line]:
    """A connection of each machine; a few of them are being made at a time."""
    with ThreadPoolExecutor(8) as pool:
        return list(pool.map(lambda number: Line(collector, number), range(machines)))


@contextlib.contextmanager
def measured(collector: Collector) -> Iterator[float]:
    """Gives when it begins, and says what the collector's parts took meanwhile."""
    begun, before, load = time.monotonic(), collector.used(), os.getloadavg()[0]
    yield begun
    parts = {name: used - before[name] for name, used in collector.used().items()}
    print(f"{time.monotonic() - begun:.0f} s, in which the collector took {sum(parts.values()):.1f} s of a processor: "
          + ", ".join(f"{name} {used:.1f} s" for name, used in parts.items())
          + f"; load {load:.0f} before and {os.getloadavg()[0]:.0f} after")


def told(answer: str, before: float, answers: Answers, first: int, entries: int) -> int:
    """What an answer means: the number that comes next."""
    if answer.startswith("ack "):
        answers.taken.append(time.monotonic() - before)
        return first + entries
    if answer.startswith("later "):
        answers.later += 1
    else:
        answers.wrong.append(answer)
    return first


def burst(collector: Collector, asked: argparse.Namespace, answers: Answers) -> None:
    """Uploads of five entries, spread over a minute; each machine has its next one when the last was answered."""
    lines, each = opened(collector, asked.machines), BURST * asked.seconds / 60 / asked.machines
    made = [[upload(number, 1 + 5 * turn, 5) for turn in range(round(each))] for number in range(asked.machines)]
    with measured(collector) as begun:

        def machine(number: int) -> None:
            first = 1
            for turn in range(round(each)):
                due = begun + asked.seconds * (turn + number / asked.machines) / each
                time.sleep(max(0.0, due - time.monotonic()))
                first = told(lines[number].send(made[number][first // 5]), max(due, begun), answers, first, 5)
            lines[number].close()

        in_threads(asked.machines, machine)
    print(f"{len(answers.taken) + answers.later} of {round(each) * asked.machines} uploads were answered "
          f"{time.monotonic() - begun:.0f} s after the first of them was there, the last of which came after "
          f"{asked.seconds} s")


def idle(collector: Collector, asked: argparse.Namespace, answers: Answers) -> None:
    lines = opened(collector, asked.machines)
    told(lines[0].send(upload(0, 1, 5)), time.monotonic(), answers, 1, 5)
    time.sleep(2.0)
    sizes = {name: pss(processes) for name, processes in collector.processes().items()}
    print("Pss: " + ", ".join(f"{name} {size:.0f} MiB" for name, size in sizes.items())
          + f"; together {sum(sizes.values()):.0f} MiB")
    for line in lines:
        line.close()


def syncs(collector: Collector, asked: argparse.Namespace, answers: Answers) -> None:
    """All wait at once: first with sequences that nobody knows, and once more with more of them."""
    lines = opened(collector, asked.machines)
    told(lines[0].send(upload(0, 1, 5)), time.monotonic(), answers, 1, 5)
    program = next(each for each in below(collector.service.pid) if is_collecting(each))
    for first, known in ((6, "new"), (11, "known")):
        before = len(synced(collector))
        os.kill(program, signal.SIGSTOP)
        for number, line in enumerate(lines):
            line.put(upload(number, first, 5))
        time.sleep(3.0)
        os.kill(program, signal.SIGCONT)
        begun = time.monotonic()
        for line in lines:
            told(line.line(), begun, answers, first, 5)
        time.sleep(1.0)
        count = len(synced(collector)) - before
        print(f"{count} syncs, one after the other, for {len(lines)} uploads of {known} sequences")
    for line in lines:
        line.close()


def is_collecting(process: int) -> bool:
    """It is the program that stores, and not the one that traces it."""
    with contextlib.suppress(ProcessLookupError, FileNotFoundError):        # it has just ended
        return b"collect\0" in Path(f"/proc/{process}/cmdline").read_bytes() and not below(process)
    return False


def synced(collector: Collector) -> list[str]:
    return [line for line in (collector.folder / "trace").read_text().splitlines() if "sync(" in line]


def traced(folder: Path, program: str) -> str:
    """A program that is this one with a list of its syncs."""
    script = folder / "traced"
    script.write_text(f"""#!/bin/bash
if [[ $* != *"--files-from - "* ]]; then exec {program} "$@"; fi
exec strace -f -o {folder}/trace -e trace=fsync,fdatasync,sync_file_range {program} "$@"
""")
    script.chmod(0o755)
    return str(script)


def main() -> int:
    words = argparse.ArgumentParser()
    words.add_argument("program")
    words.add_argument("kind", choices=["each", "kept", "burst", "idle", "syncs"])
    words.add_argument("--machines", type=int, default=1000)
    words.add_argument("--seconds", type=int, default=60)
    words.add_argument("--entries", type=int, default=100)
    words.add_argument("--processor", type=int, default=(os.cpu_count() or 1) - 1)
    words.add_argument("--ssh", action="store_true")
    asked, answers = words.parse_args(), Answers()
    resource.setrlimit(resource.RLIMIT_NOFILE, (resource.getrlimit(resource.RLIMIT_NOFILE)[1],) * 2)
    others = os.sched_getaffinity(0) - {asked.processor}
    processor = asked.processor if others and asked.processor >= 0 else None
    with tempfile.TemporaryDirectory(prefix="load.") as folder:
        program = os.path.abspath(asked.program)
        if asked.kind == "syncs":
            program = traced(Path(folder), program)
        collector = Collector(Path(folder), program, asked.machines, processor, asked.ssh)
        if processor is not None:
            os.sched_setaffinity(0, others)
        try:
            print(f"{asked.kind}: {asked.machines} machines{' by ssh' if asked.ssh else ''}", flush=True)
            {"burst": burst, "idle": idle, "syncs": syncs}.get(asked.kind, fleet)(collector, asked, answers)
        finally:
            collector.end()
        answers.say()
    return 1 if answers.wrong else 0


if __name__ == "__main__":
    sys.exit(main())
