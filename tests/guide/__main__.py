"""The guide over two computers that systemd starts: what it says to type is typed, and does what the guide says.

usage: python3 tests/guide [--failures]

Each block of docs/GUIDE.md, and each of docs/FORMATS.md whose fence names computers, is run there, in the order of the
pages, as root. Then each event in a machine's and a collector's life is one command, after which journal-collect-status
finds nothing; and each failure of a list is named by it, with what to do, on the side where it is mended. PROGRAM names
the program. With --failures the events are left out. What lacks a program is told as skipped; `apt-get install
clickhouse-client clickhouse-server exim4-daemon-light prometheus prometheus-node-exporter swatch` brings all of them.

WEB_SYSTEM names a folder with another system for web. For Debian 13 it is made by `debootstrap --variant=minbase
--include=dbus,netcat-openbsd,openssh-server,procps,python3,systemd-journal-remote,systemd-sysv,zstd trixie FOLDER`.
"""
from __future__ import annotations

import os
import shutil
import sys
import tempfile
from collections import Counter
from collections.abc import Callable
from pathlib import Path

from booted import TESTS, Booted, Network, lacking, package
from failures import FAILURES, SLOWS, Failure
from life import EVENTS, Skipped, arrives, purged
from pages import Wrong, type_all

sys.path.insert(1, str(TESTS))
import preload  # noqa: E402

LOGS = "journalctl -n 30 -u 'journal-collect*' -u ssh -o short --no-pager"
# what was told within the day: it says what happened, and nothing is to be done
NEWS = ("told", "lost", "refused", "notes")


def prepare(collector: Booted, web: Booted) -> None:
    """The administrator can log in at the collector by ssh, as the guide supposes."""
    collector.shell("ssh-keygen -A && systemctl start systemd-user-sessions ssh && mkdir -p /etc/cron.hourly")
    web.shell("mkdir -p -m 700 /root/.ssh && rm -f /root/.ssh/*")
    web.shell("ssh-keygen -q -t ed25519 -N '' -f /root/.ssh/id_ed25519")
    key = web.call("cat", "/root/.ssh/id_ed25519.pub").stdout.decode()
    collector.shell(f"mkdir -p -m 700 /root/.ssh && printf '%s' '{key}' > /root/.ssh/authorized_keys")
    hosts = collector.shell("cat /etc/ssh/ssh_host_*_key.pub").stdout.decode()
    web.shell("".join(f"echo 'logs.example.org {line}' >> /root/.ssh/known_hosts\n" for line in hosts.splitlines()))


def is_well(computer: Booted) -> None:
    """Nothing wrong is said, at the latest after a while, but for what was told of the day."""
    computer.wait_for(lambda: all(each["name"] in NEWS for each in computer.findings()), "nothing to look at")


def tried(counts: Counter[str], name: str, deed: Callable[[], object]) -> None:
    """One part, which counts as passed, failed or skipped."""
    print(name, flush=True)
    try:
        deed()
        counts["passed"] += 1
    except Skipped as why:
        print(f"skipped: {name} {why}")
    except (AssertionError, Wrong, TimeoutError) as error:
        counts["failed"] += 1
        print(f"WRONG: {name}: {error}")


def tried_all(collector: Booted, web: Booted, events: list[Callable[[Booted, Booted], None]],
              failures: list[Failure]) -> Counter[str]:
    """The guide, events, failures, and the end."""
    counts: Counter[str] = Counter()

    def well_after(*deeds: Callable[[Booted, Booted], None]) -> None:
        for do in deeds:
            do(collector, web)
        is_well(collector)
        is_well(web)

    tried(counts, "the guide", lambda: type_all({"collector": collector, "web": web}))
    if counts["failed"]:
        print(f"{collector.shell(LOGS).stdout.decode()}{web.shell(LOGS).stdout.decode()}")
        return counts
    for event in events:
        tried(counts, f"event: {event.__doc__}", lambda: well_after(event, arrives))
    for failure in failures:
        tried(counts, f"failure: {failure.name}", lambda: well_after(failure.is_found))
    tried(counts, "a purge", lambda: purged(collector, web))
    return counts


def tried_in(folder: Path, events: list[Callable[[Booted, Booted], None]]) -> Counter[str]:
    """All of it, over computers whose disks are in a folder."""
    first, later = package(folder / "first"), package(folder / "later", "0.1.0+later")
    with Network(), Booted(folder, "collector", first) as collector, \
            Booted(folder, "web", first, os.environ.get("WEB_SYSTEM", "/")) as web:
        prepare(collector, web)
        for computer in (collector, web):
            shutil.copy(later, computer.root / "root/later.deb")
        if shutil.which("rt"):
            shutil.copy(preload.built(str(TESTS / "world/clock.c"), str(folder)), web.root / "usr/lib/clock.so")
            return tried_all(collector, web, events, FAILURES)
        print("skipped: no clock of the guide's computers is set behind: there is no rt, which builds what does it")
        return tried_all(collector, web, events, [each for each in FAILURES if each.begin != SLOWS])


def main() -> int:
    if why := lacking():
        print(f"skipped: the guide isn't typed: {why}")
        return 0
    with tempfile.TemporaryDirectory(prefix="guide-") as folder:
        counts = tried_in(Path(folder), [] if "--failures" in sys.argv else EVENTS)
    print(f"{counts['passed']} passed, {counts['failed']} failed")
    return 1 if counts["failed"] else 0


if __name__ == "__main__":
    sys.exit(main())
