"""A link that is cut again and again, by the real ssh, and a collector that takes nothing for an hour.

What rests is told by a clock that sleeping moves on (hurried.py). What a link carries in so many seconds is told by
bytes, so a computer that is busy changes nothing.
"""
import socket
import threading
from pathlib import Path

from collector import Collector
from conftest import Command, Machine
from journals import BEGIN, entries, write
from sshd import Sshd
from waiting import PATIENCE, wait_until

HURRIED: Command = ("/usr/bin/python3", "-B", Path(__file__).with_name("hurried.py"))
# 2 kB a second, cut each 20 s.
RATE, CARRIED = 2_000, 40_000
PIECE = 1_000
HOUR = 3600.0


class CutLink(threading.Thread):
    """Stands between ssh and sshd. A connection ends once it has carried so many bytes of the machine."""

    def __init__(self, port: int) -> None:
        super().__init__(daemon=True)
        self.to, self.connections, self.carried = port, 0, 0
        self.listening = socket.socket()
        self.listening.setsockopt(socket.SOL_SOCKET, socket.SO_RCVBUF, 4096)
        self.listening.bind(("127.0.0.1", 0))
        self.listening.listen()
        self.port = self.listening.getsockname()[1]
        self.start()

    def run(self) -> None:
        while True:
            near, _ = self.listening.accept()
            far = socket.create_connection(("127.0.0.1", self.to))
            self.connections += 1
            threading.Thread(target=self.carry, args=(near, far, CARRIED), daemon=True).start()
            threading.Thread(target=self.carry, args=(far, near, 1 << 30), daemon=True).start()

    def carry(self, one: socket.socket, other: socket.socket, most: int) -> None:
        try:
            while most > 0 and (piece := one.recv(min(PIECE, most))):
                other.sendall(piece)
                most -= len(piece)
                self.carried += len(piece) if one.getsockname()[1] == self.port else 0
        except OSError:
            pass
        for each in (one, other):
            try:
                each.shutdown(socket.SHUT_RDWR)
            except OSError:
                pass


def count(collector: Collector, message: bytes) -> int:
    """How many entries with this in them came in whole uploads."""
    return len({line for data in list(collector.uploads) for line in data.split(b"\n") if message in line})


def test_a_link_that_is_cut_each_20_seconds(machine: Machine, collector: Collector, sshd: Sshd) -> None:
    """Uploads become as small as they have to be, and what is new doesn't wait for the backlog."""
    link = CutLink(sshd.port)
    sshd.is_reached_by(link.port)
    old, user = entries("old", 150, pad=1000), machine.journal / "user-1000.journal"
    write(machine.journal / "system.journal", old)
    left: list[int] = []

    def before(data: bytes) -> None:
        """Something is logged once the first entries came."""
        if not user.exists():
            write(user, entries("new", 1, BEGIN + 1_000_000_000))
        if b"new 0" in data and not left:
            left.append(len(old) - count(collector, b"old "))

    collector.before = before
    with machine.running(HURRIED):
        wait_until(lambda: left and not machine.outbox(), seconds=3 * PATIENCE)
    size = sum(map(len, collector.uploads))
    print(f"{link.connections} connections carried {link.carried} bytes, {link.carried / RATE:.0f} s of this link, for "
          f"{size} bytes of {len(collector.uploads)} uploads; {left[0]} of {len(old)} old entries came after it")
    assert collector.messages() == sorted(each.message.strip() for each in [*old, *entries("new", 1)])
    assert left[0] > len(old) // 4
    assert link.carried < 5 * size


def test_a_collector_that_takes_nothing_for_an_hour(machine: Machine, collector: Collector) -> None:
    """What waits goes out within minutes then, the newest first, and meanwhile the machine asks each minute at most."""
    clocks: list[float] = []

    def before(data: bytes) -> str | None:
        clocks.append(int(collector.heard[-1].split()[3]) / 1e6)
        since = clocks[-1] - clocks[0]
        if since > HOUR / 2 and not user.exists():
            write(user, entries("two", 1, BEGIN + 1_000_000_000))
        return "later the disk is full" if since < HOUR else None

    user = Path(machine.journal / "user-1000.journal")
    collector.before = before
    machine.set(UPLOAD_BYTES=1500)
    write(machine.journal / "system.journal", entries("one", 40, pad=200))
    with machine.running(HURRIED):
        wait_until(lambda: clocks and clocks[-1] - clocks[0] >= HOUR and not machine.outbox(), seconds=3 * PATIENCE)
    asked = [at - clocks[0] for at in clocks]
    held = sum(at < HOUR for at in asked)
    new = next(at for at, data in zip(asked, collector.uploads) if at >= HOUR and b"two 0" in data)
    print(f"{held} uploads were told later in the hour; the first was taken {asked[held] - HOUR:.0f} s after it, the "
          f"new one {new - HOUR:.0f} s and the last {asked[-1] - HOUR:.0f} s after it")
    assert held < 80
    assert asked[held] < HOUR + 120 and asked[-1] < HOUR + 600      # a pause is a minute at most, and then it looks
    assert new < HOUR + 120
    assert len(collector.messages()) == 41


def test_a_machine_that_has_nothing_to_send(machine: Machine, collector: Collector) -> None:
    """It asks once a day, so it hears within that that the collector was restored."""
    machine.log_and_send(entries("one", 2))
    collector.knows = lambda sequence, number: len(collector.heard) > 2
    machine.environment["HURRY"] = "200"
    with machine.running(HURRIED):
        wait_until(lambda: len(collector.heard) > 4)
    asked = [line.split()[0] for line in collector.heard]
    assert "the collector lost what it had acknowledged" in machine.said
    assert asked[:3] == ["upload", "had", "upload"] and set(asked[3:]) == {"had"}
    assert collector.messages() == ["one 0", "one 1"]
