"""The blocks of the guide, and of the reference that it names, typed at the computers that their fences name."""
from __future__ import annotations

import re
import time
from collections.abc import Iterator
from pathlib import Path

from booted import TESTS, Booted
from life import does, lacks

GUIDE, REFERENCE = (TESTS.parent / "docs" / name for name in ("GUIDE.md", "FORMATS.md"))
BLOCK = re.compile(r"^```(sh|sql) ([\w ]+)\n(.*?)^```$", re.MULTILINE | re.DOTALL)
FIRST, ENOUGH, MACHINES = "The first quarter of an hour", 12, 3
JOIN, READING = "journal-collect-join", "journal-collect-search -M web -n 20"
CLICKHOUSE, ALARM = "clickhouse-client", "journal-collect-alarm"
# What a block needs that the package doesn't bring.
NEEDS = {CLICKHOUSE: ("clickhouse-client", "clickhouse-server"), ALARM: ("swatchdog", "sendmail")}
# A statement over each finished database.
ASK = """import pathlib, sqlite3, sys
paths = [path.with_suffix("") for path in pathlib.Path("/var/lib/journal-collect/databases").glob("*.db.sha256")]
rows = [row for path in paths for row in sqlite3.connect(f"file:{path}?mode=ro", uri=True).execute(sys.argv[1])]
sys.exit(0 if rows else "there is nothing")"""


class Wrong(Exception):
    """What isn't as the guide says."""


def blocks(page: Path, part: str = "") -> Iterator[tuple[str, list[str], str]]:
    """Of each block of a page, or of the part below a heading: its kind, its computers, and what is typed."""
    text = page.read_text()
    if part:
        text = text.partition(f"\n## {part}\n")[2].partition("\n## ")[0]
    for kind, names, block in BLOCK.findall(text):
        yield kind, names.split(), block


def look_at_pages() -> None:
    """All blocks of the guide are typed. Its set-up edits no file, and is short: of a collector, and of machines."""
    if GUIDE.read_text().count("\n```") != 2 * len(list(blocks(GUIDE))):
        raise Wrong("a block of the guide names no computer")
    first = [(names, block) for _, names, block in blocks(GUIDE, FIRST)]
    if any(re.search(r">|\bsed\b|\bedit", block) for _, block in first):
        raise Wrong("the set-up edits a file")
    times = {"collector": 1, "web": MACHINES}
    count = sum(len(block.splitlines()) * times[name] for names, block in first for name in names)
    print(f"measured: {count} commands set up a collector and {MACHINES} machines, and read what these sent")
    if not 0 < count <= ENOUGH:
        raise Wrong(f"{count} commands set it up, and at most {ENOUGH} are to")


def type_all(computers: dict[str, Booted]) -> None:
    """Each block, in the order of the pages. The first one is the installation."""
    look_at_pages()
    began = time.monotonic()
    for kind, names, block in [*blocks(GUIDE), *blocks(REFERENCE)]:
        for computer in (computers[name] for name in names):
            if lacking := [program for word, needed in NEEDS.items() if word in block
                           for program in needed if lacks(computer, program)]:
                print(f"skipped: a block of the guide isn't typed: there is no {' and no '.join(lacking)}: "
                      f"{block.splitlines()[-1]}")
                continue
            before(computer, block)
            type_one(computer, kind, block)
            if READING in block:
                print(f"measured: {time.monotonic() - began:.0f} s from the installation to the first entry that is "
                      "read; five minutes are wanted")
            after(computer, block)


def type_one(computer: Booted, kind: str, block: str) -> None:
    """It ends well. What was acknowledged can be read within seconds, and a slow computer joins by the second call."""
    said = ""

    def ends_well() -> bool:
        nonlocal said
        told = computer.shell(block) if kind == "sh" else computer.call("python3", "-c", ASK, block)
        said = (told.stdout + told.stderr).decode(errors="replace")
        print(f"{computer.name}$ {block}{said}", flush=True)
        if told.returncode and JOIN not in block and READING not in block:
            raise Wrong(f"{computer.name}: status {told.returncode}: {block}{said}")
        return told.returncode == 0

    computer.wait_for(ends_well, block)
    if JOIN in block and not said.rstrip().endswith("web sends to logs.example.org"):
        raise Wrong(f"join: {said}")
    if READING in block and not said.strip():
        raise Wrong("nothing of web can be read")


def before(computer: Booted, block: str) -> None:
    """What an administrator who types this has there."""
    if CLICKHOUSE in block:
        does(computer, "systemctl start clickhouse-server")
        computer.wait_for(lambda: computer.call("clickhouse-client", "--query=SELECT 1").stdout, "ClickHouse")


def after(computer: Booted, block: str) -> None:
    """What comes of it; then it is as before."""
    if CLICKHOUSE in block:
        count = ["clickhouse-client", "--query=SELECT count() FROM journal"]
        computer.wait_for(lambda: computer.call(*count).stdout.strip() not in (b"", b"0"), "rows in ClickHouse")
        does(computer, "systemctl disable -q --now journal-collect-forward; systemctl stop clickhouse-server; "
             "rm /etc/journal-collect/forward.conf.d/10-clickhouse.conf")
    if ALARM in block:
        does(computer, f"systemctl disable -q --now {ALARM}; rm /etc/journal-collect/alarms.swatch")
