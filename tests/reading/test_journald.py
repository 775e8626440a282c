"""What a real journald wrote is read as journalctl reads the machine's own files."""
import re
import shutil
import struct
import subprocess
import sys
from collections.abc import Iterator
from pathlib import Path

import pytest
from collecting import Collector, digits
from test_search import as_said

sys.path.insert(0, str(Path(__file__).resolve().parents[1] / "machine"))
import journald  # noqa: E402

from journalcollect.common import entries  # noqa: E402

CURSOR = re.compile(rb"__CURSOR=s=([0-9a-f]{32});i=([0-9a-f]+);[^\n]*\n")
NAME = "2097-01-01T10-00-00"
CALLS = [[], ["TWICE=two"], ["EMPTY="], ["-p", "err"], ["-p", "4..5"], ["-t", "app1"], ["-g", "word3"], ["-b"],
         ["-g", "nothing"], ["MESSAGE_ID=fc2e22bc6ee647b6b90729ab34a250b1"], ["COREDUMP_UNIT=app.service"], ["-k"],
         ["-n", "5"], ["-r", "-n", "9"], ["-b", "-p3"], ["--facility=daemon"], ["TWICE=one", "+", "PRIORITY=2"],
         ["-o", "verbose"], ["-o", "short-full"], ["-o", "cat"], ["_TRANSPORT=journal", "-o", "short-iso"],
         ["--since", "1 hour ago"], ["--until", "yesterday"]]


def native(number: int) -> bytes:
    """An entry by the native protocol."""
    message = [f"plain word{number % 7} {number}".encode(), f"lines\n\nof word{number % 7}\n".encode(),
               b"\x00\xff raw word%d" % (number % 7), f"ünï\tcode word{number % 7}".encode()][number % 4]
    more = [b"", b"MESSAGE_ID=fc2e22bc6ee647b6b90729ab34a250b1\nCOREDUMP_UNIT=app.service\n", b"EMPTY=\n",
            b"TWICE=one\nTWICE=two\n"][number // 4 % 4]
    return (b"MESSAGE\n" + struct.pack("<Q", len(message)) + message + b"\n" + more
            + b"PRIORITY=%d\nSYSLOG_FACILITY=3\nSYSLOG_IDENTIFIER=app%d\n" % (number % 8, number % 3))


def keyed(path: Path) -> bytes:
    """The export of a file with each entry's key, which this version of journalctl says in the cursor alone."""
    words = ["journalctl", "-q", "-a", "-o", "export", f"--file={path}"]
    said = subprocess.run(words, capture_output=True, check=True).stdout

    def key(found: re.Match[bytes]) -> bytes:
        return b"__SEQNUM=%d\n__SEQNUM_ID=%s\n" % (int(found[2], 16), found[1])

    return b"".join(CURSOR.sub(key, said[span.begin:span.end], count=1) for span in entries.spans(said))


@pytest.fixture(scope="module")
def both(tmp_path_factory: pytest.TempPathFactory) -> Iterator[tuple[str, Collector]]:
    folder = tmp_path_factory.mktemp("journald")
    if why := journald.lacking(str(folder)):
        pytest.skip(why)
    collector = Collector(folder / "collector")
    with journald.Journald(f"{folder}/own") as daemon:
        for user in (0, 1000, 1001, 1000, 0):
            daemon.log(user, [native(number) for number in range(60)])
        daemon.log(0, [b"MESSAGE=the last one\n"])
        daemon.wait_for_message("the last one")
    uploads = []
    for path in sorted(Path(daemon.journal).glob("*.journal")):
        text = keyed(path)
        spans = list(entries.spans(text))
        for at in range(0, len(spans), 50):
            piece = spans[at:at + 50]
            upload = collector.path / "recent" / NAME / f"{len(uploads):020}.web"
            upload.parent.mkdir(exist_ok=True)
            upload.write_bytes(b"JCUPLD02\x01\x01" + bytes(6) + bytes.fromhex(digits(path.name, at))
                               + struct.pack("<QQ", 0, len(piece)) + text[piece[0].begin:piece[-1].end])
            uploads.append(upload)
        sequence = entries.entry(text, spans[0]).sequence
        collector.state.execute("INSERT OR IGNORE INTO sequence VALUES(?, 'web')", (sequence,))
    collector.finish(NAME)
    shutil.rmtree(collector.path / "recent" / NAME)
    assert collector.make().returncode == 0
    yield daemon.journal, collector


@pytest.mark.parametrize("words", CALLS, ids=" ".join)
def test_it_is_what_journalctl_gives(both: tuple[str, Collector], words: list[str]) -> None:
    own, collector = both
    form = [] if "-o" in words else ["-o", "json"]
    plain = subprocess.run(["journalctl", f"--directory={own}", "-q", "--no-pager", *form, *words], capture_output=True,
                           text=True, errors="replace", env=collector.environment, check=False)
    said = collector.search("-q", "-M", "web", *form, *words)
    assert as_said(said.stdout) == as_said(plain.stdout), said.stderr


def test_all_that_was_logged_is_there(both: tuple[str, Collector]) -> None:
    """Its journald is in a namespace of its own, and doesn't see whose the senders are."""
    assert len(both[1].search("-o", "json", "_TRANSPORT=journal").stdout.splitlines()) == 301
