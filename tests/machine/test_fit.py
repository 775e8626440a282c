"""fit-stream: an export stream becomes one that journal-collect takes, whatever it has."""
import os
import random
import resource
import subprocess
from pathlib import Path

import pytest
from conftest import ROOT
from limit_table import USED

FIT = ("/usr/bin/python3", "-IB", ROOT / "deploy/programs/fit-stream")
TIMES = b"__REALTIME_TIMESTAMP=1000000\n__MONOTONIC_TIMESTAMP=5\n"
ID = b"000102030405060708090a0b0c0d0e0f"
# The second message has three lines, and the second of them isn't a cursor of an entry.
OLD = b"__CURSOR=s=%s;i=1;b=0\n%sMESSAGE=hi\n\n" % (ID, TIMES) + \
    b"__CURSOR=s=%s;i=ff;b=0\n%sMESSAGE\n\x0f\0\0\0\0\0\0\0a\n__CURSOR=s\n\nb\n\n" % (ID, TIMES)


def fit(stream: bytes, *words: str, most: int = 0) -> tuple[int, bytes, str]:
    def limit() -> None:
        resource.setrlimit(resource.RLIMIT_AS, (most, most))
    told = subprocess.run([*FIT, *words], input=stream, capture_output=True, check=False,
                          preexec_fn=limit if most else None)
    return told.returncode, told.stdout, told.stderr.decode()


def verified(stream: bytes, folder: Path) -> str:
    (folder / "stream").write_bytes(stream)
    return subprocess.run([os.environ["JOURNAL_COLLECT"], "verify", "export", folder / "stream"], capture_output=True,
                          text=True, check=False).stdout.strip()


def test_keys_from_cursors(tmp_path: Path) -> None:
    assert verified(OLD, tmp_path) == "bad 23 0"
    status, new, said = fit(OLD)
    assert (status, said, verified(new, tmp_path)) == (0, "", "ok 2 0")
    assert new.count(b"\n__SEQNUM=255\n") == 1
    assert fit(new) == (0, new, "")


def test_over_a_limit(tmp_path: Path) -> None:
    _, new, _ = fit(OLD)
    large = new + b"__SEQNUM=7\n__SEQNUM_ID=%s\n%sMESSAGE=%s\n\n" % (ID, TIMES, b"x" * (USED.value + 1))
    assert verified(large, tmp_path).startswith("bad 12 ")
    assert fit(large, "--leave-out-large") == (0, new, f"left out: __SEQNUM=7 __SEQNUM_ID={ID.decode()}\n")
    assert fit(large) == (0, large, "")
    many = b"__SEQNUM=7\n__SEQNUM_ID=%s\n%s%s\n" % (ID, TIMES, b"".join(b"F%d=\n" % each for each in range(4_097)))
    assert fit(many, "--leave-out-large")[:2] == (0, b"")


@pytest.mark.parametrize("end", [20, 170, 195])
def test_cut_off(end: int) -> None:
    status, _, said = fit(OLD[:end])
    assert (status, said) == (1, "the stream is cut off within an entry\n")


def test_what_cannot_be_followed() -> None:
    assert fit(TIMES + b"\n")[::2] == (1, "an entry has neither a sequence number nor a cursor that has it\n")
    status, _, said = fit(b"__CURSOR=s=%s;i=1\n%s=x\n\n" % (ID, TIMES))
    assert status == 1 and said.startswith("a field has no name: ")
    with open("/dev/full", "wb") as full:
        told = subprocess.run(FIT, input=OLD, stdout=full, stderr=subprocess.PIPE, check=False)
    assert told.returncode == 1 and told.stderr.startswith(b"write failed: ")


@pytest.mark.parametrize("field", [b"MESSAGE=", b"MESSAGE\n\x00\xa3\xe1\x11\0\0\0\0"])
def test_memory_is_bounded(field: bytes) -> None:
    """A value of 300 MB, where 200 MB are all that there is."""
    stream = b"__CURSOR=s=%s;i=1\n%s%s%s\n\n__CURSOR=s=%s;i=2\n%sMESSAGE=hi\n\n" % (
        ID, TIMES, field, b"x" * 300_000_000, ID, TIMES)
    status, told, said = fit(stream, "--leave-out-large", most=200 << 20)
    assert (status, told.count(b"__SEQNUM=")) == (0, 1) and said.startswith("left out: __SEQNUM=1 ")
    status, told, said = fit(stream, most=200 << 20)
    assert (status, told.count(b"__SEQNUM="), said) == (0, 2, "")


def test_random_entries(tmp_path: Path) -> None:
    """Fields around the lengths of a block, in either spelling, with empty lines in them: nothing changes."""
    seed = random.randrange(1 << 30)
    draw, stream = random.Random(seed), b""
    for number in range(1, 60):
        fields = []
        for _ in range(draw.randrange(1, 6)):
            name = draw.choice([b"MESSAGE", b"A", b"_PID", b"LONG" * 20])
            value = draw.choice([b"", b"hi", b"A=b\n\nC=d\n\n", b"\n", b"=", b"\0\n\n", b"x\n" * draw.randrange(400),
                                 b"x" * draw.randrange(65_000, 66_000), b"\n\n" * 300])
            is_binary = b"\n" in value or draw.random() < 0.3
            fields.append(name + b"\n" + len(value).to_bytes(8, "little") + value + b"\n" if is_binary else
                          name + b"=" + value + b"\n")
        stream += b"__SEQNUM=%d\n__SEQNUM_ID=%s\n%s%s\n" % (number, ID, TIMES, b"".join(fields))
    assert fit(stream) == (0, stream, ""), f"seed {seed}"
    assert verified(stream, tmp_path) == "ok 59 0", f"seed {seed}"
