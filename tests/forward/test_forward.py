"""journal-collect-forward: every entry of finished databases comes to the engine, and counts once."""
import json
import os
import random
import signal
import subprocess
import time
from collections.abc import Iterator
from contextlib import contextmanager
from dataclasses import dataclass
from pathlib import Path

import pytest
import server
from collecting import ROOT, Collector, Entry, digits, plain
from stand_in import StandIn
from waiting import PATIENCE, wait_until

FORWARD = ROOT / "deploy" / "programs" / "journal-collect-forward"
NAMES = [f"2026-09-{day}T10-00-00" for day in range(20, 26)]
pytestmark = pytest.mark.skipif("JOURNAL_COLLECT" not in os.environ, reason="JOURNAL_COLLECT names no program")


@dataclass
class Forwarding:
    collector: Collector

    def set(self, **values: object) -> None:
        config = self.collector.path / "settings" / "forward.conf.d"
        config.mkdir(exist_ok=True)
        (config / "test.conf").write_text("".join(f"{name}={value}\n" for name, value in values.items()))

    def start(self, *words: str) -> subprocess.Popen[str]:
        return subprocess.Popen([FORWARD, *words], env=self.collector.environment, text=True, stdout=subprocess.PIPE,
                                stderr=subprocess.PIPE)

    def call(self, *words: str) -> subprocess.CompletedProcess[str]:
        return subprocess.run([FORWARD, *words], env=self.collector.environment, text=True, capture_output=True,
                              check=False, timeout=PATIENCE)

    @contextmanager
    def waiting(self) -> Iterator[subprocess.Popen[str]]:
        """One that runs, once it says that nothing is taken, and ends it."""
        place = self.collector.path / "forward" / "place.json"
        place.unlink(missing_ok=True)
        with self.start() as process:
            wait_until(lambda: place.exists() and json.loads(place.read_bytes())["waits_for"])
            yield process
            process.terminate()


@pytest.fixture
def forwarding(collector: Collector, engine: StandIn) -> Forwarding:
    """It brings things to `engine`, if nothing else is said."""
    one = Forwarding(collector)
    one.set(URL=engine.url)
    return one


@pytest.fixture
def engine() -> Iterator[StandIn]:
    one = StandIn()
    yield one
    one.end()


def odd(number: int) -> Entry:
    """An entry of a shape that not every engine takes."""
    entry = plain("web", number, f"m{number}")
    entry.fields |= [{"EMPTY": "", "UNIT": ""}, {"MESSAGE": b"\x00\xff\xfe \\ raw"}, {"MESSAGE": "bytes:as it is \\"},
                     {"MESSAGE": "tab\t\nline\n\n\"quotes\" ünï\u2028"}, {"with space": "x", "lower": "y"},
                     {"n\u00ffme": "z"}, {"MESSAGE": "", "PRIORITY": ""}, {"MESSAGE": "x" * 70_000}][number % 8]
    return entry


def numbers(rows: list[dict[str, object]]) -> list[int]:
    return sorted({int(str(row["number"])) for row in rows})


def test_each_entry_of_each_database_comes(forwarding: Forwarding, engine: StandIn) -> None:
    for place, name in enumerate(NAMES[:3]):
        forwarding.collector.database(name, *(odd(place * 100 + number) for number in range(1, 101)))
    subprocess.run(["zstd", "-q", "--rm", forwarding.collector.path / "databases" / f"{NAMES[0]}.db"], check=True)
    done = forwarding.call("--once")
    assert (done.returncode, done.stderr) == (0, "")
    assert numbers(engine.rows) == list(range(1, 301)) and len(engine.rows) == 300
    first = {row["number"]: row for row in engine.rows}
    assert first[1]["message"] == "bytes:\\x00\\xff\\xfe \\\\ raw".replace("\\x00", "\x00")
    assert first[2]["message"] == "bytes:bytes:as it is \\\\"
    assert (first[8]["names"], first[8]["values"]) == (["EMPTY", "UNIT"], ["", ""])
    assert first[4]["names"] == ["lower", "with space"] and first[6]["names"] == ["MESSAGE", "PRIORITY"]
    assert first[1]["day"] == "2026-09-21" and first[1]["sequence"] == digits("sequence", "web")
    # A second run has nothing to bring.
    requests = engine.requests
    assert forwarding.call("--once").returncode == 0 and engine.requests == requests + 1
    assert forwarding.call("--status").stdout == (
        f"engine {engine.url} journal\nforwarded 3 newest {NAMES[2]}\nwaiting 0\n")


def test_it_goes_on_where_it_was_killed(forwarding: Forwarding, engine: StandIn) -> None:
    for place, name in enumerate(NAMES):
        forwarding.collector.database(name, *(plain("web", place * 2000 + number, "m") for number in range(1, 2001)))
    choose = random.Random(3)
    for _ in range(12):
        process = forwarding.start("--once")
        time.sleep(choose.uniform(0.1, 0.6))
        process.send_signal(choose.choice([signal.SIGKILL, signal.SIGTERM]))
        process.communicate()
    assert forwarding.call("--once").returncode == 0
    assert numbers(engine.rows) == list(range(1, 12_001))
    assert not list((forwarding.collector.path / "forward").rglob("*.db"))


def test_what_isnt_taken_is_put_aside_and_the_rest_comes(forwarding: Forwarding, engine: StandIn) -> None:
    engine.bad = "poison"
    forwarding.collector.database(NAMES[0], *(plain("web", number, "poison" if number in (7, 40) else "m")
                                              for number in range(1, 101)))
    done = forwarding.call("--once")
    assert done.returncode == 1 and done.stderr.count("isn't taken") == 2
    assert numbers(engine.rows) == [number for number in range(1, 101) if number not in (7, 40)]
    lines = (forwarding.collector.path / "forward" / "aside.json").read_text().splitlines()
    aside = [json.loads(line) for line in lines]
    assert [(line["database"], line["row"]["number"], "Cannot parse" in line["why"]) for line in aside] == [
        (NAMES[0], 7, True), (NAMES[0], 40, True)]
    status = forwarding.call("--status")
    assert status.returncode == 1 and "aside 2 in " in status.stdout
    engine.bad = ""
    assert forwarding.call("--once", "--again", NAMES[0]).returncode == 0
    assert numbers(engine.rows) == list(range(1, 101))


def test_a_request_has_a_deadline_as_a_whole(forwarding: Forwarding, engine: StandIn) -> None:
    """A server that sends a byte now and then holds nobody longer than that, and SIGTERM ends it at once."""
    forwarding.collector.database(NAMES[0], plain("web", 1, "m"))
    engine.drip = 0.2
    process = forwarding.start("--timeout", "1")
    wait_until(lambda: engine.held >= 2)
    assert "no answer within 1 s" in forwarding.call("--status").stdout
    process.terminate()
    process.communicate(timeout=PATIENCE)
    requests, process = engine.requests, forwarding.start("--timeout", "100000")
    wait_until(lambda: engine.requests > requests)
    process.terminate()
    process.communicate(timeout=PATIENCE)
    assert process.returncode == 0
    engine.drip = 0.0
    assert forwarding.call("--once").returncode == 0 and numbers(engine.rows) == [1]
    assert forwarding.call("--status").returncode == 0


@pytest.mark.parametrize("state", ["cut", "busy"])
def test_it_waits_while_nothing_is_taken(forwarding: Forwarding, engine: StandIn, state: str) -> None:
    forwarding.collector.database(NAMES[0], *(plain("web", number, "m") for number in range(1, 51)))
    engine.cut, engine.answer = state == "cut", b"Code: 202. Too many simultaneous queries" if state == "busy" else b""
    with forwarding.waiting() as process:
        assert process.poll() is None and engine.rows == []
        engine.cut, engine.answer = False, b""
        wait_until(lambda: numbers(engine.rows) == list(range(1, 51)))
        process.terminate()
        assert process.communicate()[1].count("it is tried again") >= 1


def test_it_waits_for_who_isnt_there(forwarding: Forwarding) -> None:
    forwarding.set(URL="http://localhost:9")
    with forwarding.waiting():
        assert "it can't be reached" in forwarding.call("--status").stdout


def test_another_target_isnt_taken_for_the_last_one(forwarding: Forwarding, engine: StandIn) -> None:
    forwarding.collector.database(NAMES[0], plain("web", 1, "m"))
    assert forwarding.call("--once").returncode == 0
    forwarding.set(URL=engine.url, TABLE="logs.other")
    done = forwarding.call("--once")
    assert done.returncode == 2 and "--keep-place" in done.stderr and len(engine.rows) == 1
    assert forwarding.call("--once", "--keep-place").returncode == 0 and len(engine.rows) == 1
    assert forwarding.call("--once", "--again", "all").returncode == 0 and len(engine.rows) == 2
    assert forwarding.call("--once", "--again", "nothing").returncode == 2


def test_a_database_that_went_or_is_damaged_is_told(forwarding: Forwarding, engine: StandIn) -> None:
    for number, name in enumerate(NAMES[:3], 1):
        forwarding.collector.database(name, plain("web", number, "m"))
    state, databases = forwarding.collector.path / "forward", forwarding.collector.path / "databases"
    state.mkdir()
    (state / "place.json").write_text(json.dumps({"target": f"{engine.url} journal", "waited": NAMES[:2]}))
    for path in databases.glob(f"{NAMES[0]}.*"):
        path.unlink()
    (databases / f"{NAMES[1]}.db").write_bytes(b"none" * 5000)
    done = forwarding.call("--once")
    assert done.returncode == 1 and f"{NAMES[0]} went before" in done.stderr and f"{NAMES[1]} is damaged" in done.stderr
    assert numbers(engine.rows) == [3]
    assert {f"missed {NAMES[0]}", f"damaged {NAMES[1]}"} <= set(forwarding.call("--status").stdout.splitlines())


@pytest.mark.parametrize("values", [{"URL": "ftp://x"}, {"URL": "http://x:0"}, {"URL": "http://x/?a"},
                                    {"URL": "http://u@x"}, {"URL": "http://x:99999"}, {"URL": "https://"},
                                    {"TABLE": "a;b"}, {"ENGINE": "loki"},
                                    {"URL": "http://other", "AUTHORIZATION_FILE": "/x"},
                                    {"URL": "https://x", "CA_FILE": "/x"}], ids=str)
def test_wrong_settings(forwarding: Forwarding, values: dict[str, str]) -> None:
    forwarding.set(**values)
    done = forwarding.call("--once")
    assert done.returncode == 2 and done.stderr.startswith("forward: "), done


def test_nothing_goes_out_without_a_url(forwarding: Forwarding, engine: StandIn) -> None:
    forwarding.set()
    assert forwarding.call("--once").returncode == 0 and engine.requests == 0


def certificate(folder: Path, name: str) -> Path:
    subprocess.run(["openssl", "req", "-x509", "-newkey", "rsa:2048", "-nodes", "-days", "2", "-subj", f"/CN={name}",
                    "-addext", f"subjectAltName=DNS:{name}", "-keyout", folder / "key", "-out", folder / "cert"],
                   check=True, capture_output=True)
    path = folder / f"{name}.pem"
    path.write_bytes((folder / "cert").read_bytes() + (folder / "key").read_bytes())
    path.chmod(0o600)
    return path


def test_encrypted_both_sides_prove_who_they_are(forwarding: Forwarding, tmp_path: Path) -> None:
    ours, own = certificate(tmp_path, "localhost"), certificate(tmp_path, "forwarder")
    secret = tmp_path / "secret"
    secret.write_text("Bearer abc\n")
    secret.chmod(0o600)
    engine = StandIn(ours, own)
    forwarding.collector.database(NAMES[0], plain("web", 1, "m"))
    try:
        for wrong in ({"CA_FILE": ours}, {"CERTIFICATE_FILE": own}, {"CA_FILE": own, "CERTIFICATE_FILE": own}):
            forwarding.set(URL=engine.url, **wrong)
            with forwarding.waiting():
                assert engine.rows == []
        forwarding.set(URL=engine.url, CA_FILE=ours, CERTIFICATE_FILE=own, AUTHORIZATION_FILE=secret)
        assert forwarding.call("--once").returncode == 0
        assert numbers(engine.rows) == [1] and engine.headers["Authorization"] == "Bearer abc"
        secret.chmod(0o644)
        assert forwarding.call("--once").returncode == 2
    finally:
        engine.end()


needs_clickhouse = pytest.mark.skipif(not server.is_installed(), reason="clickhouse-server isn't installed")


@pytest.fixture
def clickhouse(tmp_path: Path) -> Iterator[server.ClickHouse]:
    one = server.ClickHouse(tmp_path / "clickhouse")
    one.start()
    yield one
    one.kill()


@needs_clickhouse
def test_clickhouse_has_each_entry_once_over_kills_of_both(
        forwarding: Forwarding, clickhouse: server.ClickHouse) -> None:
    forwarding.set(URL=clickhouse.url)
    with forwarding.waiting():
        assert "isn't there" in forwarding.call("--status").stdout
    clickhouse.run(forwarding.call("--schema").stdout)
    for place, name in enumerate(NAMES):
        forwarding.collector.database(name, *(odd(place * 500 + number) for number in range(1, 501)))
    choose = random.Random(4)
    for moment in range(20):
        process = forwarding.start("--once")
        time.sleep(choose.uniform(0.2, 0.9))
        if moment % 4 == 3:
            clickhouse.kill()
            clickhouse.start()
        process.kill()
        process.communicate()
    # What it had in memory when it was killed goes out once more.
    assert forwarding.call("--once", "--again", "all").returncode == 0
    found = clickhouse.rows("SELECT * FROM journal LIMIT 1 BY realtime, sequence, number, content")
    assert numbers(found) == list(range(1, 3001)) and len(found) == 3000
    by_number = {int(row["number"]): row for row in found}
    assert by_number[7]["message"] == "x" * 70_000
    assert by_number[3]["message"] == "tab\t\nline\n\n\"quotes\" ünï\u2028"
    for view in ("lines", "errors", "hours"):
        clickhouse.query(f"SELECT count() FROM journal_{view}")
