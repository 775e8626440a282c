"""journal-collect-page: what its server answers, and the page in a headless Chromium."""
import http.client
import json
import socket
import subprocess
import sys
import time
from collections.abc import Iterator
from pathlib import Path
from typing import Any
from urllib.parse import urlencode

import browser
import pytest
from browser import Browser
from collecting import ROOT, Collector, Entry, Present, plain
from waiting import PATIENCE, free_port, listens, wait_until

PAGE = ROOT / "deploy" / "programs" / "journal-collect-page"
# The page with another deadline of requests: on a computer that does much else one takes longer than people wait.
PATIENT = f"""import runpy
from journalcollect.reading import page
page.SECONDS = {PATIENCE}
runpy.run_path("{PAGE}", run_name="__main__")
"""
NAMES = ["2026-11-20T10-00-00", "2026-11-20T10-10-00", "2026-11-20T10-20-00"]
HOSTILE = ["<script>window.broken = 1</script>", "<img src=x onerror='window.broken = 1'>", "\u202eright to left",
           "'\"><b id=bold>bold</b>", "javascript:alert(1)", "\x1b[2J\x07 moved", "</table></script><h1>head</h1>"]


class Over(http.client.HTTPConnection):
    """By a Unix socket."""

    def __init__(self, path: Path) -> None:
        super().__init__("localhost", timeout=PATIENCE)
        self.path = path

    def connect(self) -> None:
        self.sock = socket.socket(socket.AF_UNIX)
        self.sock.connect(str(self.path))


class Served:
    """A page over a collector."""

    def __init__(self, collector: Collector, present: Present, folder: Path, now: int) -> None:
        self.collector, self.present, self.path, self.now = collector, present, folder / "socket", now
        self.processes = [self.started(self.path)]

    def started(self, at: Path | int) -> subprocess.Popen[bytes]:
        """One on a socket's path, or on a port."""
        words = [f"--setenv={name}={value}" for name, value in self.collector.environment.items()]
        words += [sys.executable, "-B", "-c", PATIENT, "--host", "logs.example.org"]
        listen = f"--listen={at}" if isinstance(at, Path) else f"--listen=127.0.0.1:{at}"
        process = subprocess.Popen(["systemd-socket-activate", listen, *words], stderr=subprocess.DEVNULL)
        wait_until(lambda: listens(at))
        return process

    def url(self) -> str:
        """Where a browser finds it."""
        port = free_port()
        self.processes.append(self.started(port))
        return f"http://localhost:{port}/"

    def ask(self, path: str, host: str = "localhost", method: str = "GET", **headers: str) -> tuple[int, bytes, Any]:
        connection = Over(self.path)
        more = {name.replace("_", "-"): value for name, value in headers.items()}
        connection.request(method, path, headers={"Host": host, **more})
        answer = connection.getresponse()
        return answer.status, answer.read(), answer.headers

    def json(self, path: str, **asked: Any) -> Any:
        status, body, _ = self.ask(f"/{path}?{urlencode(asked, doseq=True)}")
        assert status == 200, body
        return json.loads(body)

    def feed(self, entry: Entry) -> None:
        self.present.feed(self.collector.recent(NAMES[2], [entry]))

    def end(self) -> None:
        for process in self.processes:
            process.terminate()
            assert process.wait(PATIENCE) == 0


@pytest.fixture
def served(collector: Collector, tmp_path: Path) -> Iterator[Served]:
    """Sixty entries of two machines within the last hour, and hostile ones, in finished databases and the present."""
    now = int(time.time()) * 1_000_000
    for place, name in enumerate(NAMES[:2]):
        collector.database(name, *(plain(machine, place * 15 + number, f"{machine} {place * 15 + number}",
                                         now - (40 - place * 15 - number) * 60_000_000, PRIORITY=str(2 + number % 6),
                                         _SYSTEMD_UNIT=f"{'nginx' if number % 2 else 'cron'}.service")
                                   for machine in ("web", "db") for number in range(1, 16)))
    assert collector.make().returncode == 0
    collector.recent(NAMES[2], [plain("web", 100 + number, message, now - 60_000_000 + number)
                                for number, message in enumerate(HOSTILE)])
    present = Present(collector.path, print)
    present.start()
    wait_until(lambda: len(collector.messages("_COLLECTED_FROM=web")) >= 37)
    one = Served(collector, present, tmp_path, now)
    yield one
    one.end()
    present.stop()


def messages(told: Any) -> list[str]:
    return [each["MESSAGE"] for each in told["entries"] if isinstance(each["MESSAGE"], str)]


def test_entries_come_newest_first_and_by_what_is_asked(served: Served) -> None:
    assert messages(served.json("entries", machine="db", lines=3)) == ["db 30", "db 29", "db 28"]
    assert messages(served.json("entries", machine="db", unit="cron.service", lines=2)) == ["db 29", "db 27"]
    assert set(messages(served.json("entries", machine=["db", "web"], words="WEB 1"))) == set()
    assert len(messages(served.json("entries", words="web 1"))) == 11
    critical = served.json("entries", match="_HOSTNAME=db.lan", priority=2, lines=9)
    assert messages(critical) == ["db 27", "db 21", "db 12", "db 6"]
    found = served.json("entries", machine="db", since=served.now - 20 * 60_000_000,
                        until=served.now - 15 * 60_000_000)
    assert messages(found) == [f"db {number}" for number in range(25, 19, -1)]
    assert served.json("entries", lines=2)["has_more"] and not served.json("entries", lines=200)["has_more"]


def test_the_histogram_counts_each_entry_once(served: Served) -> None:
    told = served.json("histogram", since=served.now - 3_600_000_000, until=served.now)
    assert sum(map(sum, told["bars"])) == 60 + len(HOSTILE)
    assert told["counted_from"] == told["since"] == served.now - 3_600_000_000
    assert sum(bar[2] for bar in told["bars"]) == 2 * (5 + 5)


def test_what_came_after_a_number_comes_once(served: Served) -> None:
    tail = served.json("entries")["tail"]
    assert served.json("live", tail=tail) == {"entries": [], "tail": tail}
    for number in range(3):
        served.feed(plain("db", 200 + number, f"new {number}"))
    wait_until(lambda: len(served.json("live", tail=tail)["entries"]) == 3)
    told = served.json("live", tail=tail)
    assert messages(told) == ["new 0", "new 1", "new 2"]
    assert served.json("live", tail=told["tail"])["entries"] == []
    assert messages(served.json("live", tail=tail, machine="web")) == []


def test_names(served: Served) -> None:
    assert served.json("names") == {"machines": ["db", "web"], "units": ["cron.service", "nginx.service"]}


@pytest.mark.parametrize("host", ["evil.example", "localhost.evil.example", "localhost:80:80", "", "127.0.0.1.nip.io",
                                  "[::2]"])
def test_other_hosts_are_refused(served: Served, host: str) -> None:
    assert served.ask("/", host)[0] == served.ask("/entries", host)[0] == 421


def test_what_is_answered_at_all(served: Served) -> None:
    for host in ("localhost", "localhost:8080", "127.0.0.1:1", "[::1]:8080", "logs.example.org"):
        assert served.ask("/", host)[0] == 200
    assert served.ask("/nothing")[0] == 404
    assert served.ask("/../etc/passwd")[0] == 404
    assert served.ask("/", method="POST")[0] == 501
    assert served.ask("/entries", Sec_Fetch_Site="cross-site")[0] == 403
    for query in ("since=x", "lines=-1", "match=lower=1", "match=A", "until=1e9", "since=" + "9" * 30):
        assert served.ask(f"/entries?{query}")[0] == 400, query
    # What looks like an option is a value.
    assert served.json("entries", unit="--file=/etc/passwd")["entries"] == []
    assert served.json("entries", words="--rotate")["entries"] == []
    policy = served.ask("/")[2]["Content-Security-Policy"]
    assert "default-src 'none'" in policy and "unsafe" not in policy and "*" not in policy


def test_a_request_has_a_bound_of_lines(served: Served) -> None:
    assert len(served.json("entries", lines=10_000)["entries"]) <= 500


needs_browser = pytest.mark.skipif(browser.PROGRAM is None, reason="Chromium isn't installed")


@pytest.fixture
def opened(served: Served) -> Iterator[Browser]:
    one = Browser()
    one.open(served.url())
    wait_until(lambda: one.run("document.querySelectorAll('tbody.entry').length") > 0)
    yield one
    complaints = one.complaints()
    one.end()
    assert complaints == []


def shown(one: Browser) -> list[str]:
    found: list[str] = one.run("[...document.querySelectorAll('td.message')].map(each => each.textContent)")
    return found


@needs_browser
def test_the_page_shows_values_as_text(opened: Browser) -> None:
    marked = str.maketrans("\u202e\x1b\x07", "\ufffd" * 3)
    assert shown(opened)[:len(HOSTILE)] == [each.translate(marked) for each in reversed(HOSTILE)]
    assert opened.run("[window.broken, document.querySelectorAll('b, h1, td img, td script').length]") == [None, 0]
    assert len(shown(opened)) == 60 + len(HOSTILE)


@needs_browser
def test_it_is_filtered_by_what_is_typed_and_the_address_says_it(opened: Browser, served: Served) -> None:
    opened.run("$('machine').value = 'db'; $('words').value = 'db 1'; $('form').requestSubmit()")
    wait_until(lambda: len(shown(opened)) == 11)
    assert set(shown(opened)) == {"db 1", *(f"db {number}" for number in range(10, 20))}
    address = opened.run("location.href")
    assert "machine=db" in address and "words=db+1" in address
    opened.run("history.back()")
    wait_until(lambda: len(shown(opened)) == 60 + len(HOSTILE))
    opened.open(address)
    wait_until(lambda: len(shown(opened)) == 11)


@needs_browser
def test_an_entry_unfolds_to_its_fields_and_a_field_is_a_filter(opened: Browser) -> None:
    opened.run("$('machine').value = 'db'; $('form').requestSubmit()")
    wait_until(lambda: len(shown(opened)) == 30)
    opened.run("document.querySelector('tbody.entry tr').click()")
    names = opened.run("[...document.querySelectorAll('dt')].map(each => each.textContent)")
    assert {"MESSAGE", "_COLLECTED_FROM", "_BOOT_ID", "__CURSOR"} <= set(names)
    opened.run("[...document.querySelectorAll('dd button')].find(each => each.textContent === 'cron.service' "
               "|| each.textContent === 'nginx.service').click()")
    wait_until(lambda: 0 < len(shown(opened)) < 30)
    opened.run("document.querySelector('#chips button').click()")
    wait_until(lambda: len(shown(opened)) == 30)


@needs_browser
def test_a_click_into_the_histogram_shows_that_time(opened: Browser) -> None:
    wait_until(lambda: opened.run("document.querySelectorAll('#histogram rect.part').length") == 60)
    assert "67 entries" == opened.run("$('total').textContent")
    opened.run("document.querySelectorAll('#histogram rect.part')[30].dispatchEvent(new MouseEvent('click'))")
    wait_until(lambda: 0 < len(shown(opened)) <= 4)
    assert "since=" in opened.run("location.search")


@needs_browser
def test_it_is_followed_live(opened: Browser, served: Served) -> None:
    before = shown(opened)
    opened.run("$('live').click()")
    wait_until(lambda: opened.run("$('live').getAttribute('aria-pressed')") == "true" and shown(opened) == before)
    for number in range(5):
        served.feed(plain("db", 300 + number, f"live {number}", served.now))
        time.sleep(0.3)
    wait_until(lambda: len(shown(opened)) >= len(before) + 5)
    assert shown(opened) == [f"live {number}" for number in range(4, -1, -1)] + before
