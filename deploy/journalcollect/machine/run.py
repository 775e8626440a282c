"""journal-collect-send: what is new in this machine's journal goes to the collector.

Whatever ends it at any moment, the next one goes on where it was: so it takes no notice of signals.
"""
import argparse
import fcntl
import math
import os
import signal
import sqlite3
import sys
import time
from collections.abc import Callable
from contextlib import suppress
from pathlib import Path

from journalcollect.common import files, program
from journalcollect.common.report import BUSY, FAILED, FINE, LOOK, WRONG, Report
from journalcollect.common.settings import Wrong
from journalcollect.machine import settings
from journalcollect.machine.gathering import Gathering
from journalcollect.machine.link import Link
from journalcollect.machine.outbox import Outbox
from journalcollect.machine.places import Places
from journalcollect.machine.sending import FAILURES, FIRST_PAUSE, Sending

DESCRIPTION = "Sends what is new in this machine's journal to the collector, until it is told to stop."
STATUS = "Status: 0 all is well; 1 something to look at; 2 the settings are wrong; 3 something failed; 75 another runs."
# So often the journal's files are looked at, and looking takes such a part of a processor at most.
LOOK_SECONDS, LOOK_PART = 1.0, 0.0005


class Machine:
    def __init__(self, chosen: settings.Settings, report: Report) -> None:
        folder = Path(chosen.folder)
        self.chosen, self.report, self.places = chosen, report, Places(folder, report)
        self.outbox = Outbox(folder, chosen.folder_bytes, self.places)
        self.gathering, self.sending = Gathering(chosen, self.outbox), Sending(chosen, self.outbox)
        self.has_more, self.gathers_at = True, 0.0

    def stay(self) -> None:
        """Gathers at most each EVERY_SECONDS, and as long; between that the outbox goes out."""
        while True:
            begin = time.process_time()
            is_due, looked = self.is_due(), time.process_time() - begin
            if is_due:
                self.guarded(lambda: self.gather(self.chosen.every_seconds))
            elif not self.guarded(self.sending.send_next):
                self.guarded(self.sending.ask_if_silent)
                self.sending.link.close_if_idle()
                time.sleep(max(LOOK_SECONDS, min(looked / LOOK_PART, self.chosen.every_seconds)))

    def is_due(self) -> bool:
        """It is time to gather, and there is something new. While nothing can go out, what isn't gathered is."""
        is_new = self.has_more or self.places.is_asked() or self.gathering.journal.has_news()
        return is_new and time.monotonic() >= self.gathers_at

    def gather(self, seconds: float) -> None:
        """Gathers for so long at most, and takes answers that came by hand."""
        self.has_more, self.gathers_at = True, time.monotonic() + FIRST_PAUSE
        if answers := self.places.value("answers"):
            for number in sorted(self.outbox.sizes):
                self.sending.take_answer(number, self.outbox.read(number), answers)
            self.places.set(answers="")
        self.has_more = self.gathering.gather(time.monotonic() + seconds)
        is_idle = self.has_more and self.sending.next() is None and not self.gathering.is_full()
        self.gathers_at = time.monotonic() + (0 if is_idle else self.chosen.every_seconds)

    def guarded(self, step: Callable[[], object]) -> bool:
        """Whether a step did something. One that fails is tried again after a while."""
        try:
            return bool(step())
        except (*FAILURES, sqlite3.Error) as error:
            self.report.say(FAILED, f"failed, and is tried again: {error}")
            self.sending.resumes = time.monotonic() + FIRST_PAUSE
            if isinstance(error, sqlite3.DatabaseError):
                with suppress(OSError, sqlite3.Error):
                    self.places.mend(error)
        return False

    def once(self) -> None:
        """Gathers all that is new, and sends it as far as that goes now."""
        is_going = True
        while self.has_more and is_going:
            self.guarded(lambda: self.gather(math.inf))
            is_going = False
            while self.guarded(self.sending.send_next):
                is_going = True
        self.sending.link.close()
        if self.outbox.sizes:
            self.report.say(LOOK, f"{len(self.outbox.sizes)} uploads wait, with {self.outbox.bytes} bytes")


def locked(folder: Path) -> bool:
    """Whether this process has the machine's folder for its own, as one at a time has."""
    os.umask(0o077)
    folder.mkdir(parents=True, exist_ok=True)
    files.sync(folder.parent)
    if folder.stat().st_uid != os.geteuid():
        raise Wrong(f"{folder} is {folder.owner()}'s: runuser -u {folder.owner()} -G systemd-journal -- {sys.argv[0]}")
    with suppress(BlockingIOError):
        fcntl.flock(os.open(folder, os.O_RDONLY | os.O_DIRECTORY), fcntl.LOCK_EX | fcntl.LOCK_NB)
        return True
    return False


def note(chosen: settings.Settings, report: Report, again: str, answers: str) -> None:
    """Notes what is asked for: who has the folder does it, or the next one."""
    places = Places(Path(chosen.folder), report)
    if again:
        places.set(again=settings.seconds(again))
    if answers:
        text = sys.stdin.read() if answers == "-" else Path(answers).read_text(encoding="ascii", errors="replace")
        places.set(answers=places.value("answers") + text)
    report.say(FINE, "noted: the sender does it within seconds, or once it runs")


def run(words: argparse.Namespace, report: Report) -> None:
    chosen = settings.read()
    if words.check:
        program.said("--version")
        Link(chosen).open()
        return
    is_free, is_asked = locked(Path(chosen.folder)), bool(words.again or words.answers)
    if is_asked:
        note(chosen, report, words.again, words.answers)
    if is_asked and not words.once:
        return
    if not is_free:
        report.say(BUSY, "another one is running")
    elif words.once:
        Machine(chosen, report).once()
    else:
        Machine(chosen, report).stay()


def main() -> int:
    parser = argparse.ArgumentParser(prog="journal-collect-send", description=DESCRIPTION, epilog=STATUS)
    parser.add_argument("--once", action="store_true", help="send what is there now, and end")
    parser.add_argument("--check", action="store_true", help="only say why, if the settings are wrong or the collector "
                        "doesn't answer to this machine's key")
    parser.add_argument("--again", metavar="SINCE", default="", help="send again what the journal has since a time, as "
                        "yesterday, '2026-12-01 14:00' or -2h")
    parser.add_argument("--answers", metavar="FILE", default="", help="take answers to what was carried by hand")
    words, report = parser.parse_args(), Report()
    signal.signal(signal.SIGINT, signal.SIG_DFL)
    try:
        run(words, report)
    except Wrong as fault:
        report.say(WRONG, str(fault))
    except (*FAILURES, sqlite3.Error) as error:
        report.say(FAILED, str(error))
    return report.status
