"""Gathering: what is new in the journal's files becomes uploads in the outbox, and then their places move.

An upload is in the outbox before a place passes its entries. A stop between the two makes the same entries come in two
uploads, which are stored once; no entry is passed over. Files that are written to come first, then the oldest ones:
what is new mustn't wait for all that is old, and journald removes what is old first.
"""
import os
import sqlite3
import time

from journalcollect.common.entries import Unfit
from journalcollect.common.fit import Entry
from journalcollect.common.report import FINE, LOOK
from journalcollect.machine import journal
from journalcollect.machine.outbox import Making, Outbox, Piece
from journalcollect.machine.places import Place
from journalcollect.machine.settings import Settings, seconds


class Gathering:
    def __init__(self, settings: Settings, outbox: Outbox) -> None:
        self.settings, self.outbox, self.places, self.report = settings, outbox, outbox.places, outbox.report
        # Who gets the whole text of an entry over a limit, if anybody does.
        self.whole = None if settings.leave_out_large else outbox.refused
        self.journal = journal.Journal(settings.journals.split())
        self.since = self.places.value("since") or (seconds(settings.since) if settings.since else "")

    def gather(self, until: float) -> bool:
        """Gathers what is new, up to a time; whether there is more."""
        self.until, self.is_late = until, self.is_full()
        self.making = Making(self.places.bound(self.settings.upload_bytes))
        # The places that move when what is made is in the outbox.
        self.moves: list[Place] = []
        if again := self.places.value("again"):
            self.places.go_back(again)
        known = self.look()
        for file in self.journal.files:
            if self.is_late:
                break
            place = known.get(file.id) or Place.first(file, "")
            if (place.tail, place.is_archived) != (file.tail, file.is_archived) or place.is_other(file):
                self.gather_path(file, place)
        self.put()
        return self.is_late

    def look(self) -> dict[str, Place]:
        """Lists the files; the places of those that have one. All of the first list begin at the time of SINCE."""
        known, machines = self.places.all(), self.machines()
        self.journal.list_files(machines)
        if self.journal.unread or self.gone(known):
            # while folders were looked through one may have been made, or got another name
            before = self.journal.unread
            self.journal.list_files(machines)
            for each in sorted(before & self.journal.unread):
                self.report.say(LOOK, f"a file of the journal can't be read: {each}")
        if not self.journal.unread:
            self.tell_gaps(self.gone(known))
        if not self.journal.files:
            self.report.say(LOOK, f"no journal file can be read in {self.settings.journals}")
        elif not self.places.value("begun"):
            self.places.move([Place.first(file, self.since) for file in self.journal.files if file.id not in known])
            self.places.set(begun="yes", since=self.since)
            known = self.places.all()
        return known

    def machines(self) -> list[str]:
        """The ids that this machine had. With a new one it may be a clone: it doesn't ask for what the other sent."""
        known, now = self.places.machines(), journal.MACHINE_ID.read_text().strip()
        if now not in known:
            self.outbox.forget()
            self.places.become(now)
        return [*known, now]

    def gone(self, known: dict[str, Place]) -> list[Place]:
        ids = {file.id for file in self.journal.files}
        return [place for place in known.values() if place.file not in ids]

    def tell_gaps(self, gone: list[Place]) -> None:
        """Says which files are gone before they were read to their end, and forgets all that are gone. If the next file
        of its kind begins with the very next number, there was nothing more in one."""
        heads = {(file.sequence, file.kind, file.head) for file in self.journal.files}
        for place in gone:
            if not place.is_archived and (place.sequence, place.kind, place.number + 1) not in heads:
                self.report.say(LOOK, "a gap: journald removed a file that wasn't gathered to its end, and perhaps "
                                f"others after it: {place.kind}, cursor {place.cursor or '-'}")
        self.places.forget(gone)

    def gather_path(self, file: journal.JournalFile, place: Place) -> None:
        try:
            handle = os.open(file.path, os.O_NONBLOCK)
        except OSError:
            return                                  # the next list has it under another name, or not at all
        try:
            now = journal.read_header(file.path, handle)
            if now.id == file.id:
                self.moves.append(place)
                self.gather_file(now, handle, place)
        except journal.Unreadable:
            if not journal.is_removed(handle):
                self.report.say(LOOK, f"journalctl can't read {file.path}: it is looked at again later")
        finally:
            os.close(handle)

    def gather_file(self, file: journal.JournalFile, handle: int, place: Place) -> None:
        if place.is_other(file):
            self.gather_anew(file, place)
        if file.is_cut:
            return self.leave_out(file, place)
        options: list[str] | None = place.options()
        first, self.is_stepping = place.cursor, False
        while options is not None and place.number < file.tail and file.entries:
            before = place.number
            reading = journal.Reading(handle, options)
            is_other = self.take(reading, place)
            reading.end(not is_other and not self.is_late)
            if self.is_late:
                return
            if is_other:
                self.gather_anew(file, place)
                first, options = "", []
            elif place.is_at_end(file, reading.status == 0 and reading.broken is None) or journal.is_removed(handle):
                break
            elif reading.status < 0 and place.number > before:
                options = place.options()           # a signal ended it
            else:
                self.report.say(FINE, f"{file.path}: journalctl: {reading.said or reading.status}")
                options, self.is_stepping = journal.next_readable(handle, file, place.number, reading.broken), True
        if place.number >= file.tail or not journal.is_removed(handle):
            self.tell_unseen(place, file, first)
            place.tail, place.is_archived = file.tail, file.is_archived

    def gather_anew(self, file: journal.JournalFile, place: Place) -> None:
        self.report.say(LOOK, f"{file.path} was set back, and is gathered anew; it was gathered up to {place.cursor}")
        place.number, place.cursor, place.count, place.tail, place.since = 0, "", 0, 0, ""

    def leave_out(self, file: journal.JournalFile, place: Place) -> None:
        if place.number < file.tail:
            self.report.say(LOOK, f"left out, for {file.path} has fewer bytes than its header says, and journalctl "
                            f"opens none such: what is after {place.cursor or 'its beginning'}")
        place.tail, place.is_archived = file.tail, file.is_archived

    def tell_unseen(self, place: Place, file: journal.JournalFile, first: str) -> None:
        """journalctl may pass over a damaged entry without a word. The file's header knows how many there are."""
        if place.count >= 0 and (unseen := file.entries - place.count) > 0:
            self.report.say(LOOK, f"left out, for journalctl doesn't show them: {unseen} of the entries of "
                            f"{file.path}, after {first or 'its beginning'} and up to {place.cursor or 'its end'}")
            place.see(unseen)

    def take(self, reading: journal.Reading, place: Place) -> bool:
        """Takes a reading's entries while more are wanted; whether the file has other ones than were gathered of it."""
        if self.whole:
            self.whole.begin()
        try:
            for entry in reading.entries(self.whole.write if self.whole else None):
                number = entry.key()[1]
                cursor = entry.known.get(b"__CURSOR", b"").decode("ascii", "replace")
                if number <= place.number:
                    if number == place.number and cursor != place.cursor:
                        return True
                    continue
                if self.is_stepping and place.count < 0 and number > place.number + 1:
                    self.report.say(LOOK, f"left out, for journalctl can't read it: what is behind "
                                    f"{place.cursor or '-'} and before {cursor}")
                self.is_stepping = False
                if not self.add(self.piece(entry)):
                    break
                place.number, place.cursor = number, cursor
                place.see(1)
        except Unfit as fault:
            self.report.say(LOOK, f"journalctl shows what can't be followed: {fault}")
        return False

    def piece(self, entry: Entry) -> Piece:
        piece = Piece.of(entry, self.places.forked(*entry.key()))
        if entry.is_large:
            kept = ""
            if self.whole:
                self.whole.write(b"\n")
                kept = f"; {self.whole.keep(piece.name)}"
            self.report.say(FINE, f"over a limit, and goes out without what makes it so: {piece.name}{kept}")
        return piece

    def add(self, piece: Piece) -> bool:
        """One more entry goes out, before its place moves; unless no more are wanted now."""
        if not self.making.fits(piece):
            self.put()
        if not self.is_late:
            self.making.add(piece)
        return not self.is_late

    def put(self) -> None:
        """What is made is in the outbox, and then its places move."""
        if not self.moves:
            return
        made = self.outbox.put(self.making.pieces)
        self.making = Making(self.making.most)
        try:
            self.places.move(self.moves)
        except sqlite3.Error:
            if made is not None:                    # else it would be made again and again, until the disk is full
                self.outbox.remove(made)
            raise
        self.moves = self.moves[-1:]
        self.is_late = time.monotonic() >= self.until or self.is_full()

    def is_full(self) -> bool:
        """There is no room for more; journald keeps what isn't gathered, as long as it can."""
        used, most = self.outbox.bytes, self.settings.folder_bytes
        is_full = used > 0 and used + self.settings.upload_bytes > most
        if is_full:
            self.report.say(LOOK, f"paused: {used} bytes wait in {self.outbox.folder}, and FOLDER_BYTES is {most}; "
                            "what isn't gathered is in the journal, as long as journald keeps it")
        return is_full
