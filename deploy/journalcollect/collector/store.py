"""The store: one thread that has the present database, and stores what waits, in turns."""
import collections
import contextlib
import itertools
import mmap
import os
import shutil
import threading
import time
from collections.abc import Callable
from concurrent.futures import Future
from pathlib import Path

from ..common import entries, files, program
from ..common.protocol import HEADER, KIND, MOST_WINDOWS, STREAM, Answer, Put, Verdict
from . import databases
from .gate import IDS
from .notes import Unnoted
from .process import OWN, Ended, Process
from .recovery import Recovery
from .settings import NOTES_DAYS, Settings
from .state import log
from .turns import Turns, Waiting

# So often an upload may be there alone when somebody kills the program, before it is held to be the cause.
KILLS = 3
# So long a stop waits for what is being stored, and so long a database that can't be taken up is left alone.
LAST_SECONDS, REST_SECONDS = 30.0, 3.0
# An upload waits for its turn as long as this: less than its machine waits for an answer.
LONGEST_WAIT = 60.0
# Files of notes are made as a database ends, with some eight syncs each: of so many that takes some seconds.
MOST_FILES = 512
CLOSED_WELL, UNREADABLE = (0, 1), "it couldn't be read"


class Store(threading.Thread):
    """The only one that begins processes which store."""

    def __init__(self, settings: Settings, recovery: Recovery) -> None:
        super().__init__(name="store", daemon=True)
        self.settings, self.recovery = settings, recovery
        self.folder, self.state, self.stops = recovery.folder, recovery.state, recovery.stops
        self.turns, self.tasks = Turns(), collections.deque[tuple[Callable[[], None], Future[None]]]()
        self.present: Process | None = None
        self.numbers = itertools.count(1)
        self.recent_bytes, self.is_taken_up, self.over = 0, False, set[str]()
        self.is_asked_to_finish, self.is_begun = threading.Event(), threading.Event()
        # Whoever reads notes has this, and whoever changes what isn't only added.
        self.notes = threading.Lock()
        # The last keys of uploads that were acknowledged, and the windows that were counted.
        self.keys, self.windows = Unnoted(), Unnoted()

    def ask(self, upload: Waiting) -> Answer | Put:
        """Has an upload stored, and waits for what becomes of it. It comes again if its turn doesn't come for long."""
        upload.last = last_key(upload)
        self.turns.put(upload)
        with contextlib.suppress(TimeoutError):
            return upload.reply.result(LONGEST_WAIT)
        if self.turns.take(upload):
            upload.put(Verdict.LATER, "too many others wait")
        return upload.reply.result()

    def alone(self, task: Callable[[], None]) -> None:
        """Does something while no process of the program stores, and waits for its end; raises what it raises."""
        done: Future[None] = Future()
        self.tasks.append((task, done))
        self.turns.wake()
        done.result()

    def knows(self, machine: str, sequence: str, number: int) -> bool:
        """Whether an entry is known with which an upload of a machine ended. Its note may be in no file yet."""
        self.is_begun.wait()
        if self.keys.has(machine, sequence, number):
            return True
        with self.notes:
            return program.has_note(self.folder.sequences, sequence, number)

    def stop(self) -> None:
        """What is being stored is brought to its end, for some seconds. What isn't answered comes again."""
        self.stops.set()
        self.turns.wake()
        self.join(LAST_SECONDS)

    def run(self) -> None:
        """Whatever fails, the thread goes on: what waits is told `later`."""
        while not self.stops.is_set():
            group: list[Waiting] = []
            try:
                if not self.is_taken_up:
                    self.begin()
                group = self.turns.group(1.0)
                self.store(group)
                self.turn()
                self.forget()
                self.state.over("store")
            except databases.Unrecovered as error:
                self.fail(group, f"nothing can be stored: {error}")
            except Exception as error:
                self.fail(group, f"{type(error).__name__}: {error}")
        try:
            self.close()
        except (OSError, databases.Unrecovered) as error:
            log(f"the present database isn't finished: {error}")

    def begin(self) -> None:
        """Takes up what an earlier service, or a failure, left."""
        with self.notes:
            self.recovery.start()
        self.take_up()
        self.store_again(self.recovery.again())
        self.is_taken_up = True
        self.is_begun.set()

    def take_up(self) -> None:
        """Whatever isn't finished is finished or set aside."""
        done = set(self.state.ask("SELECT name FROM database WHERE standing NOT IN ('missing', 'quarantined')"))
        for path in sorted(self.folder.databases.glob("*.db")):
            if (path.stem,) not in done and databases.told_digest(path) is None:
                with self.notes:
                    uploads = self.recovery.recover(path)
                self.store_again(uploads)

    def store_again(self, uploads: list[tuple[str, Path]]) -> None:
        """Uploads of databases that were set aside are stored in another one."""
        for machine, path in uploads:
            with open(path, "rb") as file:
                upload = Waiting(machine, file.fileno(), files.size(path))
                self.store([upload])
            if isinstance(put := upload.reply.result(), Put):
                why = f"{path} can't be stored again: {put.why}"
                if put.verdict is Verdict.LATER and put.why != UNREADABLE:
                    raise databases.Unrecovered(why)
                self.state.tell(f"again {path}", f"{why}: it is in {self.folder.quarantine}")
                files.move(path, self.folder.quarantine / f"{path.parent.name}-{path.name}")
        if uploads:
            self.close()
            log(f"{len(uploads)} uploads are stored again")
        for folder in {path.parent for _, path in uploads}:
            self.recovery.present.turn(folder.name)
            self.over.add(folder.name)
            shutil.rmtree(folder, ignore_errors=True)

    def fail(self, group: list[Waiting], why: str) -> None:
        """Those that wait are told to come again, and so are all that come for some seconds."""
        self.state.tell("store", why)
        self.is_taken_up = False
        self.end_present()
        while self.tasks:
            self.tasks.popleft()[1].set_exception(databases.Unrecovered(why))
        end = time.monotonic() + REST_SECONDS
        while True:
            for each in group:
                if not each.reply.done():
                    each.put(Verdict.LATER, why)
            if time.monotonic() > end or self.stops.is_set():
                break
            group = self.turns.group(0.5)

    def end_present(self) -> None:
        if self.present:
            self.present.kill()
        self.present = None

    def store(self, group: list[Waiting]) -> None:
        """Stores a group; if it ends the process, one by one."""
        if not group:
            return
        begun = time.monotonic()
        if ended := self.hand_over(group):
            for each in group:
                if not each.reply.done():
                    self.store_alone(each, ended if len(group) == 1 else None)
        self.turns.charge(group, time.monotonic() - begun)

    def store_alone(self, upload: Waiting, ended: Ended | None) -> None:
        """Stores one after a failure. One that ends the process by itself, or is there at each kill, is too much."""
        for _ in range(KILLS):
            ended = ended or self.hand_over([upload])
            if ended is None or upload.reply.done():
                return
            if not ended.by_signal:
                return upload.put(Verdict.LATER, str(ended))
            if ended.by_signal in OWN:
                break
            ended = None
        self.state.tell(f"smaller {upload.machine}", f"{upload.machine}: an upload ended the program: it comes smaller")
        upload.put(Verdict.SMALLER, "it ended the program")

    def hand_over(self, group: list[Waiting]) -> Ended | None:
        """Hands uploads to the program, and answers those that it answers. If it fails, it is taken up."""
        try:
            process = self.present = self.present or self.new()
            named = [each for each in group if not each.reply.done() and self.give_name(each, process.path.stem)]
            uploads = [(each.machine, each.path) for each in named if each.path]
            for each, answer in zip(named, process.ask(uploads)):
                self.answered(each, answer)
        except Ended as ended:
            self.state.tell("program", f"{ended}: what it was storing is taken up")
            self.end_present()
            for each in group:
                if each.path and not each.reply.done():
                    each.path = each.path.rename(self.folder.scratch / f"{time.monotonic_ns()}-{each.path.name}")
            self.take_up()
            with self.notes:
                self.recovery.mend(str(ended))
            return ended
        return None

    def new(self) -> Process:
        """Begins a database, under a name that none had."""
        now = time.strftime("%Y-%m-%dT%H-%M-%S", time.gmtime())
        names = itertools.chain([now], (f"{now}-{number}" for number in itertools.count(2)))
        name = next(each for each in names if not (
            each in self.over or self.state.is_known(each) or databases.path_of(self.folder, each).exists()
            or (self.folder.recent / each).exists()))
        (self.folder.recent / name).mkdir()
        self.numbers, self.recent_bytes = itertools.count(1), 0
        return Process(self.folder, databases.path_of(self.folder, name), self.recovery.lock)

    def give_name(self, upload: Waiting, database: str) -> bool:
        """Gives an upload a name that none had, as which it can be stored once more. Whether it has one."""
        path = self.folder.recent / database / f"{next(self.numbers):09}.{upload.machine}"
        try:
            if upload.path:
                upload.path.rename(path)
            else:
                # src_dir_fd has the link be of the file itself
                os.link(f"/proc/self/fd/{upload.handle}", path, src_dir_fd=upload.handle)
            upload.path = path
        except OSError as error:
            upload.put(Verdict.LATER, f"the disk of the collector: {error.strerror}")
            return False
        self.recent_bytes += upload.size
        return True

    def answered(self, upload: Waiting, answer: Answer) -> None:
        """What was answered is on the disk: whatever else fails costs no answer, with which the file is closed."""
        try:
            self.account(upload, answer)
        finally:
            is_unread = answer.code == program.Code.READ_FAILED
            upload.reply.set_result(Put(Verdict.LATER, UNREADABLE) if is_unread else answer)

    def account(self, upload: Waiting, answer: Answer) -> None:
        """What an answer means to what is known, to the present, to the bounds of a machine, and to people."""
        assert upload.path
        if upload.last and not answer.code:
            self.keys.add(upload.machine, *upload.last)
        machine = self.state.saw(upload.machine)
        machine.bytes += upload.size
        machine.entries += answer.new
        if answer.new:
            machine.stored = time.time()
            self.recovery.present.feed(upload.path)
        else:
            upload.path.unlink(missing_ok=True)
            self.recent_bytes -= upload.size
        if answer.code:
            machine.refused += 1
            whose = self.whose(upload) if answer.code == program.Code.NOT_THE_OWNER else ""
            self.state.tell(f"refused {upload.machine}", f"{upload.machine}: refused: {answer.line}{whose}")

    def whose(self, upload: Waiting) -> str:
        """What is said of an upload with entries of another machine's sequence: whose it is, if that is known."""
        ids = {each.decode("ascii").lower() for each in IDS.findall(os.pread(upload.handle, upload.size, HEADER))}
        known = {each: self.state.came_with(each) - {upload.machine, ""} for each in sorted(ids)[:MOST_WINDOWS]}
        return "".join(f": {each} came with {' and '.join(sorted(others))}" for each, others in known.items() if others)

    def turn(self) -> None:
        """Finishes the present database, if it is time or somebody wants to be alone."""
        if self.tasks or self.is_asked_to_finish.is_set() or self.is_full():
            self.is_asked_to_finish.clear()
            self.close()
        while self.tasks:
            task, done = self.tasks.popleft()
            with self.notes:
                try:
                    done.set_result(task())
                except Exception as error:
                    self.is_taken_up = False           # what it left is looked at
                    done.set_exception(error)

    def forget(self) -> None:
        """Once all databases are finished, and all is stored again that was set aside, files have all notes."""
        if self.is_taken_up and not self.present and self.keys:
            self.keys.forget()
            self.windows.forget()

    def is_full(self) -> bool:
        process = self.present
        return process is not None and (
            time.monotonic() - process.begun > self.settings.database_seconds or len(self.windows) > MOST_FILES
            or max(databases.bytes_of(process.path), self.recent_bytes // 2) > self.settings.database_bytes)

    def close(self) -> None:
        """The present database is closed and finished. One that fails then is taken up."""
        process, self.present = self.present, None
        if process is None:
            return
        if process.finish() not in CLOSED_WELL:
            return self.take_up()
        with self.notes:
            self.recovery.seal(process.path)
            self.recovery.notes.expire(self.state.age.grown().days - max(self.settings.keep_days, NOTES_DAYS))

    def head(self) -> str | None:
        """The head of yesterday; None as long as a database of it isn't finished."""
        day, process = time.strftime("%Y-%m-%d", time.gmtime(time.time() - 86400)), self.present
        if not self.is_begun.is_set() or (process and process.path.name.startswith(day)):
            return None
        return self.state.head(day)

    def status(self) -> dict[str, object]:
        process = self.present
        return {"database": process.path.name if process else None,
                "database_bytes": databases.bytes_of(process.path) if process else 0, "waiting": self.turns.length(),
                "program": str(program.path()), "process": os.getpid()}


def last_key(upload: Waiting) -> tuple[str, int] | None:
    """The key of the last entry of a stream: a machine asks for this one. None if there is none that can be read."""
    with contextlib.suppress(ValueError), mmap.mmap(upload.handle, upload.size, prot=mmap.PROT_READ) as data:
        return entries.last_key(data, HEADER) if data[KIND] == STREAM else None
    return None
