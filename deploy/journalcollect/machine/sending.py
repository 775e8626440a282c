"""Sending: the outbox goes out, an upload at a time, and the answer to each comes before the next one goes.

The newest upload and the oldest take turns, by the times of their entries. So what was just logged doesn't wait behind
a backlog, and over a link that carries no more than is logged what is old comes nevertheless. Order is free, since each
entry is stored by its key. An upload that was in vain twice goes after all others, and rests, each time twice as long.
"""
import hashlib
import random
import time

from journalcollect.common import program, protocol
from journalcollect.common.protocol import SOURCE
from journalcollect.common.report import FAILED, LOOK
from journalcollect.machine.link import Link, Lost
from journalcollect.machine.outbox import Outbox
from journalcollect.machine.places import LONGEST_REST, NEVER
from journalcollect.machine.refusals import Refusals
from journalcollect.machine.settings import Settings

# A link that is lost as often in a row, with an upload under way, carries half of its bytes, or so many at least.
CUTS, LEAST_BYTES = 2, 1 << 10
# One that is through in so many seconds is small enough for the link.
FAST_SECONDS = 2.0
FIRST_PAUSE, LONGEST_PAUSE = 5.0, 60.0
# Who has nothing to send asks once a day whether the collector lost something.
SILENT_SECONDS, SKEW_SECONDS = 86_400.0, 60
# What may pass, and is told and tried again.
FAILURES = (OSError, program.Failed, ValueError)


class Sending:
    def __init__(self, settings: Settings, outbox: Outbox) -> None:
        self.settings, self.outbox, self.places, self.report = settings, outbox, outbox.places, outbox.report
        self.refusals, self.link = Refusals(outbox), Link(settings)
        self.has_link = bool(settings.collector or settings.connect)
        self.pause, self.resumes, self.is_turn_of_oldest = 0.0, 0.0, False

    def next(self) -> int | None:
        """The upload that goes out next, if one is to go out now."""
        if not self.outbox.sizes or not self.has_link or time.monotonic() < self.resumes:
            return None
        tries, now, order = self.places.tries(), time.time(), 1 if self.is_turn_of_oldest else -1
        rested = [(tries.get(number, NEVER)[0] // CUTS, order * number, number) for number in self.outbox.sizes
                  if not now < tries.get(number, NEVER)[1] <= now + LONGEST_REST]
        return min(rested)[2] if rested else None

    def send_next(self) -> bool:
        number = self.next()
        if number is None:
            return False
        try:
            self.send(number)
        except FAILURES as error:
            self.outbox.look()                      # somebody may have taken it away
            self.rest(number, f"sending failed: {error}", FAILED)
        self.places.forget_tries(self.outbox.sizes)     # names come again
        return True

    def send(self, number: int) -> None:
        bound = self.places.bound(self.settings.upload_bytes)
        data = self.outbox.read(number)
        if len(data) > bound and len(pieces := self.outbox.pieces(number)) > 1:
            self.outbox.replace(number, pieces, most=bound)
            return
        if self.refusals.go_on_forked(number):
            return
        begin = time.monotonic()
        try:
            if not self.link.is_open:
                self.greet(self.link.open())
            digest = hashlib.sha256(data).hexdigest()
            reply = self.link.ask(protocol.Upload(len(data), digest, time.time_ns() // 1_000), data)
        except Lost as lost:
            self.lost(number, len(data), lost)
            return
        self.is_turn_of_oldest = not self.is_turn_of_oldest
        self.places.set(answered=int(time.time()), cuts=0)
        is_fast = time.monotonic() - begin < FAST_SECONDS
        if self.take(number, data, reply) and is_fast and bound < min(2 * len(data), self.settings.upload_bytes):
            self.places.set(bound=2 * bound)

    def greet(self, greeting: protocol.Greeting) -> None:
        """Takes what the collector says first, and asks whether it has what it acknowledged last."""
        skew = (greeting.realtime - time.time_ns() // 1_000) // 1_000_000
        self.places.set(skew=skew, answered=int(time.time()))
        if abs(skew) > SKEW_SECONDS:
            self.report.say(LOOK, f"the collector's clock is {skew:+} s from this machine's: set the one that is wrong")
        self.places.see_head(greeting.head or "")
        if any(self.link.ask(key) is protocol.Known.LOST for key in self.outbox.keys()):
            self.report.say(LOOK, "the collector lost what it had acknowledged: what the journal still has goes out")
            self.places.forget_all()
            self.outbox.forget()

    def ask_if_silent(self) -> bool:
        """Greets, if nothing went out for long: whether it did."""
        now = time.monotonic()
        if not self.has_link or self.link.is_open or now < max(self.resumes, self.link.used + SILENT_SECONDS):
            return False
        try:
            self.greet(self.link.open())
            self.places.set(trouble="")
            self.pause = 0.0
        except Lost as lost:
            self.wait(str(lost), FAILED)
        return True

    def take(self, number: int, data: bytes, reply: protocol.Reply) -> bool:
        """What an answer means to an upload; whether it is acknowledged."""
        match reply:
            case protocol.Answer():
                return self.take_answer(number, data, f"{reply.line}\n")
            case protocol.Put(protocol.Verdict.LATER, why):
                self.rest(number, f"the collector takes nothing now: {why}")
            case protocol.Put(_, why):
                self.refusals.halve(number, self.outbox.pieces(number), why)
        return False

    def take_answer(self, number: int, data: bytes, lines: str) -> bool:
        """What some lines of the program mean to an upload; whether it is acknowledged. That alone deletes it."""
        try:
            status, line = program.acknowledged(self.outbox.path(number), lines)
        except program.Failed:
            self.outbox.replace(number, self.outbox.pieces(number))     # damaged: what can be followed of it goes on
            raise
        if status == program.OK:
            acks = [line.split(" ") for line in lines.splitlines() if line.startswith(f"ack {data[SOURCE].hex()} ")]
            self.outbox.acknowledged(number, any(words[4:5] not in ([], ["0"]) for words in acks))
            self.places.set(acknowledged=int(time.time()), trouble="")
            self.pause = 0.0
        elif status == program.REFUSED:
            answer = protocol.answer(line)
            if not self.refusals.take(number, answer, self.places.tries().get(number, NEVER)[0] + 1):
                self.rest(number, f"the collector refuses an upload (code {answer.code})")
        elif self.link.is_open:
            self.link.close()
            self.rest(number, "the collector answers to another upload")
        return status == program.OK

    def lost(self, number: int, size: int, lost: Lost) -> None:
        """No answer came. What the link didn't carry twice in a row has too many bytes for it, and comes in parts."""
        if lost.went_out > protocol.LONGEST_LINE:
            cuts = self.places.number("cuts") + 1
            self.places.set(cuts=cuts % CUTS)
            if cuts >= CUTS:
                self.places.set(bound=max(LEAST_BYTES, min(size, self.places.bound(size)) // 2))
            self.places.tried(number, FIRST_PAUSE)
        self.wait(str(lost), FAILED)

    def rest(self, number: int, why: str, status: int = LOOK) -> None:
        self.places.tried(number, FIRST_PAUSE)
        self.wait(why, status)

    def wait(self, why: str, status: int) -> None:
        """Nothing goes out for a while, each time for twice as long, and machines don't all come back at once."""
        self.report.say(status, why)
        self.places.set(trouble=why)
        self.pause = min(max(2 * self.pause, FIRST_PAUSE), LONGEST_PAUSE)
        self.resumes = time.monotonic() + self.pause * random.uniform(0.75, 1)
