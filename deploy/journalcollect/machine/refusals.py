"""What becomes of an upload that the collector doesn't take: an entry holds up itself alone.

- 61, 62, 63: the collector failed. The upload goes out again later.
- 6: it passes a bound with an entry. It goes on in two parts, split there.
- 60, 71: an entry's key is taken, or its sequence is another machine's: this machine was set back, or is a clone. What
  its sequence has from there on goes out under another id.
- Any other code points to a byte. If the text is damaged here, or this comes again, the entry with that byte is kept
  for a person, or goes out with less if it is too large; the others go on.
- `smaller`, `never`: it is halved, down to the entry that is meant.
"""
from journalcollect.common import program
from journalcollect.common.protocol import Answer
from journalcollect.common.report import LOOK
from journalcollect.machine.outbox import Outbox, Piece, at_byte

# An entry whose text is whole here is believed to be at fault once the collector said so as often.
BELIEVED = 2


class Refusals:
    def __init__(self, outbox: Outbox) -> None:
        self.outbox, self.places, self.report = outbox, outbox.places, outbox.report

    def take(self, number: int, answer: Answer, tries: int) -> bool:
        """An upload was refused, for so many times; whether something was done about it that lets it go out again."""
        if answer.code in program.FAILURES:
            return False
        pieces = self.outbox.pieces(number)
        if answer.code == program.Code.OVER_BOUNDS and 0 < answer.place < len(pieces):
            self.outbox.replace(number, pieces[:answer.place], pieces[answer.place:])
        elif answer.code == program.Code.OVER_BOUNDS:
            self.halve(number, pieces, "it passes a bound of the collector")
        elif answer.code in (program.Code.CONFLICT, program.Code.NOT_THE_OWNER) and answer.place < len(pieces):
            self.take_conflict(number, pieces, answer)
        else:
            return self.take_byte(number, answer, pieces, tries)
        return True

    def take_conflict(self, number: int, pieces: list[Piece], answer: Answer) -> None:
        """The upload stays: before it goes out, it is put under the ids that its entries have then. Of a sequence that
        is another machine's nothing is taken. Two entries with one number part first."""
        piece, code = pieces[answer.place], answer.code
        if any(each.number == piece.number for each in pieces[:answer.place]):
            self.outbox.replace(number, pieces[:answer.place], pieces[answer.place:])
        elif self.places.forked(piece.sequence, piece.number) == piece.sequence:
            first = piece.number if code == program.Code.CONFLICT else 0
            new = self.places.fork(piece.sequence, first)
            self.report.say(LOOK, f"forked: {piece.sequence} goes on as {new} from entry {first} (code {code}): this "
                            "machine was set back or cloned, or another one has its journal")

    def go_on_forked(self, number: int) -> bool:
        """Puts an upload's entries under the ids in which their sequences go on; whether any has another one now."""
        if not self.places.forks:
            return False
        pieces = self.outbox.pieces(number)
        news = [self.places.forked(piece.sequence, piece.number) for piece in pieces]
        if news == [piece.sequence for piece in pieces]:
            return False
        self.outbox.replace(number, [Piece.of(piece.entry(), new) for piece, new in zip(pieces, news)])
        return True

    def take_byte(self, number: int, answer: Answer, pieces: list[Piece], tries: int) -> bool:
        """The collector can't take what is at a byte. A bit that is lost on the way isn't the entry's fault."""
        code, place = answer.code, answer.place
        try:
            program.look_at(self.outbox.path(number))
            if tries < BELIEVED:
                return False
        except program.Bad as bad:
            code, place = bad.code, bad.place
        if pieces and code > program.Code.OVER_BOUNDS:
            at = at_byte(pieces, place)
            pieces[at:at + 1] = self.without(pieces[at], f"code {code}", code in program.TOO_LARGE)
        self.outbox.replace(number, pieces)
        return True

    def without(self, piece: Piece, why: str, may_shorten: bool) -> list[Piece]:
        """What goes out of an entry that can't be taken as it is."""
        less = piece.shortened() if may_shorten else None
        goes = ", and goes out with less" if less else ""
        self.outbox.refused.put(piece.name, piece.text, f"an entry isn't taken{goes}: {why}")
        return [less] if less else []

    def halve(self, number: int, pieces: list[Piece], why: str) -> None:
        """It goes on in parts of half its size; a single entry goes out with less, and then not at all."""
        if len(pieces) == 1:
            pieces = self.without(pieces[0], why, True)
        self.outbox.replace(number, pieces, most=sum(len(piece.text) for piece in pieces) // 2)
