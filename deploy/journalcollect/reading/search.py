"""journal-collect-search: journalctl over what was collected of all machines.

Its words are journalctl's, and are handed on to it as they are, over the files of the time asked for.
"""
import fnmatch
import os
import signal
import sys
import time
from collections import Counter
from collections.abc import Callable, Iterable
from contextlib import ExitStack
from functools import cached_property
from operator import itemgetter
from pathlib import Path

from ..collector import settings
from ..common.settings import Wrong, time_of
from . import journalctl, words
from .journalctl import Counts, Values, Window
from .places import FOREVER, About, File, Places
from .words import BEHIND, Call

HELP = """\
Usage: journal-collect-search [OPTIONS..] [MATCHES..]

Shows what was collected, by journalctl. It takes journalctl's matches and options for showing entries, and those below.

  -M --machine=NAME         entries of this machine, by the collector's name; `we*`: all that begin so; may be repeated
     --list-machines        the machines, the first and last entry of each, and how far its clock is ahead
     --list-boots           the boots of each machine; -b counts the boots of each machine by itself
     --count-by=FIELD       how many entries have each value of a field (machine, unit, boot, priority: short names)
     --histogram[=SECONDS]  how many entries each span of time has; together with --count-by, by value
     --failed               which units failed, how often, and when last
     --folder=FOLDER        what another collector, or its copy, has
  -f --follow               what comes, after the last entries of those that came within an hour

journalctl has -S --since, -U --until, -u --unit, -p --priority, -g --grep, -t --identifier, -k --dmesg, -b --boot,
-n --lines, -r --reverse, -f --follow, -o --output, -F --field, -e --pager-end, --utc, --no-pager and others.
The files are in /var/lib/journal-collect/journals: journalctl -D FOLDER/journals/DAY works, too.
`-o export` has the journal files' own cursors: `journal-collect export DATABASE` is the canonical text.
"""
SHORT = {"machine": "_COLLECTED_FROM", "unit": "_SYSTEMD_UNIT", "boot": "_BOOT_ID", "priority": "PRIORITY"}
UNIT_FAILED = "MESSAGE_ID=d9b373ed55a64feb8242e02dbe79a49c"
OF_FAILED = ["_COLLECTED_FROM", "UNIT", "USER_UNIT", "UNIT_RESULT"]
# With these journalctl reads one file after the other.
PLAIN = ("cursor", "after-cursor", "cursor-file", "show-cursor", "field", "fields", "header", "verify")
# From so many files on it is found out first which of them the newest entries are in.
MANY_FILES = 200
# A histogram has at most so many lines, each with a bar of so many characters, or so many columns of values.
BARS, WIDTH, COLUMNS, OTHERS = 40, 40, 8, ("(others)",)
STEPS = [1, 10, 60, 600, 3600, 6 * 3600, 86400, 7 * 86400]
SECOND = 1_000_000


class Search:
    def __init__(self, call: Call, at: Places) -> None:
        self.asked, self.at, self.opened = call, at, ExitStack()
        if call.has("utc"):
            os.environ["TZ"] = "UTC"
            time.tzset()
        # What systemd can't read as a time is left to journalctl.
        since, until = (value and time_of(value) for value in (call.value("since"), call.value("until")))
        self.since, self.until = int(since or 0), int(until or FOREVER)
        self.names = self.machines()
        self.call = call.of([f"_COLLECTED_FROM={name}" for name in self.names])
        if (call.has("boot") or call.has("dmesg")) and call.value("boot") != "all" and not call.has("list-boots"):
            self.call = self.of_boots(call.value("boot") or "0")
        if call.has("dmesg"):
            self.call = self.call.of(["_TRANSPORT=kernel"])
        self.call = self.call.without("boot", "dmesg", "merge", "list-boots")

    @cached_property
    def about(self) -> About:
        return self.at.about()

    def machines(self) -> list[str]:
        """The machines asked for; none if all are."""
        patterns = [value for option, value in self.asked.options if option == "machine" and value]
        found = sorted({name for pattern in patterns for name in self.about.boots
                        if name and fnmatch.fnmatchcase(name, pattern)})
        if patterns and not found:
            raise Wrong(f"nothing of a machine {' or '.join(patterns)} can be read yet: journal-collect-status says "
                        "whether it sends, --list-machines of which something can be read")
        return found

    def boots(self) -> dict[str, list[tuple[str, int, int]]]:
        """The boots of each machine asked for, in their order, with their first and last time."""
        return {machine: sorted(((boot, first, last) for boot, (first, last) in boots.items()), key=itemgetter(1, 2))
                for machine, boots in sorted(self.about.boots.items()) if not self.names or machine in self.names}

    def of_boots(self, said: str) -> Call:
        """The boot that is asked for, of each machine that has it."""
        match = BEHIND["boot"].fullmatch(said)
        if not match:
            raise Wrong(f"{said} is no boot")
        boot, offset = (match[1] or "").lower(), int(match[2] or 0)
        found: dict[str, int] = {}
        for boots in self.boots().values():
            ids = [each[0] for each in boots]
            if boot and boot not in ids:
                continue
            place = ids.index(boot) + offset if boot else offset - 1 if offset > 0 else len(ids) - 1 + offset
            if 0 <= place < len(ids):
                found[ids[place]] = boots[place][1]
        if not found:
            raise Wrong(f"no machine has a boot {said}; --list-boots says which there are")
        self.since = max(self.since, min(found.values()))
        return self.call.of([f"_BOOT_ID={each}" for each in found])

    def files(self) -> list[File]:
        """Those that may have something of the time that is asked for."""
        return [file for file in self.at.standing(self.opened) if file.has(self.since, self.until)]

    def windows(self, files: list[File]) -> list[Window]:
        """Spans for all processors, some for each."""
        return journalctl.windows(files, self.since, self.until, 4 * journalctl.PROCESSORS)

    def counted(self, call: Call, *names: str) -> Counts:
        return journalctl.count(self.windows(self.files()), call, *names)

    def run(self) -> int:
        """What this front says itself, or journalctl."""
        own: dict[str, Callable[[], int | None]] = {
            "list-machines": self.list_machines, "list-boots": self.list_boots, "failed": self.failed,
            "count-by": self.count, "histogram": self.count, "follow": self.follow}
        if self.call.matches:
            own["field"] = self.list_values             # journalctl says those of all files
        do = next((do for name, do in own.items() if self.asked.has(name)), self.show)
        return do() or 0

    def show(self) -> int:
        """journalctl itself; on all processors, if a word is looked for."""
        call, files = self.call, self.files()
        is_plain = call.has(*PLAIN)
        if call.has("grep") and not is_plain and call.lines is None:
            return journalctl.side_by_side(self.windows(files), call)
        if call.lines and not is_plain and (call.has("grep") or len(files) > MANY_FILES):
            windows = journalctl.windows(files, self.since, self.until, len(files) + 1)
            newest = journalctl.newest(windows, call, call.lines, "_BOOT_ID")
            if len(newest) == call.lines:
                files = [file for file in files if file.has(int(newest[-1]["__REALTIME_TIMESTAMP"]), self.until)]
        if files := files or self.at.standing(self.opened)[:1]:
            journalctl.become(Window(files), call)
        print("-- No entries --")
        return 0

    def list_values(self) -> None:
        values = {value for _, (value,) in self.counted(self.call.without("field"), self.asked.value("field") or "")}
        print(*sorted(values - {"-"}), sep="\n")

    def follow(self) -> None:
        """The present, of which all that came within an hour is there."""
        journalctl.become(Window([]), self.call.plus(directory=str(self.at.present)))

    def list_boots(self) -> None:
        boots = self.boots()
        for machine, of_machine in boots.items():
            if len(boots) > 1:
                print(f"{machine or '(by hand)'}:")
            print(f"IDX {'BOOT ID':<32} {'FIRST ENTRY':<27} LAST ENTRY")
            for place, (boot, first, last) in enumerate(of_machine, 1 - len(of_machine)):
                print(f"{place:3} {boot} {moment(first):<27} {moment(last)}")

    def list_machines(self) -> None:
        """Each machine with its first and last entry, when it was seen last, and how far its clock is ahead."""
        from ..status import looking                    # here, since most searches do without sqlite3
        known = looking.rows(self.at.folder / "state.sqlite",
                             "SELECT name, ifnull(seen, 0), ifnull(skew, 0) FROM machine")
        seen = {name: (at, skew) for name, at, skew in known}
        print(f"{'MACHINE':<24} {'FIRST ENTRY':<27} {'LAST ENTRY':<27} {'SEEN':<27} CLOCK AHEAD")
        for name in self.names or sorted({*self.about.boots, *seen} - {""}):
            at, skew = seen.get(name, (0.0, 0.0))
            came = [each for span in self.about.boots.get(name, {}).values() for each in span]
            said = [min(came, default=0), max(came, default=0), int(at * 1e6)]
            print(f"{name:<24}", *(f"{moment(each) if each else '-':<27}" for each in said),
                  f"{skew:+.1f} s" if at else "-")

    def count(self) -> None:
        """--count-by, --histogram, or both."""
        said = self.asked.value("count-by")
        found = self.counted(self.call, *([SHORT.get(said, said)] if said else []))
        by_value = Counter[Values]()
        for (_, value), count in found.items():
            by_value[value] += count
        if not self.asked.has("histogram"):
            for value, count in by_value.most_common():
                print(f"{count:>10} {one_line(*value)}")
            return
        step, bars = self.step(found), Counts()
        names = [value for value, _ in by_value.most_common(COLUMNS)]
        for (second, value), count in found.items():
            bars[second // step * step, value if value in names else OTHERS] += count
        names += [OTHERS] if len(by_value) > COLUMNS else []
        if said:
            print(f"{'TIME':<27}", *(f"{one_line(*name)[:16]:>16}" for name in names))
        most = max(bars.values(), default=1)
        for second in sorted({second for second, _ in bars}):
            counts = [bars[second, name] for name in names]
            print(f"{moment(second * SECOND):<27}", *(f"{count:>16}" for count in counts),
                  *([] if said else ["#" * (counts[0] * WIDTH // most)]))

    def step(self, found: Iterable[tuple[int, object]]) -> int:
        """How many seconds a line of the histogram has."""
        said = self.asked.value("histogram")
        if said is not None and (not said.isdigit() or not int(said)):
            raise Wrong(f"--histogram={said} is no number of seconds")
        seconds = [second for second, _ in found] or [0]
        span = max(seconds) - min(seconds)
        return int(said) if said else next((step for step in STEPS if span // step < BARS), STEPS[-1])

    def failed(self) -> None:
        """Which units failed, by what systemd says of them."""
        last, times = dict[Values, int](), Counter[Values]()
        for (second, key), count in self.counted(self.call.of([UNIT_FAILED]), *OF_FAILED).items():
            times[key] += count
            last[key] = max(last.get(key, 0), second)
        print(f"{'LAST':<27} {'TIMES':>6} {'MACHINE':<16} {'RESULT':<14} UNIT")
        for key, second in sorted(last.items(), key=itemgetter(1), reverse=True):
            machine, unit, user_unit, result = map(one_line, key)
            print(f"{moment(second * SECOND):<27} {times[key]:>6} {machine:<16} {result:<14} "
                  f"{unit if unit != '-' else user_unit}")


def moment(microseconds: int) -> str:
    """As journalctl says times; a machine may say any."""
    try:
        return time.strftime("%a %Y-%m-%d %H:%M:%S %Z", time.localtime(microseconds // SECOND))
    except (ValueError, OverflowError, OSError):
        return f"@{microseconds}"


def one_line(value: str) -> str:
    return "".join(each if each.isprintable() else "?" for each in value)


def main() -> int:
    signal.signal(signal.SIGPIPE, signal.SIG_DFL)       # whoever reads may stop
    try:
        call = words.read(sys.argv[1:])
        if call.has("help"):
            sys.stdout.write(HELP)
            return 0
        return Search(call, Places(Path(call.value("folder") or settings.read().folder))).run()
    except (Wrong, OSError) as error:
        print(f"journal-collect-search: {error}", file=sys.stderr)
        return 2 if isinstance(error, Wrong) else 3
