"""How the collector stands: its service, its machines, its databases, its disk, and what it told of."""
from collections import Counter
from dataclasses import dataclass, field
from pathlib import Path

from journalcollect.collector.settings import FREE_FILES, Settings, read as read_settings
from journalcollect.collector.state import Machine
from journalcollect.common import files, settings
from journalcollect.reading import places
from journalcollect.setup import keys
from journalcollect.setup.collector import SERVICE, SSHD
from journalcollect.status import looking, words
from journalcollect.status.findings import DAY, HOUR, Findings

# A machine whose journal grows is seen within a minute; a quiet one logs something within hours.
SILENT_SECONDS, LEAST_DAYS, BEHIND_SECONDS = 2 * HOUR, 7.0, HOUR
REBUILD = "journal-collect-admin check; then put back a backup, or: journal-collect-admin rebuild"


@dataclass
class Collector:
    folder: str = ""
    service: str = "unknown"
    machines: list[Machine] = field(default_factory=list)
    databases: dict[str, int] = field(default_factory=dict)
    entries: int = 0
    bytes: int = 0
    bytes_a_day: float | None = None
    free_bytes: int = 0
    days_left: float | None = None
    waiting_for_files: int = 0

    def lines(self, now: float) -> list[tuple[str, str]]:
        rate = f", {words.size(self.bytes_a_day)} a day" if self.bytes_a_day else ""
        left = f", full in {self.days_left:.0f} days" if self.days_left is not None else ""
        standing = ", ".join(f"{count} {name}" for name, count in sorted(self.databases.items())) or "none finished yet"
        waiting = f"{self.waiting_for_files} databases wait" if self.waiting_for_files else "all made"
        return [("collector", self.folder), ("service", self.service),
                ("databases", f"{standing}; {self.entries} entries, {words.size(self.bytes)}"),
                ("disk", f"{words.size(self.free_bytes)} free{rate}{left}"), ("journal files", waiting),
                *((each.name, f"called {words.ago(each.seen, now)}, last new entry {words.ago(each.stored, now)}, "
                   f"{each.entries} entries") for each in self.machines)]


def look(now: float, findings: Findings) -> Collector | None:
    """None of a computer that is no collector."""
    if not (settings.FOLDER / "authorized_keys").exists() and not Path(Settings().folder, "state.sqlite").exists():
        return None
    try:
        chosen = read_settings()
    except settings.Wrong as fault:
        findings.wrong("settings", "collector", str(fault), f"change it below {settings.FOLDER}/collector.conf.d")
        return Collector()
    found, folder = Collector(chosen.folder), Path(chosen.folder)
    look_at_service(found, folder, findings)
    look_at_machines(found, folder, now, findings)
    look_at_databases(found, folder, chosen.read_days * DAY, now, findings)
    look_at_disk(found, folder, chosen, findings)
    look_at_what_was_told(found, folder, now, findings)
    return found


def look_at_service(found: Collector, folder: Path, findings: Findings) -> None:
    if not folder.is_dir():
        findings.failed("folder", "collector", f"there is no {folder}", "journal-collect-admin setup")
    found.service = looking.service(SERVICE, "collector", findings)
    if found.service == "unknown":
        return
    if not SSHD.exists():
        findings.failed("sshd", "collector", f"sshd doesn't take machines' keys: there is no {SSHD}",
                        "journal-collect-admin setup")
    if not any(looking.unit(sshd).get("ActiveState") in looking.RUNS for sshd in ("ssh.service", "ssh.socket")):
        findings.failed("sshd", "collector", "sshd doesn't run, so no machine can send",
                        "systemctl enable --now ssh.service")


def look_at_machines(found: Collector, folder: Path, now: float, findings: Findings) -> None:
    """Those that have a key: a retired one is none."""
    known = {row[0]: Machine(*row) for row in looking.rows(folder / "state.sqlite", "SELECT * FROM machine")}
    etc = settings.FOLDER
    names = keys.machines(etc)
    found.machines = [known.get(name, Machine(name)) for name in names]
    path = etc / "authorized_keys"
    admitted = path.read_text(errors="replace") if path.exists() else ""
    for name, machine in zip(names, found.machines):
        if f"/{name}\",restrict" not in admitted:
            findings.failed("key", name, f"{etc / 'keys' / name}.pub is no key that sshd takes",
                            f"journal-collect-admin admit {name} < KEY.pub")
        if not machine.seen:
            findings.look("never", name, "it never called", f"wait a minute, then on {name}: journal-collect-status; "
                          f"no more a machine: journal-collect-admin retire {name}")
        elif now - machine.seen > SILENT_SECONDS:
            findings.look("silent", name, f"it called {words.ago(machine.seen, now)} for the last time",
                          f"on {name}: journal-collect-status; gone for good: journal-collect-admin retire {name}")
        elif machine.stored and now - machine.stored > DAY:
            findings.look("old", name, f"its last new entry came {words.ago(machine.stored, now)}, though it calls",
                          f"on {name}: journal-collect-status")
        if machine.seen:
            findings.clock(name, machine.skew, "its clock", "this one")


STANDINGS = {"missing": "it is gone, and nobody said so", "quarantined": "it can't be opened, and is set aside",
             "damaged": "it isn't as it was finished"}


def look_at_databases(found: Collector, folder: Path, shown: float, now: float, findings: Findings) -> None:
    """Journal files are made of those that were finished within so many seconds."""
    rows = looking.rows(folder / "state.sqlite", "SELECT name, standing, finished, entries, bytes FROM database")
    found.databases = dict(Counter(standing for _, standing, *_ in rows))
    for name, standing, *_ in rows:
        if standing in STANDINGS:
            findings.look(standing, name, STANDINGS[standing], REBUILD)
    finished = {name: row for name, standing, *row in rows if standing == "finished"}
    found.entries = sum(entries for _, entries, _ in finished.values())
    found.bytes = sum(size for _, _, size in finished.values())
    recent = [(at, size) for at, _, size in finished.values() if now - 7 * DAY < at <= now]
    if recent and (days := (now - min(recent)[0]) / DAY) > 0.25:
        found.bytes_a_day = sum(size for _, size in recent) / days
    journals = places.Places(folder)
    done = journals.made()
    waiting = [at for name, (at, *_) in finished.items() if name not in done and now - at < shown]
    found.waiting_for_files = len(waiting)
    if waiting and now - min(waiting) > BEHIND_SECONDS:
        findings.look("behind", "collector", f"{len(waiting)} databases wait for their journal files, the oldest for "
                      f"{words.span(now - min(waiting))}",
                      f"journalctl -u {SERVICE} says why; is systemd-journal-remote installed?")
    for reason, count in journals.about().untaken.items():
        findings.look("untaken", "collector", f"{count} entries aren't in journal files, since {reason}",
                      "databases have them: journal-collect export DATABASE")


def look_at_disk(found: Collector, folder: Path, chosen: Settings, findings: Findings) -> None:
    """At the rate of the last week. What goes after KEEP_DAYS makes room for as much as comes then."""
    if not folder.is_dir():
        return
    found.free_bytes, free_files = files.free(folder)
    room = found.free_bytes - chosen.free_bytes
    remedy = "make room, or lower KEEP_DAYS or KEEP_BYTES in collector.conf.d and restart the service"
    if room <= 0 or free_files <= FREE_FILES:
        least = f"{words.size(chosen.free_bytes)} and {FREE_FILES} files"
        findings.failed("disk", "collector", f"{words.size(found.free_bytes)} and {free_files} files are free, and "
                        f"with less than {least} nothing is stored", remedy)
    elif found.bytes_a_day and found.bytes_a_day * chosen.keep_days - found.bytes > room:
        found.days_left = room / found.bytes_a_day
        if found.days_left < LEAST_DAYS:
            findings.look("disk", "collector", f"at this rate the disk is full in {found.days_left:.1f} days", remedy)


# What the service tells of, and what is to be done; of other causes its own words say that.
MORE = f"journalctl -u {SERVICE} has more"
TOLD = {
    "refused": "on {about}: journal-collect-status; journal-collect codes says what a code means",
    "lost": "nothing: {about} brings once more what its journal has",
    "later": "on {about}: journal-collect-status; DAY_BYTES in collector.conf.d bounds what it may send a day",
    "never": "on {about}: journal-collect-status; what isn't taken is in refused/ there",
    "connections": "another computer may have its key: on each journal-collect-join --name NEW --new-key HOST",
    "damaged": REBUILD,
    "journals": "make room; then journal-collect-admin rebuild --journals",
    "notes": "nothing, if it was once; if it comes again, look at the disk",
    "unreadable": "stop the service, let fsck mend the disk, and start it",
}
# Causes that are about a file, and not about a machine. A damaged one is to be put back, so it is said for longer.
OF_FILES, SECONDS_SAID = ("again", "damaged", "notes", "unreadable"), {"damaged": 7 * DAY, "journals": 7 * DAY}


def look_at_what_was_told(found: Collector, folder: Path, now: float, findings: Findings) -> None:
    """What the service told of lately, unless it is about a machine that has no key any more, or was said above."""
    there, said = {machine.name for machine in found.machines}, {(each.name, each.about) for each in findings}
    for cause, text, last, count in looking.rows(folder / "state.sqlite", "SELECT cause, text, last, count FROM told"):
        name, _, about = cause.partition(" ")
        is_there = not about or about in there or name in OF_FILES
        is_recent = now - last < SECONDS_SAID.get(name, DAY)
        if is_recent and is_there and (name, about) not in said:
            findings.look(name, about or "collector", f"{text} ({count} times, last {words.ago(last, now)})",
                          TOLD.get(name, MORE).format(about=about))
