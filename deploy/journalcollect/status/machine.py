"""How a machine stands: what it sent, what waits, and what holds it up."""
import re
from contextlib import suppress
from dataclasses import dataclass
from pathlib import Path

from journalcollect.common import files, settings
from journalcollect.machine import settings as machine_settings
from journalcollect.machine.places import newest
from journalcollect.status import looking, words
from journalcollect.status.findings import CLOCK, DAY, HOUR, Findings

SERVICE = "journal-collect-send.service"
# As few files as these are made in seconds.
FREE_FILES = 16
JOIN = "journal-collect-join HOST, as the guide has it"
SERVICE_THERE = "on {host}: journal-collect-status; its service may not run"
# What was told, or ssh or the collector say, and what mends it.
REMEDIES = (
    (r"^forked: ", "nothing, if it was set back; if it is a clone: journal-collect-join --name NEW --new-key {host}"),
    (r"lost what it had", "nothing: it goes out by itself"),
    (r"'s clock is", CLOCK),
    (r"^a gap: ", "raise SystemMaxUse= of journald, so that it keeps more"),
    (r"no space left", "make room on this machine's disk"),
    (r"is put aside|can't be used", "let fsck look at this machine's disk; then remove what was put aside"),
    (r"host key verification failed|host identification has changed",
     "somebody else answers, or the collector has new host keys: compare them, then journal-collect-join "
     "{host} --host-keys FILE"),
    (r"its service doesn't run", SERVICE_THERE),
    (r"permission denied", "on {host}: journal-collect-admin admit NAME, with what /etc/journal-collect/key.pub has"),
    (r"connection refused", "sshd doesn't run on {host}, or listens at another port"),
    (r"could not resolve|name or service not known|temporary failure in name",
     "{host} has no address: look at the DNS"),
    (r"timed out|no route|unreachable", "{host} isn't reached: look at the network and its firewall"),
    (r"room|free", "on {host}: make room; journal-collect-status says how much"),
    (r"no such file|connection closed|ended|broken pipe|reset", SERVICE_THERE),
)
# What is over once something is acknowledged again, and is said as trouble meanwhile.
PASSING = re.compile("no connection to|sending failed|the collector takes nothing|the collector answers|failed, and is")


@dataclass
class Machine:
    """All that is known of it. Times are seconds since 1970, 0 for never."""
    collector: str = ""
    folder: str = ""
    service: str = "unknown"
    acknowledged: float = 0.0
    answered: float = 0.0
    waiting: int = 0
    waiting_bytes: int = 0
    waiting_since: float = 0.0
    folder_bytes: int = 0
    refused: int = 0
    skew: float = 0.0
    trouble: str = ""

    @property
    def host(self) -> str:
        return self.collector.rpartition("@")[2]

    def lines(self, now: float) -> list[tuple[str, str]]:
        """What people are shown of it, each with its name."""
        waits = f"{self.waiting} uploads with {words.size(self.waiting_bytes)}, since {words.day(self.waiting_since)}"
        return [("machine", f"sends to {self.collector}"), ("service", self.service),
                ("acknowledged", words.ago(self.acknowledged, now)), ("waiting", waits if self.waiting else "nothing")]


def look(now: float, findings: Findings) -> Machine | None:
    """None of a computer that sends to no collector."""
    try:
        chosen = machine_settings.read()
    except settings.Wrong as fault:
        findings.wrong("settings", "machine", str(fault), f"change it below {settings.FOLDER}/machine.conf.d")
        return Machine()
    if not chosen.collector:
        return None
    found = Machine(chosen.collector, chosen.folder, folder_bytes=chosen.folder_bytes)
    for name in ("key", "known_hosts"):
        if not (settings.FOLDER / name).exists() and not chosen.connect:
            findings.wrong(name, "machine", f"there is no {settings.FOLDER / name}", JOIN)
    found.service = looking.service(SERVICE, "machine", findings)
    look_at_folder(found, Path(chosen.folder), now, findings)
    look_at_room(found, chosen, findings)
    judge(found, now, findings)
    return found


def look_at_folder(found: Machine, folder: Path, now: float, findings: Findings) -> None:
    for path in (folder / "outbox").glob("*.upload"):
        with suppress(OSError):
            told = path.lstat()
            found.waiting, found.waiting_bytes = found.waiting + 1, found.waiting_bytes + told.st_size
            found.waiting_since = min(found.waiting_since or told.st_mtime, told.st_mtime)
    found.refused = len(list((folder / "refused").glob("*")))
    places = newest(folder)
    values = dict(looking.rows(places, "SELECT name, value FROM value"))
    found.acknowledged, found.answered, found.skew = (
        float(values.get(name) or 0) for name in ("acknowledged", "answered", "skew"))
    found.trouble = values.get("trouble", "")
    for at, text in looking.rows(places, "SELECT max(time) AS time, text FROM told GROUP BY text ORDER BY time"):
        is_over = PASSING.match(text) and (found.trouble or found.acknowledged >= at)
        if now - at < DAY and not is_over:
            findings.look("told", "machine", f"{text} ({words.ago(at, now)})", remedy(text, found.host))


def look_at_room(found: Machine, chosen: machine_settings.Settings, findings: Findings) -> None:
    """An upload has room in the outbox, and on the disk."""
    if found.waiting and found.waiting_bytes + chosen.upload_bytes > found.folder_bytes:
        findings.look("full", "machine", f"{words.size(found.waiting_bytes)} wait, so nothing more is gathered until "
                      "they went out; journald keeps what it can", "mend what holds them up, or raise FOLDER_BYTES")
    if not Path(found.folder).is_dir():
        return
    free_bytes, free_files = files.free(Path(found.folder))
    if free_bytes < chosen.upload_bytes or free_files < FREE_FILES:
        findings.failed("disk", "machine", f"the disk of {found.folder} has room for {words.size(free_bytes)} and "
                        f"{free_files} files: nothing can be gathered", "make room on this machine's disk")


def judge(found: Machine, now: float, findings: Findings) -> None:
    if found.trouble:
        findings.failed("trouble", "machine", f"nothing goes out: {found.trouble}", remedy(found.trouble, found.host))
    elif not found.acknowledged:
        findings.look("never", "machine", "nothing was acknowledged yet",
                      f"wait a minute; then journalctl -u {SERVICE}")
    elif found.waiting and now - max(found.acknowledged, found.waiting_since) > HOUR:
        findings.look("waits", "machine", f"{found.waiting} uploads wait since {words.day(found.waiting_since)}",
                      f"on {found.host}: journal-collect-status; here: journalctl -u {SERVICE}")
    if found.refused:
        findings.look("refused", "machine", f"{found.refused} files in {found.folder}/refused: entries that no "
                      "collector takes", "journal-collect verify export FILE says why; remove them once you saw them")
    findings.clock("machine", -found.skew, "this clock", "the collector's")


def remedy(trouble: str, host: str) -> str:
    known = (text for pattern, text in REMEDIES if re.search(pattern, trouble, re.IGNORECASE))
    return next(known, f"journalctl -u {SERVICE}; on {{host}}: journal-collect-status").format(host=host)
