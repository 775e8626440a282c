"""The settings of a machine, and the times that they name."""
from dataclasses import dataclass

from journalcollect.common import settings


@dataclass(frozen=True)
class Settings:
    """COLLECTOR is [USER@]HOST[:PORT]; CONNECT a command that reaches the collector in place of ssh. JOURNALS are
    folders with journal files, or with a folder of them for each id of this machine and each of its namespaces."""
    collector: str = ""
    connect: str = ""
    journals: str = "/var/log/journal /run/log/journal"
    since: str = ""
    leave_out_large: bool = True
    every_seconds: float = 5
    idle_seconds: float = 60
    upload_bytes: int = 250_000
    folder: str = "/var/lib/journal-collect-send"
    folder_bytes: int = 1 << 30


def read() -> Settings:
    """This machine's settings; a Wrong if they can't be."""
    chosen = settings.read(settings.FOLDER / "machine.conf.d", Settings)
    for path in (chosen.folder, *chosen.journals.split()):
        if not path.startswith("/"):
            raise settings.Wrong(f"FOLDER and JOURNALS begin with a slash, and this doesn't: {path}")
    if not 0 < chosen.upload_bytes <= chosen.folder_bytes:
        raise settings.Wrong(f"UPLOAD_BYTES={chosen.upload_bytes} is 0, or over FOLDER_BYTES={chosen.folder_bytes}")
    return chosen


def seconds(since: str) -> str:
    """A time that SINCE or --again says, as seconds; a Wrong if it is none. It is looked up once: what `today` or `-2h`
    is moves on, and what was gathered so far mustn't."""
    found = settings.time_of(since)
    if found is None:
        raise settings.Wrong(f"this isn't a time: {since}")
    return settings.spelled(found)
