"""Machines with journals of several boots, of users, the kernel, audit and coredumps: their own journal files, as
systemd's writer makes them, and the same entries collected."""
import random
import shutil
import subprocess
from itertools import count
from pathlib import Path

from collecting import BEGIN, REMOTE, Collector, Entry, Present, digits
from waiting import wait_until

NAMES = ["web", "web2", "db"]
BOOTS, ENTRIES = 3, 600
DAYS = ["2026-09-20", "2026-09-21", "2026-09-22"]
UNITS = ["nginx.service", "cron.service", "ssh.service", "srv-data.mount", "init.scope", "app@7.service"]


def fields(choose: random.Random, number: int) -> dict[str, bytes | str]:
    """An entry of one of many kinds."""
    unit, pid = choose.choice(UNITS), str(choose.randrange(200, 260))
    of_unit = {"_SYSTEMD_UNIT": unit, "_SYSTEMD_CGROUP": f"/system.slice/{unit}", "_SYSTEMD_SLICE": "system.slice",
               "_PID": pid, "_UID": "0", "_GID": "0", "_COMM": unit.partition(".")[0], "_EXE": f"/usr/bin/{unit[:3]}",
               "SYSLOG_IDENTIFIER": unit.partition(".")[0], "_TRANSPORT": "syslog", "SYSLOG_FACILITY": "3",
               "PRIORITY": str(choose.choice([3, 4, 5, 6, 6, 6, 7]))}
    message = f"{choose.choice(['GET', 'POST', 'Failed password', 'Started'])} {number} word{choose.randrange(40)}"
    match choose.randrange(12):
        case 0:
            return {"_TRANSPORT": "kernel", "PRIORITY": str(choose.randrange(8)), "SYSLOG_FACILITY": "0",
                    "SYSLOG_IDENTIFIER": "kernel", "MESSAGE": f"usb {number}: device"}
        case 1:
            return {"_TRANSPORT": "audit", "_AUDIT_TYPE": "1400", "_AUDIT_TYPE_NAME": "AVC",
                    "MESSAGE": f"AVC {message}", "_UID": "1000", "SYSLOG_FACILITY": "4", "SYSLOG_IDENTIFIER": "audit"}
        case 2:
            return {**of_unit, "MESSAGE_ID": "fc2e22bc6ee647b6b90729ab34a250b1", "COREDUMP_UNIT": unit, "PRIORITY": "2",
                    "_UID": "0", "COREDUMP_EXE": "/usr/bin/app",
                    "MESSAGE": f"Process {pid} of {message} dumped core.\n\nStack"}
        case 3:
            return {"_TRANSPORT": "journal", "_SYSTEMD_UNIT": "init.scope", "_PID": "1", "_UID": "0", "PRIORITY": "4",
                    "UNIT": unit, "MESSAGE_ID": "d9b373ed55a64feb8242e02dbe79a49c", "UNIT_RESULT": "exit-code",
                    "SYSLOG_IDENTIFIER": "systemd", "MESSAGE": f"{unit}: Failed with result 'exit-code'. {number}"}
        case 4:
            return {**of_unit, "MESSAGE": message.encode() + b" \x00\xff\xfe raw"}
        case 5:
            del of_unit["PRIORITY"]
            return {**of_unit, "MESSAGE": message}
        case 6:
            return {**of_unit, "MESSAGE": f"\x1b[31m{message}\x1b[0m ünï\tcode"}
    return {**of_unit, "MESSAGE": message}


def of_user(choose: random.Random, number: int, user: str) -> dict[str, bytes | str]:
    return {"_UID": user, "_PID": "900", "_SYSTEMD_UNIT": f"user@{user}.service",
            "_SYSTEMD_USER_UNIT": "pipewire.service", "_SYSTEMD_OWNER_UID": user,
            "_SYSTEMD_SLICE": f"user-{user}.slice", "_TRANSPORT": "stdout",
            "SYSLOG_IDENTIFIER": "pipewire", "PRIORITY": "6", "SYSLOG_FACILITY": "3",
            "MESSAGE": f"user {user} {number}"}


def journals() -> dict[tuple[str, str], list[Entry]]:
    """The entries of each journal of each machine, in their order. No two have the same time."""
    choose, numbers = random.Random(93), count(1)
    found: dict[tuple[str, str], list[Entry]] = {}
    for boot in range(BOOTS):
        begin = BEGIN + boot * 86_400_000_000
        for place in range(ENTRIES):
            machine, number = choose.choice(NAMES), next(numbers)
            journal = choose.choice(["system"] * 6 + ["user-1000", "user-1001"])
            said = fields(choose, number) if journal == "system" else of_user(choose, number, journal[5:])
            entries = found.setdefault((machine, journal), [])
            at = begin + place * 40_000_000 + number
            entries.append(Entry(machine, len(entries) + 1, at, at - begin + 3_000_000, digits(machine, boot), said,
                                 digits("sequence", machine, journal)))
    return found


def original(folder: Path, found: dict[tuple[str, str], list[Entry]]) -> None:
    """The machines' own journal files."""
    for (machine, journal), entries in found.items():
        (folder / machine).mkdir(parents=True, exist_ok=True)
        subprocess.run([REMOTE, f"--output={folder / machine / journal}.journal", "-"], check=True,
                       input=b"".join(each.text(with_key=False) for each in entries), stderr=subprocess.DEVNULL)


def collect(collector: Collector, found: dict[tuple[str, str], list[Entry]], has_present: bool) -> Present | None:
    """The same, collected in some databases of each day; the last of it may be in the present."""
    choose = random.Random(94)
    for machine, journal in found:
        sequence = digits("sequence", machine, journal)
        collector.state.execute("INSERT OR IGNORE INTO sequence VALUES(?, ?)", (sequence, machine))
    present, expected = Present(collector.path, print) if has_present else None, 0
    for day, name in enumerate(DAYS):
        for part in range(3):
            database = f"{name}T{10 + part:02}-00-00"
            uploads = []
            for entries in found.values():
                of_day = [each for each in entries if each.boot == digits(each.machine, day)]
                each = len(of_day) // 3 + 1
                if piece := of_day[part * each:(part + 1) * each]:
                    uploads.append(piece)
            choose.shuffle(uploads)
            for piece in uploads:
                collector.recent(database, piece)
            if present and (day, part) == (2, 2):
                expected = sum(map(len, uploads))
                present.start()
            else:
                collector.finish(database)
                shutil.rmtree(collector.path / "recent" / database)
    assert collector.make().returncode == 0
    if present:
        words = ["journalctl", "-D", collector.path / "journals" / "present", "-m", "-q", "-o", "json"]
        wait_until(lambda: subprocess.run(words, capture_output=True, check=True).stdout.count(b"\n") == expected)
    return present
