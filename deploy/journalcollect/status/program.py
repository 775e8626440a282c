"""The program journal-collect-status."""
import argparse
import json
import os
import sys
import time
from dataclasses import asdict
from pathlib import Path

from journalcollect.common import files
from journalcollect.status import collector, machine, prometheus, words
from journalcollect.status.findings import Findings, Status

VERSION = 1
DESCRIPTION = """\
Says how the collecting of journals stands on this computer, and what to do: on a collector which machines call, what is
stored, how long the disk has room; on a machine what was acknowledged, and what waits. It finds out which of both it
is. It only reads, also while services run. Run it as root."""
ENDING = "Status: 0 all is well; 1 something to look at; 2 the settings or the call are wrong; 3 something failed."


class Sides:
    """What was looked at: one side, or both on a collector that is a machine as well."""

    def __init__(self) -> None:
        self.now, self.findings = time.time(), Findings()
        self.collector = collector.look(self.now, self.findings)
        self.machine = machine.look(self.now, self.findings)
        if not self.collector and not self.machine:
            self.findings.wrong("settings", "status", "this is neither a collector nor a machine",
                                "journal-collect-admin setup makes it a collector, journal-collect-join HOST a machine")

    def as_json(self) -> str:
        return json.dumps({
            "version": VERSION, "status": self.findings.status, "time": int(self.now), "collector": self.collector,
            "machine": self.machine, "findings": self.findings}, default=asdict, indent=2, sort_keys=True)

    def as_text(self, is_quiet: bool) -> str:
        parts = [table(side.lines(self.now)) for side in (self.collector, self.machine) if side and not is_quiet]
        found = [finding.line() for finding in sorted(self.findings, key=lambda each: -each.status)]
        if found or not is_quiet:
            parts.append("\n".join(found) or "All is well.")
        return words.UNPRINTED.sub("?", "\n\n".join(parts))


def table(lines: list[tuple[str, str]]) -> str:
    width = max(len(name) for name, _ in lines)
    return "\n".join(f"{name:{width}}  {text}" for name, text in lines)


def main() -> int:
    parser = argparse.ArgumentParser(prog="journal-collect-status", description=DESCRIPTION, epilog=ENDING,
                                     formatter_class=argparse.RawDescriptionHelpFormatter, allow_abbrev=False)
    parser.add_argument("--json", action="store_true", help="print all that is known as one object of JSON")
    parser.add_argument("--quiet", action="store_true", help="print only what isn't as it should be")
    parser.add_argument("--prometheus", metavar="FILE", nargs="?", const="-",
                        help="print figures for Prometheus, or write them to FILE, whole; the status is 0 then")
    asked = parser.parse_args()
    try:
        sides = Sides()
        told = (prometheus.text(sides.collector, sides.machine, sides.findings) if asked.prometheus
                else sides.as_json() if asked.json else sides.as_text(asked.quiet))
        if asked.prometheus not in (None, "-"):
            # node_exporter finds the old figures or the new ones, whole
            files.replace(Path(asked.prometheus), f"{told}\n".encode(), mode=0o644)
        elif told:
            print(told, flush=True)
    except BrokenPipeError:
        os._exit(Status.FAILED)
    except OSError as error:
        print(f"journal-collect-status: {error}", file=sys.stderr)
        return Status.FAILED
    return Status.WELL if asked.prometheus else sides.findings.status
