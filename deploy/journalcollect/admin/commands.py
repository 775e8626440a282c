"""journal-collect-admin: what people do on the collector."""
import argparse
import json
import os
import socket
import subprocess
import sys
import tempfile
from collections.abc import Iterator
from pathlib import Path
from typing import Any

from ..collector.settings import Folder, read as read_settings
from ..common import program, settings
from ..machine.journal import looked_at
from ..reading import making
from ..setup.collector import set_up
from ..setup.deeds import Deeds, status
from . import backup
from .machines import Machines
from .operations import No

# What a name of a command has for its words, and what it does.
COMMANDS = {
    "setup": ("", "makes this computer a collector; called again it changes nothing"),
    "admit": ("NAME", "lets a machine in, whose public key is on standard input; or each of a folder's files NAME.pub, "
                      "if a path with a / is said"),
    "retire": ("NAME", "lets a machine in no more; what it sent stays its days"),
    "rename": ("OLD NEW", "gives a machine another name"),
    "release": ("SEQUENCE", "makes a sequence nobody's, until a machine brings a new entry of it"),
    "take": ("NAME FILE..", "stores uploads, or journal files, that a machine sent by other means; prints the answers"),
    "backup": ("FOLDER", "copies all that is stored to a folder, while the service runs"),
    "restore": ("FOLDER", "puts a backup back, while the service is stopped"),
    "check": ("", "looks at all databases and notes"),
    "head": ("HEAD..", "says of which day the heads are that a machine was told"),
    "moved": ("NAME", "says that a finished database is moved away: what it had stays acknowledged"),
    "passed": ("DAYS", "says that days went by while the collector was off"),
    "rebuild": ("", "makes anew what is known, and notes, of the databases"),
}
OF_MACHINES = ("admit", "retire", "rename", "release")


def main() -> int:
    """The status: 0, 1 if it can't be done, 2 if the words or settings are wrong, 3 if it failed."""
    parser = argparse.ArgumentParser(prog="journal-collect-admin", description="What people do on the collector.")
    commands = parser.add_subparsers(dest="do", required=True, metavar="COMMAND")
    for name, (of, does) in COMMANDS.items():
        command = commands.add_parser(name, help=f"{of}: {does}" if of else does, description=does)
        command.set_defaults(words=[])
        if of:
            count: int | str = "+" if ".." in of else len(of.split())
            command.add_argument("words", nargs=count, metavar=of.split()[-1].rstrip("."))
    for name in ("setup", *OF_MACHINES):
        commands.choices[name].add_argument("--dry-run", action="store_true",
                                            help="say what would be done, and do nothing")
    commands.choices["rebuild"].add_argument("--journals", dest="words", nargs="?", action="append", const="",
                                             metavar="FOLDER", help="journal files, of another folder with databases")
    asked = parser.parse_args()
    if asked.do == "setup":
        return status("journal-collect-admin setup", lambda: set_up(Deeds(asked.dry_run), settings.FOLDER))
    try:
        for line in done(Folder(Path(read_settings().folder)), asked):
            print(line, flush=True)
    except (settings.Wrong, No, OSError, program.Failed, subprocess.SubprocessError) as error:
        print(f"journal-collect-admin: {error}", file=sys.stderr)
        return {No: 1, settings.Wrong: 2}.get(type(error), 3)
    return 0


def done(folder: Folder, asked: argparse.Namespace) -> Iterator[Any]:
    """What a command says, which is done meanwhile."""
    do: str = asked.do
    words: list[str] = asked.words
    match do, words:
        case _ if do in OF_MACHINES:
            Machines(settings.FOLDER, folder, Deeds(asked.dry_run),
                     lambda do, words: list(asked_of(folder, do, words))).do(do, *words)
        case "take", [name, *paths]:
            for path in map(Path, paths):
                with upload_of(path) as handle:
                    yield from asked_of(folder, do, [name], handle)
        case "backup", [to]:
            yield from asked_of(folder, "finish", [])
            yield from backup.make(folder, Path(to))
        case "restore", [of]:
            if (lock := folder.locked()) is None:
                raise No("the service runs: systemctl stop journal-collect")
            yield from backup.restore(folder, Path(of), lock)
            os.close(lock)
        case "rebuild", [""]:
            yield from asked_of(folder, "journals", [])
        case "rebuild", [of]:
            if making.main(["--anew", of]):
                raise No(f"not all journal files of {of} are made")
        case _:
            yield from asked_of(folder, do, words)


def upload_of(path: Path) -> Any:
    """An open file with an upload: the file itself, or one that is made of a journal file."""
    try:
        source = looked_at(path).id
    except ValueError:
        return open(path, "rb")
    made = tempfile.TemporaryFile()
    subprocess.run([program.path(), "upload", "--source", source, "--resume", "/nonexistent/resume", "file", path],
                   stdout=made, check=True)
    return made


def asked_of(folder: Folder, do: str, words: list[str], file: Any = None) -> Iterator[Any]:
    with socket.socket(socket.AF_UNIX) as one:
        try:
            one.connect(str(folder.admin))
        except (FileNotFoundError, ConnectionRefusedError):
            raise No("the service doesn't run: systemctl start journal-collect") from None
        socket.send_fds(one, [json.dumps({"do": do, "words": words}).encode()], [file.fileno()] if file else [])
        with one.makefile(encoding="utf-8") as lines:
            for said in map(json.loads, lines):
                if "say" in said:
                    yield said["say"]
                elif said["status"] == 0:
                    return
                else:
                    raise (No if said["status"] == 1 else OSError)(said["no"])
    raise OSError("the service ended")
