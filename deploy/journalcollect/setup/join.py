"""`journal-collect-join HOST`: this machine sends its journal to the collector HOST. Called again it changes nothing.

It makes a key, learns the collector's host keys, writes the settings, has the key admitted, and starts the service. The
host keys are vouched for by the administrator's own ssh (--via), by a file (--host-keys), or by you, who compare them.
"""
import argparse
import pwd
import shutil
import socket
import subprocess
import sys
import time
from pathlib import Path

from journalcollect.common import settings
from journalcollect.setup import keys
from journalcollect.setup.deeds import Deeds, Stopped, is_true, output, status
from journalcollect.status import machine
from journalcollect.status.findings import Findings

USER = "journal-collect-send"
SEND = Path(__file__).resolve().parents[2] / "programs" / "journal-collect-send"
SETTINGS = "machine.conf.d/10-join.conf"
SSH = ("ssh", "-o", "StrictHostKeyChecking=yes")
PATIENCE, REFUSED = 60.0, "Permission denied"


def main() -> int:
    parser = argparse.ArgumentParser(prog="journal-collect-join", description=__doc__,
                                     formatter_class=argparse.RawDescriptionHelpFormatter)
    parser.add_argument("host", metavar="HOST", help="the collector's name")
    parser.add_argument("--name", help="the machine's name at the collector (its own name)")
    parser.add_argument("--via", metavar="USER@HOST", help="a login at the collector, as root: it admits the key, too")
    parser.add_argument("--host-keys", metavar="FILE", help="a file with the collector's public host keys")
    parser.add_argument("--port", type=int, default=22, help="where the collector's sshd listens (22)")
    parser.add_argument("--new-key", action="store_true", help="make another key in place of the one that is there")
    parser.add_argument("--dry-run", action="store_true", help="say what would be done, and do nothing")
    asked = parser.parse_args()
    return status(parser.prog, lambda: Joining(asked, settings.FOLDER).join())


class Joining:
    def __init__(self, asked: argparse.Namespace, etc: Path) -> None:
        self.asked, self.deeds = asked, Deeds(asked.dry_run)
        self.etc, self.key, self.public, self.known = etc, etc / "key", etc / "key.pub", etc / "known_hosts"
        self.name: str = asked.name or self.known_name() or socket.gethostname()
        if not keys.is_machine(self.name):
            raise Stopped(f"{self.name} can't be a machine's name: say another one by --name")

    def join(self) -> int:
        self.deeds.users()
        self.make_key()
        where = self.asked.host if self.asked.port == 22 else f"{self.asked.host}:{self.asked.port}"
        is_new = self.learn_host_keys() | self.deeds.write(self.etc / SETTINGS, f"COLLECTOR={where}\n")
        if self.asked.via and (is_new or self.refusal()):
            self.deeds.call(f"has its key admitted by {self.asked.via}", *SSH, self.asked.via,
                            f"journal-collect-admin admit {self.name}", given=f"{self.public_key()}\n".encode())
        if is_new and is_true("systemctl", "is-active", "systemd-journald.service"):
            # it keeps as many files as the package has it keep
            self.deeds.call("restarts systemd-journald.service", "systemctl", "restart", "systemd-journald.service")
        self.deeds.runs(machine.SERVICE, is_new)
        return 0 if self.deeds.is_rehearsal else self.tell()

    def known_name(self) -> str:
        """The name under which this machine joined before is the comment of its key."""
        words = self.public_key().split()
        return words[2] if len(words) == 3 and keys.is_machine(words[2]) else ""

    def public_key(self) -> str:
        return self.public.read_text().strip() if self.public.exists() else ""

    def make_key(self) -> None:
        is_kept = self.key.exists() and not self.asked.new_key and self.known_name() == self.name
        if not is_kept and self.deeds.begin(f"makes {self.key}, the key of {self.name}"):
            self.etc.mkdir(exist_ok=True)
            for path in (self.key, self.public):
                path.unlink(missing_ok=True)
            output("ssh-keygen", "-q", "-t", "ed25519", "-N", "", "-C", self.name, "-f", self.key)
            shutil.chown(self.key, pwd.getpwnam(USER).pw_uid)

    def learn_host_keys(self) -> bool:
        """They are asked for anew by --via and --host-keys, and else only where none are known."""
        where = self.asked.host if self.asked.port == 22 else f"[{self.asked.host}]:{self.asked.port}"
        if self.asked.host_keys:
            found = Path(self.asked.host_keys).read_text()
        elif self.asked.via:
            try:
                # as root's own ssh is told them there
                found = output(*SSH, self.asked.via, "cat /etc/ssh/ssh_host_*_key.pub")
            except Stopped as error:
                raise Stopped(f"{error}\nlog in there by `ssh {self.asked.via}` once, and call this again; "
                              "or leave --via out, and compare the host keys") from None
        elif is_true("ssh-keygen", "-F", where, "-f", self.known):
            return False
        else:
            found = self.compared(output("ssh-keyscan", "-p", str(self.asked.port), self.asked.host))
        # ssh-keygen writes a key's kind and bytes first, and ssh-keyscan behind the host
        texts = {keys.of_text(line) or keys.of_text(line.strip().partition(" ")[2]) for line in found.splitlines()}
        lines = [f"{where} {text}" for text in sorted(texts - {""})]
        if not lines:
            raise Stopped(f"{self.asked.host_keys or self.asked.via or self.asked.host} has no host keys")
        return self.deeds.write(self.known, "\n".join(lines) + "\n")

    def compared(self, scanned: str) -> str:
        """Whoever is at the terminal compares what came with what `journal-collect-admin setup` prints."""
        if not scanned.strip():
            raise Stopped(f"no sshd answers at {self.asked.host}, port {self.asked.port}")
        print(f"{self.asked.host} has these host keys; journal-collect-admin setup prints them there:")
        by_kind = "\n".join(sorted(scanned.splitlines()))      # in the order in which setup prints them
        print(output("ssh-keygen", "-l", "-f", "-", given=by_kind.encode()), end="", flush=True)
        if self.deeds.is_rehearsal:
            return scanned
        print("Are they the same? (yes/no) ", end="", flush=True)
        if sys.stdin.readline().strip() != "yes":
            raise Stopped("not joined: nobody vouches for the host keys; compare them, or say --via or --host-keys")
        return scanned

    def refusal(self) -> str:
        """Why the collector doesn't greet this machine; nothing if it does."""
        told = subprocess.run(["runuser", "-u", USER, "--", SEND, "--check"], capture_output=True, check=False)
        return (told.stderr.decode(errors="replace").strip() or "no answer") if told.returncode else ""

    def tell(self) -> int:
        """The last line: something was acknowledged, or what is to be done. A key that isn't admitted needs somebody;
        what else there is may be over in a moment."""
        end = time.monotonic() + PATIENCE
        while why := self.refusal():
            if REFUSED in why and not self.asked.via or time.monotonic() > end:
                return self.tell_what_to_do(why)
            time.sleep(1.0)
        while time.monotonic() < end:
            if (found := machine.look(time.time(), Findings())) and found.acknowledged:
                break
            time.sleep(0.5)
        if not self.deeds.count:
            print("nothing was to do")
        print(f"{self.name} sends to {self.asked.host}")
        return 0

    def tell_what_to_do(self, why: str) -> int:
        if REFUSED not in why:
            print(f"{self.asked.host} isn't reached yet: {why}", file=sys.stderr)
        print(f"on {self.asked.host}, as root:\n  echo '{self.public_key()}' | journal-collect-admin admit {self.name}")
        print(f"then {self.name} sends by itself, within a minute; journal-collect-status says how it stands")
        return 1
