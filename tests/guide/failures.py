"""What goes wrong, and on which side journal-collect-status names it, with what to do."""
from __future__ import annotations

from collections.abc import Iterator
from contextlib import contextmanager
from dataclasses import dataclass

from booted import Booted
from life import does


@dataclass(frozen=True)
class Failure:
    """`begin` and `end` are commands at the computer `at`. A finding of `side` has this name, its remedy this word."""
    name: str
    at: str
    begin: str
    end: str
    side: str
    finding: str
    remedy: str

    @contextmanager
    def happens(self, collector: Booted, web: Booted) -> Iterator[None]:
        """It is so while this lasts. Web logs something meanwhile, and afterwards."""
        computer = collector if self.at == "collector" else web
        does(computer, self.begin)
        try:
            does(web, "logger -t guide something new")
            yield
        finally:
            does(computer, self.end)
            does(web, "logger -t guide something new")

    def is_found(self, collector: Booted, web: Booted) -> None:
        """Status names it while it lasts."""
        side = collector if self.side == "collector" else web
        with self.happens(collector, web):
            side.wait_for(lambda: self.is_named(side.findings()), self.finding)

    def is_named(self, found: list[dict[str, object]]) -> bool:
        return any(each["name"] == self.finding and self.remedy in str(each["remedy"]) for each in found)


SETTINGS = "/etc/journal-collect"
COLLECTOR, MACHINE = f"{SETTINGS}/collector.conf.d/90.conf", f"{SETTINGS}/machine.conf.d/90.conf"
DATABASES, SEND = "/var/lib/journal-collect/databases", "/var/lib/journal-collect-send"
AGAIN = "systemctl restart journal-collect-send"
# A finished database, and the service once more, which finds out what there is.
FINISHED = f"$(cd {DATABASES}; ls *.sha256 | head -n 1 | cut -d . -f 1)"
STARTED = "systemctl restart journal-collect; sleep 1"
# The sender's clock is three days behind, by a library that is preloaded.
SLOW = "/etc/systemd/system/journal-collect-send.service.d/90.conf"
SLOWS = (f"mkdir -p $(dirname {SLOW}); echo -259200 0 > /etc/clock; printf '[Service]\\nEnvironment=%s %s\\n' "
         f"LD_PRELOAD=/usr/lib/clock.so CLOCK_FILE=/etc/clock > {SLOW}; systemctl daemon-reload; {AGAIN}")
RIGHT = f"rm {SLOW}; systemctl daemon-reload; {AGAIN}"


def web_sends_to(name: str, where: str, remedy: str) -> Failure:
    """The collector isn't reached: what ssh says is trouble."""
    return Failure(name, "web", f"echo COLLECTOR={where} > {MACHINE}; {AGAIN}", f"rm {MACHINE}; {AGAIN}", "web",
                   "trouble", remedy)


FAILURES = [
    Failure("the service is stopped", "collector", "systemctl stop journal-collect", "systemctl start journal-collect",
            "collector", "service", "systemctl enable --now"),
    Failure("the service is stopped, seen at the machine", "collector", "systemctl stop journal-collect",
            "systemctl start journal-collect", "web", "trouble", "its service may not run"),
    Failure("the service isn't enabled", "collector", "systemctl disable -q journal-collect",
            "systemctl enable -q journal-collect", "collector", "service", "systemctl enable"),
    Failure("the sender is stopped", "web", "systemctl stop journal-collect-send",
            "systemctl start journal-collect-send", "web", "service", "systemctl enable --now"),
    Failure("sshd is down, seen at the collector", "collector", "systemctl stop ssh.socket ssh.service",
            "systemctl start ssh.service", "collector", "sshd", "systemctl enable --now ssh"),
    web_sends_to("sshd is down, seen at the machine", "logs.example.org:23", "sshd doesn't run"),
    web_sends_to("a name without an address", "nowhere.invalid", "DNS"),
    web_sends_to("no way to the collector", "198.51.100.1", "firewall"),
    Failure("sshd isn't set up for machines", "collector",
            "mv /etc/ssh/sshd_config.d/journal-collect.conf /root/sshd.conf",
            "mv /root/sshd.conf /etc/ssh/sshd_config.d/journal-collect.conf", "collector", "sshd",
            "journal-collect-admin setup"),
    Failure("another host key answers", "web",
            f"cp {SETTINGS}/known_hosts /root/known; key=$(cut -d ' ' -f 2 /root/.ssh/id_ed25519.pub); "
            f"sed -i \"s| AAAA.*| $key|\" {SETTINGS}/known_hosts; {AGAIN}",
            f"cp /root/known {SETTINGS}/known_hosts; {AGAIN}", "web", "trouble", "compare"),
    Failure("the key isn't admitted", "collector",
            f"mv {SETTINGS}/authorized_keys /root/keys; touch {SETTINGS}/authorized_keys",
            f"mv /root/keys {SETTINGS}/authorized_keys", "collector", "key", "admit"),
    Failure("the key isn't admitted, seen at the machine", "web",
            f"cp -p {SETTINGS}/key /root/key; ssh-keygen -q -t ed25519 -N '' -f /root/other; "
            f"cat /root/other > {SETTINGS}/key; {AGAIN}", f"cat /root/key > {SETTINGS}/key; {AGAIN}", "web", "trouble",
            "admit"),
    Failure("no key", "web", f"mv {SETTINGS}/key /root/key", f"mv /root/key {SETTINGS}/key", "web", "key",
            "journal-collect-join"),
    Failure("no known hosts", "web", f"mv {SETTINGS}/known_hosts /root/known", f"mv /root/known {SETTINGS}/known_hosts",
            "web", "known_hosts", "journal-collect-join"),
    Failure("a file that is no key", "collector", f"echo nothing > {SETTINGS}/keys/db.pub",
            f"rm {SETTINGS}/keys/db.pub", "collector", "key", "admit db"),
    Failure("a machine that never called", "collector", f"cp {SETTINGS}/keys/web.pub {SETTINGS}/keys/mail.pub",
            f"rm {SETTINGS}/keys/mail.pub", "collector", "never", "retire mail"),
    Failure("a setting that is none, at the collector", "collector", f"echo KEEP_YEARS=1 > {COLLECTOR}",
            f"rm {COLLECTOR}", "collector", "settings", "collector.conf.d"),
    Failure("a setting that is none, at the machine", "web", f"echo EACH=1 > {MACHINE}", f"rm {MACHINE}", "web",
            "settings", "machine.conf.d"),
    Failure("the disk is full", "collector", f"echo FREE_BYTES=900000000000000 > {COLLECTOR}", f"rm {COLLECTOR}",
            "collector", "disk", "make room"),
    Failure("the disk is full, seen at the machine", "collector",
            f"echo FREE_BYTES=900000000000000 > {COLLECTOR}; {STARTED}",
            f"rm {COLLECTOR}; {STARTED}; journal-collect-admin rebuild --journals", "web", "trouble", "make room"),
    Failure("the disk has no inodes", "collector",
            f"mount -t tmpfs -o nr_inodes=1000 none /mnt; echo FOLDER=/mnt > {COLLECTOR}",
            f"rm {COLLECTOR}; umount /mnt", "collector", "disk", "make room"),
    Failure("the machine's own disk is full", "web",
            f"systemctl stop journal-collect-send; id=$(id -u journal-collect-send); "
            f"mount -t tmpfs -o size=100k,mode=700,uid=$id none {SEND}; systemctl start journal-collect-send",
            f"systemctl stop journal-collect-send; umount {SEND}; systemctl start journal-collect-send", "web", "disk",
            "this machine's disk"),
    Failure("a clock is three days behind", "web", SLOWS, RIGHT, "collector", "clock", "timedatectl"),
    Failure("a clock is three days behind, seen at the machine", "web", SLOWS, RIGHT, "web", "clock", "timedatectl"),
    Failure("entries that no collector takes", "web", f"touch {SEND}/refused/x", f"rm {SEND}/refused/x", "web",
            "refused", "verify"),
    Failure("a database is gone", "collector",
            f"systemctl reload journal-collect; sleep 2; mkdir -p /root/gone; mv {DATABASES}/{FINISHED}.* /root/gone; "
            f"{STARTED}", f"mv /root/gone/* {DATABASES}; {STARTED}", "collector", "missing", "put back a backup"),
]
