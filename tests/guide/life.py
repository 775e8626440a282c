"""Events in a machine's and a collector's life, each by one command, as the guide has them."""
from __future__ import annotations

import re
from collections.abc import Callable

from booted import Booted

EVENTS: list[Callable[[Booted, Booted], None]] = []


def event(function: Callable[[Booted, Booted], None]) -> Callable[[Booted, Booted], None]:
    EVENTS.append(function)
    return function


class Skipped(Exception):
    """Why an event can't happen here."""


def lacks(computer: Booted, program: str) -> bool:
    return computer.shell(f"command -v {program}").returncode != 0


def needs(computer: Booted, *programs: str) -> None:
    for program in programs:
        if lacks(computer, program):
            raise Skipped(f"There is no {program}.")


def does(computer: Booted, command: str) -> str:
    """A command that ends well; what it says."""
    told = computer.shell(command)
    said = (told.stdout + told.stderr).decode(errors="replace")
    assert told.returncode == 0, f"{computer.name}: {command}: status {told.returncode}: {said}"
    return said


def arrives(collector: Booted, web: Booted, machine: str = "web") -> None:
    """What is logged on web is found at the collector, under this name of the machine."""
    word = does(web, "head -c 8 /dev/urandom | od -An -tx1 | tr -d ' \\n'").strip()
    does(web, f"logger -t guide {word}")
    search = f"journal-collect-search -M {machine} -t guide -o cat --no-pager || true"
    collector.wait_for(lambda: word in does(collector, search), f"an entry of {machine}")


def tells(computer: Booted, name: str, remedy: str) -> None:
    """Status names it there, with what to do, or that nothing is to be done."""
    computer.wait_for(lambda: any(each["name"] == name and remedy in str(each["remedy"])
                                  for each in computer.findings()), f"{name}: {remedy}")


@event
def called_again(collector: Booted, web: Booted) -> None:
    """Set-up, called again, changes nothing and says so."""
    assert "nothing was to do" in does(collector, "journal-collect-admin setup")
    said = does(web, "journal-collect-join logs.example.org")
    assert said == "nothing was to do\nweb sends to logs.example.org\n", said


@event
def set_up_behind_a_mistake(collector: Booted, web: Booted) -> None:
    """Somebody's mistake in sshd's settings stops a set-up. Without it the next one has sshd take machines' logins."""
    etc = "/etc/ssh/sshd_config.d"
    for line, why in (("Mistake yes", "Bad configuration option: Mistake"), ("AllowUsers root", "keeps machines out")):
        does(collector, f"rm {etc}/journal-collect.conf && systemctl restart ssh && echo {line} > {etc}/0.conf")
        assert why in does(collector, "! journal-collect-admin setup")
        does(collector, f"rm {etc}/0.conf && journal-collect-admin setup")
        does(web, "for second in 1 2 3 4 5; do sleep $second; journal-collect-send --check && exit; done; exit 1")


@event
def rehearsed(collector: Booted, web: Booted) -> None:
    """With --dry-run nothing is done, and what would be is said."""
    keys = "find /etc/journal-collect -type f | xargs sha256sum"
    before = does(web, keys), does(collector, keys)
    sequence = does(collector, "ls /var/lib/journal-collect/sequences | grep -xE '[0-9a-f]{32}' | head -n 1").strip()
    assert "would: " in does(web, "journal-collect-join --dry-run --new-key logs.example.org")
    for command in ("admit web < /root/.ssh/authorized_keys", "rename web www", f"release {sequence}", "retire web"):
        said = does(collector, f"journal-collect-admin {command.replace(' ', ' --dry-run ', 1)}")
        assert said.startswith("would: "), said
    assert before == (does(web, keys), does(collector, keys))


@event
def key_rotated(collector: Booted, web: Booted) -> None:
    """A machine gets another key, which replaces the old one."""
    said = does(web, "journal-collect-join --new-key --via root@logs.example.org logs.example.org")
    assert said.endswith("web sends to logs.example.org\n"), said


@event
def reinstalled(collector: Booted, web: Booted) -> None:
    """A machine lost its folder, its key and its settings, and joins again."""
    does(web, "systemctl stop journal-collect-send; rm -rf /var/lib/journal-collect-send /etc/journal-collect")
    does(web, "journal-collect-join --via root@logs.example.org logs.example.org")


@event
def joined_by_hand(collector: Booted, web: Booted) -> None:
    """A machine that has no login at the collector joins: host keys are compared, and what it prints admits its key."""
    does(web, "systemctl stop journal-collect-send; rm -r /etc/journal-collect")
    told = web.shell("echo yes | journal-collect-join logs.example.org")
    said = told.stdout.decode()
    assert told.returncode == 1, told
    keys = does(collector, "journal-collect-admin setup").partition("to compare:\n")[2].splitlines()
    assert keys and all(key.split()[1] in said for key in keys), f"{keys}: {said}"
    [line] = re.findall(r"^on logs.example.org, as root:\n  (.*)$", said, re.MULTILINE)
    does(collector, line)


@event
def renamed(collector: Booted, web: Booted) -> None:
    """A machine has another name at the collector, with all that it sent; and its old one again."""
    does(collector, "journal-collect-admin rename web www")
    arrives(collector, web, "www")
    does(collector, "journal-collect-admin rename www web")


@event
def machine_id_changed(collector: Booted, web: Booted) -> None:
    """A machine's id changes, and so does the folder of its journal."""
    does(web, "systemd-id128 new > /etc/machine-id && systemctl restart systemd-journald")


@event
def backed_up_and_restored(collector: Booted, web: Booted) -> None:
    """A collector is put back from a backup, and machines bring what came since."""
    does(collector, "journal-collect-admin backup /var/backups/journal-collect")
    arrives(collector, web)
    does(collector, "systemctl stop journal-collect; rm -rf /var/lib/journal-collect/*; "
         "journal-collect-admin restore /var/backups/journal-collect && journal-collect-admin setup && "
         "systemctl start journal-collect")
    arrives(collector, web)
    tells(collector, "lost", "web brings once more")
    tells(web, "told", "it goes out by itself")


@event
def set_back(collector: Booted, web: Booted) -> None:
    """A machine is set back to a snapshot, as a clone begins: its numbers come again with other entries."""
    units = "systemd-journald.socket systemd-journald-dev-log.socket systemd-journald.service"
    folders = "var/lib/journal-collect-send var/log/journal"
    stop = f"systemctl stop journal-collect-send {units}"
    start = f"systemctl start {units} && systemctl start journal-collect-send"
    does(web, f"{stop}; tar -C / -cf /root/snapshot.tar {folders} && {start}")
    arrives(collector, web)
    does(web, f"{stop}; cd / && rm -rf {folders} run/systemd/journal/*seqnum && tar -xf /root/snapshot.tar && {start}")
    arrives(collector, web)
    tells(web, "told", "--new-key logs.example.org")
    tells(collector, "refused", "on web: journal-collect-status")


@event
def checked(collector: Booted, web: Booted) -> None:
    """All finished databases are as they were, and all that is known can be made anew of them."""
    does(collector, "journal-collect-admin check")
    does(collector, "journal-collect-admin rebuild")


@event
def retired(collector: Booted, web: Booted) -> None:
    """A machine is retired: status says nothing of it; it is admitted again."""
    key = does(web, "cat /etc/journal-collect/key.pub").strip()
    does(web, "systemctl stop journal-collect-send")
    does(collector, "journal-collect-admin retire web")
    assert "web" not in does(collector, "journal-collect-status || true")
    does(collector, f"echo '{key}' | journal-collect-admin admit web")
    does(web, "systemctl start journal-collect-send")


@event
def moved_away(collector: Booted, web: Booted) -> None:
    """A finished database is moved to another disk, and nobody misses it."""
    does(collector, "systemctl reload journal-collect; sleep 2")
    folder = "/var/lib/journal-collect/databases"
    name = does(collector, f"cd {folder}; ls *.sha256 | head -n 1").strip().removesuffix(".db.sha256")
    does(collector, f"journal-collect-admin moved {name} && mkdir -p /srv/old && mv {folder}/{name}.* /srv/old")
    does(collector, "systemctl restart journal-collect")


@event
def read_by_a_group(collector: Booted, web: Booted) -> None:
    """Who is in the group reads what was collected, and nobody else does."""
    arrives(collector, web)
    does(collector, "useradd alice && useradd bob && usermod -aG journal-collect-read alice")
    search = "journal-collect-search -M web -n 1 -o cat -q --no-pager"
    assert does(collector, f"runuser -u alice -- {search}")
    assert collector.shell(f"runuser -u bob -- {search}").stdout == b""


@event
def mailed(collector: Booted, web: Booted) -> None:
    """swatchdog mails what matches a rule."""
    needs(collector, "swatchdog", "sendmail")
    does(collector, "cp /usr/share/doc/journal-collect/examples/alarms.swatch /etc/journal-collect && "
         "systemctl enable -q --now journal-collect-alarm")
    collector.wait_for(lambda: collector.call("pgrep", "-f", "journalctl.*present").stdout, "an alarm that follows")
    does(web, "logger -t guide segfault at 0")
    # exim4 has another user take root's mails
    mails = "cat /var/mail/*"
    collector.wait_for(lambda: b"segfault at 0" in collector.call("sh", "-c", mails).stdout, "a mail")
    does(collector, "systemctl disable -q --now journal-collect-alarm; rm /etc/journal-collect/alarms.swatch")


def fetched(computer: Booted, url: str) -> str:
    """What a server there answers; nothing as long as it doesn't."""
    read = "import sys, urllib.request as r; print(r.urlopen(sys.argv[1]).read().decode())"
    return computer.call("python3", "-c", read, url).stdout.decode(errors="replace")


@event
def scraped(collector: Booted, web: Booted) -> None:
    """node_exporter has the figures, Prometheus reads them, and its rules find what status finds."""
    needs(collector, "prometheus-node-exporter", "prometheus")
    does(collector, "systemctl enable -q --now journal-collect-status.timer; systemctl start prometheus-node-exporter")
    collector.wait_for(lambda: 'journal_collect_machine_entries_total{machine="web"}'
                       in fetched(collector, "http://localhost:9100/metrics"), "figures")
    (collector.root / "root/prometheus.yml").write_text(
        "global: {scrape_interval: 1s, evaluation_interval: 1s}\n"
        "rule_files: [/usr/share/doc/journal-collect/examples/alerts.yml]\n"
        "scrape_configs: [{job_name: node, static_configs: [{targets: ['localhost:9100']}]}]\n")
    does(collector, "systemd-run -q --unit=watching prometheus --config.file=/root/prometheus.yml "
         "--storage.tsdb.path=/root/prometheus; systemctl stop journal-collect")
    alerts = "http://localhost:9090/api/v1/alerts"
    collector.wait_for(lambda: '"alertname":"JournalCollectFailed"' in (told := fetched(collector, alerts))
                       and '"name":"service"' in told, "an alert")
    rules = fetched(collector, "http://localhost:9090/api/v1/rules")
    assert rules.count('"health":"ok"') >= 4 and '"health":"err"' not in rules, rules
    assert "JournalCollectStatusStale" not in fetched(collector, alerts)
    does(collector, "systemctl start journal-collect; systemctl stop watching prometheus-node-exporter; "
         "systemctl disable -q --now journal-collect-status.timer")


@event
def updated(collector: Booted, web: Booted) -> None:
    """A later package: what runs is started again."""
    ids = "systemctl show --property MainPID --value"
    for computer, unit in ((collector, "journal-collect"), (web, "journal-collect-send")):
        before = does(computer, f"{ids} {unit}")
        does(computer, "dpkg --install /root/later.deb")
        assert does(computer, f"{ids} {unit}") not in (before, "0\n"), f"{unit} isn't started again"


@event
def removed_and_installed(collector: Booted, web: Booted) -> None:
    """A removal stops what runs, and keeps what it had: installed again it goes on."""
    for computer, unit in ((collector, "journal-collect"), (web, "journal-collect-send")):
        does(computer, "dpkg --remove journal-collect")
        assert does(computer, f"systemctl is-active {unit} || true") == "inactive\n"
        does(computer, "dpkg --install /root/later.deb")


def purged(collector: Booted, web: Booted) -> None:
    """A purge takes away what set-up made, and keeps the logs."""
    for computer, folder in ((web, "journal-collect-send"), (collector, "journal-collect")):
        does(computer, "DEBIAN_FRONTEND=noninteractive dpkg --purge journal-collect")
        left = does(computer, "ls -d /etc/journal-collect /etc/ssh/sshd_config.d/journal-collect.conf "
                    "/etc/systemd/system/*.wants/journal-collect* /usr/bin/journal-collect* 2> /dev/null || true")
        assert left == "", left
        does(computer, f"test -d /var/lib/{folder}")
    does(collector, "sshd -t")
