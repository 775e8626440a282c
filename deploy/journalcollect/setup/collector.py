"""`journal-collect-admin setup`: this computer becomes a collector. Called again it changes nothing."""
import pwd
import re
from pathlib import Path

from journalcollect.collector.settings import Settings
from journalcollect.common import files
from journalcollect.setup import keys
from journalcollect.setup.deeds import Deeds, Stopped, is_true, output

LIBRARY = Path(__file__).resolve().parents[2]
SSHD = Path("/etc/ssh/sshd_config.d/journal-collect.conf")
LOGIN = "journal-collect-login"
SERVICE = "journal-collect.service"


def set_up(deeds: Deeds, etc: Path) -> int:
    for path, package in (("/usr/sbin/sshd", "openssh-server"), (keys.NETCAT, "netcat-openbsd")):
        if not Path(path).exists():
            raise Stopped(f"there is no {path}: apt install {package}")
    deeds.users()
    folders(deeds, etc)
    bound_logins(deeds)
    set_sshd(deeds, etc)
    deeds.runs(SERVICE, is_new=False)
    if not deeds.count:
        print("this is a collector already; nothing was to do")
    if not deeds.is_rehearsal:
        print("machines join with: journal-collect-join HOST; the keys of this host, to compare:")
        for key in sorted(Path("/etc/ssh").glob("ssh_host_*_key.pub")):
            print(f"  {output('ssh-keygen', '-l', '-f', key).strip()}")
    return 0


def folders(deeds: Deeds, etc: Path) -> None:
    """Machines' login enters the folder of sockets alone, and readers what isn't for the service alone."""
    deeds.folder(etc / "keys", 0o755)
    deeds.folder(etc / "collector.conf.d", 0o755)
    state = Path(Settings().folder)
    deeds.folder(state, 0o751, "journal-collect", "journal-collect-read")
    deeds.folder(state / "sockets", 0o710, "journal-collect", LOGIN)
    deeds.folder(state / "journals", 0o750, "journal-collect", "journal-collect-read")
    deeds.write(etc / "authorized_keys", keys.text(etc, state / "sockets"))


def bound_logins(deeds: Deeds) -> None:
    """What all logins of machines take together is bounded by the slice of their user."""
    try:
        user = pwd.getpwnam(LOGIN).pw_uid
    except KeyError:
        return                          # a rehearsal, before there are users
    path = Path(f"/etc/systemd/system/user-{user}.slice.d/journal-collect.conf")
    if deeds.write(path, (LIBRARY / "slice.conf").read_text()) and not deeds.is_rehearsal:
        output("systemctl", "daemon-reload")


def set_sshd(deeds: Deeds, etc: Path) -> None:
    """sshd reads its settings for machines. What it doesn't take is as it was before, so that a next call goes on."""
    before = SSHD.read_bytes() if SSHD.exists() else None
    is_new = deeds.write(SSHD, (LIBRARY / "sshd.conf").read_text())
    try:
        if not deeds.is_rehearsal:
            check_sshd(etc)
        if is_new and is_true("systemctl", "is-active", "ssh.service"):
            deeds.call("reloads ssh.service", "systemctl", "reload", "ssh.service")
        elif is_new:
            deeds.call("enables and starts ssh.service", "systemctl", "enable", "--quiet", "--now", "ssh.service")
    except Stopped:
        if is_new:
            SSHD.unlink() if before is None else files.replace(SSHD, before, 0o644)
        raise


def check_sshd(etc: Path) -> None:
    """sshd takes machines' logins as it is set up, with all that its other settings say."""
    Path("/run/sshd").mkdir(exist_ok=True)          # sshd looks for it also when it only checks
    told_by = output("/usr/sbin/sshd", "-T", "-C", f"user={LOGIN},host=any,addr=127.0.0.1").lower()
    found = dict(line.partition(" ")[::2] for line in told_by.splitlines())
    if found.get("authorizedkeysfile") != str(etc / "authorized_keys").lower():
        raise Stopped(f"sshd doesn't read {SSHD}: /etc/ssh/sshd_config needs the line "
                      "Include /etc/ssh/sshd_config.d/*.conf, before all others")
    allowed = re.findall(r"^allow(users|groups) (.*)$", told_by, re.MULTILINE)
    if allowed and not any(LOGIN in names.split() for _, names in allowed):
        raise Stopped(f"sshd's Allow{allowed[0][0]} keeps machines out: add {LOGIN} there, reload sshd, and call this "
                      "again")
