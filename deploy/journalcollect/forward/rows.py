"""Entries as rows of JSON: known fields in columns of their own, and all others beside them."""
import json
from datetime import date
from hashlib import blake2b
from typing import Any

from ..common.entries import fields

COLUMNS = {
    "_BOOT_ID": "boot", "_MACHINE_ID": "machine", "_HOSTNAME": "host", "_SYSTEMD_UNIT": "unit",
    "_SYSTEMD_USER_UNIT": "user_unit", "_SYSTEMD_SLICE": "slice", "_SYSTEMD_CGROUP": "cgroup",
    "_SYSTEMD_INVOCATION_ID": "invocation", "_TRANSPORT": "transport", "_RUNTIME_SCOPE": "runtime_scope",
    "PRIORITY": "priority", "SYSLOG_FACILITY": "facility", "SYSLOG_IDENTIFIER": "identifier",
    "SYSLOG_PID": "syslog_pid", "SYSLOG_TIMESTAMP": "syslog_timestamp", "MESSAGE": "message",
    "MESSAGE_ID": "message_id", "_PID": "pid", "_UID": "uid", "_GID": "gid", "_COMM": "command", "_EXE": "program",
    "_CMDLINE": "command_line", "_CAP_EFFECTIVE": "capabilities", "_SELINUX_CONTEXT": "context",
    "_SOURCE_REALTIME_TIMESTAMP": "source_realtime", "CODE_FILE": "code_file", "CODE_LINE": "code_line",
    "CODE_FUNC": "code_function", "UNIT": "about_unit", "OBJECT_SYSTEMD_UNIT": "object_unit",
    "INVOCATION_ID": "about_invocation", "JOB_TYPE": "job", "_AUDIT_SESSION": "session",
    "_AUDIT_LOGINUID": "login_uid", "_SYSTEMD_SESSION": "systemd_session", "_SYSTEMD_OWNER_UID": "owner_uid"}
OWN = ["day", "realtime", "sequence", "number", "content", "monotonic", "names", "values"]
MARK, BACKSLASH = "bytes:", "\ud800"
DAY, EPOCH = 86_400_000_000, date(1970, 1, 1).toordinal()
# An entry counts to the day that it says, if that is at most so many days before its database's.
DAYS_BEFORE = 30


def as_text(value: bytes) -> str:
    """The value itself if it is valid UTF-8. Otherwise a mark, and behind it each byte that is no part of UTF-8 as
    `\\xff` and each backslash twice. A value that begins with the mark is written in this form, too."""
    try:
        text = value.decode("utf-8")
    except UnicodeDecodeError:
        text = value.decode("utf-8", errors="surrogateescape")
    else:
        if not text.startswith(MARK):
            return text
    # Python writes a byte 0xff that is no part of UTF-8 as `\udcff`.
    escaped = text.replace("\\", BACKSLASH).encode("utf-8", errors="backslashreplace")
    return MARK + escaped.replace(b"\\udc", b"\\x").replace(b"\\ud800", b"\\\\").decode("utf-8")


def content(realtime: int, monotonic: int, names: list[bytes], values: list[str]) -> int:
    """What tells apart two entries that differ under one key: 64 bits of a digest of all else."""
    said = "\n".join(json.dumps(value, ensure_ascii=False)[1:-1] for value in values).encode()
    head = b"%d %d %d\n" % (realtime, monotonic, len(names))
    return int.from_bytes(blake2b(head + said + b"\n" + b"=".join(names), digest_size=8).digest(), "big")


def day_of(realtime: int, database: date) -> str:
    """The day that an entry counts to: a machine's clock may say anything, so its own only if it is plausible."""
    ordinal = realtime // DAY + EPOCH
    is_plausible = database.toordinal() - DAYS_BEFORE <= ordinal <= database.toordinal() + 1
    return str(date.fromordinal(ordinal) if is_plausible else database)


def row(entry: bytes, database: date) -> bytes:
    """An entry of a database that was begun on a day, as a line of JSON. An empty column stands for no field, so an
    empty value is among the others, and so are further values of a field."""
    (_, realtime, _), (_, monotonic, _), (_, number, _), (_, sequence, _), *own = fields(entry)
    names, values = [name for name, *_ in own], [as_text(value) for _, value, _ in own]
    said: dict[str, Any] = {
        "day": day_of(int(realtime), database), "realtime": int(realtime), "sequence": sequence.decode("ascii"),
        "number": int(number), "content": content(int(realtime), int(monotonic), names, values),
        "monotonic": int(monotonic), "names": [], "values": []}
    for name, value in zip(map(as_text, names), values):
        column = COLUMNS.get(name)
        if column is None or not value or column in said:
            said["names"].append(name)
            said["values"].append(value)
        else:
            said[column] = value
    return json.dumps(said, ensure_ascii=False, separators=(",", ":")).encode() + b"\n"
