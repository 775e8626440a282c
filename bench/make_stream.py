#!/usr/bin/env python3
"""Writes an export stream of about a number of bytes: make_stream.py BYTES > FILE

The entries are like those of a busy machine: 24 fields and five of metadata, most of them short texts, every tenth
entry with a message of several lines in the binary spelling. The same size gives the same stream.
"""
from __future__ import annotations

import struct
import sys

ID = "000102030405060708090a0b0c0d0e0f"
BOOT = "101112131415161718191a1b1c1d1e1f"


def field(name: str, value: str) -> bytes:
    """A field in the spelling that the format asks for."""
    if "\n" in value:
        raw = value.encode()
        return name.encode() + b"\n" + struct.pack("<Q", len(raw)) + raw + b"\n"
    return f"{name}={value}\n".encode()


def entry(number: int) -> bytes:
    unit = f"service-{number % 37}.service"
    message = f"request {number} from 192.0.2.{number % 256} took {number * 7919 % 1000} ms, status 200, "
    message += f"{number * 6007 % 100_000} bytes, /api/v1/machines/{number % 997}/reports/{number % 89}"
    if number % 10 == 0:
        message += "\n  at handler\n  at listener"
    pairs = [
        ("__CURSOR", f"s={ID};i={number:x};b={BOOT};m={number * 211:x};t={number * 1013:x};x=0"),
        ("__REALTIME_TIMESTAMP", str(1_700_000_000_000_000 + number * 1013)),
        ("__MONOTONIC_TIMESTAMP", str(number * 211)),
        ("__SEQNUM", str(number)),
        ("__SEQNUM_ID", ID),
        ("_BOOT_ID", BOOT),
        ("_MACHINE_ID", "202122232425262728292a2b2c2d2e2f"),
        ("_HOSTNAME", "host.example.org"),
        ("_TRANSPORT", "journal"),
        ("_UID", "998"),
        ("_GID", "998"),
        ("_PID", str(1000 + number % 30000)),
        ("_CAP_EFFECTIVE", "0"),
        ("_SELINUX_CONTEXT", "system_u:system_r:server_t:s0"),
        ("_COMM", "server"),
        ("_EXE", "/usr/bin/server"),
        ("_CMDLINE", f"/usr/bin/server --unit {unit} --config /etc/server/server.conf --listen 192.0.2.1:8443"),
        ("_SYSTEMD_CGROUP", f"/system.slice/{unit}"),
        ("_SYSTEMD_UNIT", unit),
        ("_SYSTEMD_SLICE", "system.slice"),
        ("_SYSTEMD_INVOCATION_ID", f"{number % 37:02x}" * 16),
        ("_STREAM_ID", f"{number % 41:02x}" * 16),
        ("_RUNTIME_SCOPE", "system"),
        ("PRIORITY", str(number % 8)),
        ("SYSLOG_FACILITY", "3"),
        ("SYSLOG_IDENTIFIER", "server"),
        ("CODE_FILE", "src/server/listen.c"),
        ("CODE_LINE", str(number % 500)),
        ("MESSAGE", message),
    ]
    return b"".join(field(name, value) for name, value in pairs) + b"\n"


def main() -> None:
    wanted = int(sys.argv[1])
    written = number = 0
    while written < wanted:
        number += 1
        text = entry(number)
        sys.stdout.buffer.write(text)
        written += len(text)


if __name__ == "__main__":
    main()
