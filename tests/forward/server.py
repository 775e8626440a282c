"""Debian's ClickHouse on loopback, with a folder of its own."""
import json
import shutil
import signal
import subprocess
import time
import urllib.error
import urllib.request
from pathlib import Path
from typing import Any
from urllib.parse import urlencode

from waiting import free_port

CONFIG = """<?xml version="1.0"?>
<yandex>
    <logger><level>warning</level><log>{folder}/log</log><errorlog>{folder}/errors</errorlog></logger>
    <http_port>{http}</http_port>
    <tcp_port>{tcp}</tcp_port>
    <listen_host>127.0.0.1</listen_host>
    <path>{data}/</path>
    <tmp_path>{data}/tmp/</tmp_path>
    <user_files_path>{folder}/user_files/</user_files_path>
    <format_schema_path>{folder}/format_schemas/</format_schema_path>
    <users_config>{folder}/config.xml</users_config>
    <default_profile>default</default_profile>
    <default_database>default</default_database>
    <mark_cache_size>67108864</mark_cache_size>
    <max_concurrent_queries>20</max_concurrent_queries>
    <keep_alive_timeout>3</keep_alive_timeout>
    <timezone>UTC</timezone>
    <remote_servers><journals>{shards}</journals></remote_servers>
    {more}
    <profiles><default><max_memory_usage>2000000000</max_memory_usage></default></profiles>
    <users><default><password></password><networks><ip>127.0.0.1</ip></networks>
        <profile>default</profile><quota>default</quota></default></users>
    <quotas><default></default></quotas>
</yandex>
"""
SHARD = "<shard><internal_replication>true</internal_replication>{}</shard>"
REPLICA = "<replica><host>127.0.0.1</host><port>{}</port></replica>"
# What a replica has to know: where ZooKeeper is, and which one it is itself.
REPLICATED = """<interserver_http_port>{interserver}</interserver_http_port>
    <interserver_http_host>127.0.0.1</interserver_http_host>
    <zookeeper><node><host>127.0.0.1</host><port>{zookeeper}</port></node></zookeeper>
    <macros><shard>{shard}</shard><replica>{replica}</replica></macros>"""


def is_installed() -> bool:
    return shutil.which("clickhouse-server") is not None


class Refusal(Exception):
    """The server refused a query."""


class ClickHouse:
    """One server. It can be killed and started again; its data may be in another folder. It may be one of a cluster:
    of each shard the ports of its replicas."""

    def __init__(self, folder: Path, data: Path | None = None, shards: list[list[int]] | None = None,
                 tcp: int | None = None, more: str = "") -> None:
        self.folder, self.http, self.tcp = folder, free_port(), tcp or free_port()
        (folder / "user_files").mkdir(parents=True)
        known = "".join(SHARD.format("".join(map(REPLICA.format, ports))) for ports in shards or [[self.tcp]])
        self.config = folder / "config.xml"
        self.config.write_text(CONFIG.format(folder=folder, data=data or folder / "data", http=self.http, tcp=self.tcp,
                                             shards=known, more=more), encoding="utf-8")
        self.process: subprocess.Popen[bytes] | None = None

    @property
    def url(self) -> str:
        return f"http://127.0.0.1:{self.http}"

    def start(self) -> None:
        """Starts it, and waits until it answers."""
        self.process = subprocess.Popen(["clickhouse-server", f"--config-file={self.config}"], cwd=self.folder,
                                        stdout=subprocess.DEVNULL, stderr=subprocess.DEVNULL)
        for _ in range(3000):
            try:
                if self.query("SELECT 1") == "1\n":
                    return
            except (OSError, Refusal):
                pass
            if self.process.poll() is not None:
                break
            time.sleep(0.1)
        raise AssertionError("clickhouse-server doesn't start: " + (self.folder / "errors").read_text()[-2000:])

    def kill(self) -> None:
        if self.process:
            self.process.send_signal(signal.SIGKILL)
            self.process.wait()
            self.process = None

    def query(self, text: str, **settings: str) -> str:
        request = urllib.request.Request(f"{self.url}/?{urlencode(settings)}", text.encode())
        try:
            with urllib.request.urlopen(request, timeout=60) as answer:
                said: str = answer.read().decode()
                return said
        except urllib.error.HTTPError as error:
            raise Refusal(error.read().decode(errors="replace")) from error

    def rows(self, text: str) -> list[dict[str, Any]]:
        return [json.loads(line) for line in self.query(f"{text} FORMAT JSONEachRow").split("\n") if line]

    def run(self, statements: str) -> None:
        """Statements, each ended by a semicolon at the end of its line."""
        lines = [line for line in statements.splitlines() if not line.startswith("--")]
        for statement in "\n".join(lines).split(";\n"):
            if statement.strip("; \n"):
                self.query(statement.strip("; \n"))
