"""Two shards of two replicas each, with ZooKeeper, all of Debian's packages: replicas and the forwarder are killed, and
the query of FORWARDING has each entry once."""
import random
import shutil
import subprocess
import time
from collections.abc import Iterator
from pathlib import Path

import pytest
import server
from collecting import ROOT, Collector
from server import ClickHouse
from test_forward import NAMES, Forwarding, numbers, odd
from waiting import free_port, listens, wait_until

ZOOKEEPER = Path("/usr/share/zookeeper/bin/zkEnv.sh")
CLUSTER = ROOT / "deploy/journalcollect/forward/clickhouse-cluster.sql"
HERE = "ReplicatedReplacingMergeTree('/clickhouse/tables/{shard}/journal_here', '{replica}')"
IS_MISSING = not server.is_installed() or not ZOOKEEPER.exists() or not shutil.which("java")
pytestmark = pytest.mark.skipif(IS_MISSING, reason="clickhouse-server or zookeeper isn't installed")


@pytest.fixture
def zookeeper(tmp_path: Path) -> Iterator[int]:
    port = free_port()
    begin = f'. {ZOOKEEPER}; exec java -cp "$CLASSPATH" org.apache.zookeeper.server.ZooKeeperServerMain "$@"'
    process = subprocess.Popen(["bash", "-c", begin, "zookeeper", str(port), tmp_path / "zookeeper"],
                               stdout=subprocess.DEVNULL, stderr=subprocess.DEVNULL)
    wait_until(lambda: listens(port))
    yield port
    process.kill()
    process.wait()


@pytest.fixture
def replicas(tmp_path: Path, zookeeper: int) -> Iterator[list[ClickHouse]]:
    ports = [[free_port(), free_port()] for _ in range(2)]
    made = [ClickHouse(tmp_path / f"server-{shard}-{replica}", shards=ports, tcp=tcp, more=server.REPLICATED.format(
        interserver=free_port(), zookeeper=zookeeper, shard=shard, replica=replica))
        for shard, of_shard in enumerate(ports) for replica, tcp in enumerate(of_shard)]
    for each in made:
        each.start()
    yield made
    for each in made:
        each.kill()


def test_each_entry_is_there_once_over_kills(collector: Collector, replicas: list[ClickHouse]) -> None:
    forwarding, written_to = Forwarding(collector), replicas[0]
    forwarding.set(URL=written_to.url, TABLE="journal_here")
    table = forwarding.call("--schema").stdout.partition(";\n")[0].replace("ReplacingMergeTree", HERE)
    for each in replicas:
        each.run(table)
    written_to.run(CLUSTER.read_text().replace("@table@", "journal"))
    forwarding.set(URL=written_to.url, TABLE="journal")
    for place, name in enumerate(NAMES):
        collector.database(name, *(odd(place * 500 + number) for number in range(1, 501)))
    choose = random.Random(7)
    for _ in range(6):
        process, killed = forwarding.start("--once"), choose.choice(replicas)
        time.sleep(choose.uniform(0.2, 0.9))
        killed.kill()
        time.sleep(choose.uniform(0.2, 0.9))
        killed.start()
        process.kill()
        process.communicate()
    assert forwarding.call("--once", "--again", "all").returncode == 0
    query = "SELECT number FROM journal LIMIT 1 BY realtime, sequence, number, content"
    # what goes on to another shard comes there a little later
    wait_until(lambda: numbers(written_to.rows(query)) == list(range(1, 3001)))

    def here() -> list[int]:
        return [int(each.query("SELECT uniqExact(number) FROM journal_here")) for each in replicas]

    # a replica takes over what it lacks when it is there again
    wait_until(lambda: here()[0] == here()[1] and here()[2] == here()[3])
    assert 0 < here()[0] < 3000 and here()[0] + here()[2] == 3000
