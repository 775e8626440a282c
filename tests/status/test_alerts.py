"""The rules for Prometheus that are installed: which alerts fire when, by Prometheus' own promtool."""
from __future__ import annotations

import json
import shutil
import subprocess
from pathlib import Path

import pytest

RULES = Path(__file__).resolve().parents[2] / "deploy/units/alerts.yml"
DISK = {"name": "disk", "about": "collector", "instance": "logs"}
CLOCK = {"name": "clock", "about": "web", "instance": "logs"}
FILE = "/var/lib/prometheus/node-exporter/journal-collect.prom"
# The time is 0 s where it begins, and each series has a value for each minute.
SERIES = {
    'journal_collect_finding{name="disk",about="collector",instance="logs"}': "3+0x300",
    'journal_collect_finding{name="clock",about="web",instance="logs"}': "1+0x300",
    'journal_collect_machine_stored_timestamp_seconds{machine="web",instance="logs"}': "0+0x300",
    'journal_collect_machine_stored_timestamp_seconds{machine="db",instance="logs"}': "0+60x300",
    f'node_textfile_mtime_seconds{{file="{FILE}",instance="logs"}}': "0+0x300",
    f'node_textfile_mtime_seconds{{file="{FILE}",instance="well"}}': "0+60x300"}


def alert(severity: str, summary: str, **labels: str) -> dict[str, object]:
    return {"exp_labels": {"severity": severity, **labels}, "exp_annotations": {"summary": summary}}


@pytest.mark.skipif(not shutil.which("promtool"), reason="promtool isn't installed, so no alert is tried")
@pytest.mark.parametrize("name, before, after, fires", [
    ("JournalCollectFailed", "9m", "11m",
     alert("critical", "logs: disk of collector: see journal-collect-status", **DISK)),
    ("JournalCollectLook", "59m", "61m", alert("warning", "logs: clock of web: see journal-collect-status", **CLOCK)),
    ("JournalCollectMachineSilent", "249m", "252m", alert(
        "warning", "nothing of web was stored for four hours: on it, journal-collect-status", machine="web",
        instance="logs")),
    ("JournalCollectStatusStale", "10m", "12m",
     alert("warning", "logs: journal-collect-status.timer doesn't run", file=FILE, instance="logs"))])
def test_an_alert_fires_in_time(tmp_path: Path, name: str, before: str, after: str, fires: dict[str, object]) -> None:
    rows = [{"eval_time": before, "alertname": name, "exp_alerts": []},
            {"eval_time": after, "alertname": name, "exp_alerts": [fires]}]
    series = [{"series": series, "values": values} for series, values in SERIES.items()]
    tests = tmp_path / "tests.yml"
    # JSON is YAML
    tests.write_text(json.dumps({
        "rule_files": [str(RULES)], "evaluation_interval": "1m",
        "tests": [{"interval": "1m", "input_series": series, "alert_rule_test": rows}]}))
    ended = subprocess.run(["promtool", "test", "rules", tests], capture_output=True, text=True, check=False)
    assert ended.returncode == 0, ended.stdout + ended.stderr
