"""Figures for node_exporter's textfile collector."""
from collections.abc import Iterator

from journalcollect.status.collector import Collector
from journalcollect.status.findings import Findings
from journalcollect.status.machine import Machine

PREFIX = "journal_collect_"
ESCAPED = str.maketrans({"\\": r"\\", '"': r'\"', "\n": r"\n"})
# A name with its help, and the values with what each is of.
Figure = tuple[str, str, dict[str, float]]
# Of each machine: a name, its help, and what of the machine it is.
OF_MACHINES = (
    ("seen_timestamp_seconds", "When a machine called last", "seen"),
    ("stored_timestamp_seconds", "When something new of a machine was stored last", "stored"),
    ("entries_total", "Entries of a machine that were stored", "entries"),
    ("refused_total", "Uploads of a machine that were refused", "refused"),
    ("clock_skew_seconds", "By how much a machine's clock is ahead of the collector's", "skew"))


def text(collector: Collector | None, machine: Machine | None, findings: Findings) -> str:
    """All figures, each name with its help once, as the format asks."""
    lines = []
    for name, words, values in figures(collector, machine, findings):
        if values:
            kind = "counter" if name.endswith("_total") else "gauge"
            lines += [f"# HELP {PREFIX}{name} {words}", f"# TYPE {PREFIX}{name} {kind}"]
            lines += [f"{PREFIX}{name}{marks} {value:.15g}" for marks, value in values.items()]
    return "\n".join(lines)


def figures(collector: Collector | None, machine: Machine | None, findings: Findings) -> Iterator[Figure]:
    yield "status", "The worst of all findings: 0 well, 1 look, 2 wrong settings, 3 failed", {"": findings.status}
    # the last of a name and what it is about stands, so the worst does
    found = sorted(findings, key=lambda each: each.status)
    yield "finding", "Something that isn't as it should be; its value is its status", {
        labels(name=each.name, about=each.about): each.status for each in found}
    if collector:
        for name, words, value in OF_MACHINES:
            yield f"machine_{name}", words, {
                labels(machine=each.name): getattr(each, value) for each in collector.machines}
        yield "databases", "Databases by how they stand", {
            labels(standing=standing): count for standing, count in collector.databases.items()}
        yield "stored_bytes", "What finished databases take", {"": collector.bytes}
        yield "free_bytes", "What the collector's disk has left", {"": collector.free_bytes}
        yield "databases_waiting_for_files", "Finished databases without journal files", {
            "": collector.waiting_for_files}
    if machine:
        yield "acknowledged_timestamp_seconds", "When something of this machine was acknowledged last", {
            "": machine.acknowledged}
        yield "outbox_uploads", "Uploads of this machine that wait", {"": machine.waiting}
        yield "outbox_bytes", "What they take", {"": machine.waiting_bytes}
        yield "refused_files", "Entries of this machine that no collector takes", {"": machine.refused}


def labels(**marks: str) -> str:
    return "{" + ",".join(f'{name}="{value.translate(ESCAPED)}"' for name, value in marks.items()) + "}"
