"""journal-collect-search: calls in journalctl's words give what journalctl gives over the machines' own files."""
import json
import os
import subprocess
from collections import Counter
from collections.abc import Iterator
from itertools import product
from pathlib import Path
from typing import Any

import machines
import pytest
from collecting import BEGIN, ROOT, SEARCH, Collector, Entry, digits

DAY = 86_400
AT = BEGIN // 1_000_000
# Conditions that journalctl takes.
CONDITIONS = [
    [], ["-u", "nginx.service"], ["-u", "nginx"], ["-u", "ng*"], ["-unginx", "-ucron"], ["--unit=/srv/data"],
    ["-u", "app@7"], ["-p", "3"], ["-p", "warning"], ["-p", "err..warning"], ["-p", "debug"], ["-t", "kernel"],
    ["-t", "systemd", "-t", "cron"], ["--facility=kern"], ["_UID=1000"], ["_UID=0", "_UID=1001"],
    ["_UID=0", "PRIORITY=3"], ["_UID=0", "+", "_TRANSPORT=kernel"],
    ["-g", "word7"], ["-g", "WORD7"], ["-g", "Failed|Started"], ["--grep=word1$", "-u", "ssh"],
    ["--case-sensitive=no", "-g", "WORD7"], ["--user-unit=pipewire.service"], ["_PID=1"], ["/usr/bin/ngi"],
    ["MESSAGE_ID=fc2e22bc6ee647b6b90729ab34a250b1"], ["_HOSTNAME=web.lan"],
    ["_HOSTNAME=web.lan", "_HOSTNAME=db.lan", "-p3"],
    ["_TRANSPORT=audit"], ["--since", f"@{AT + DAY}"], ["--until", f"@{AT + DAY}"],
    ["-S", f"@{AT + 3000}", "-U", f"@{AT + DAY + 3000}"], ["-S", f"@{AT + 2 * DAY}", "-u", "cron"],
    ["-S", f"@{AT + 9 * DAY}"], ["-U", f"@{AT - DAY}"], ["_BOOT_ID=" + digits("web", 1)], ["NO_FIELD=x"],
    ["-n", "7"], ["-n7", "-u", "nginx"], ["-r", "-n", "20"], ["-n", "5", "-p", "3"], ["-n", "5", "-g", "word3"],
    ["-n", "5", "-g", "word3", "-S", f"@{AT + 9 * DAY}"],
    ["-r", "-g", "word3"], ["--lines=all", "-u", "ssh"], ["-rn3", "_TRANSPORT=kernel"], ["-e", "-u", "cron"]]
TEXTS = ["short", "short-full", "short-iso", "short-iso-precise", "short-precise", "short-unix", "cat", "verbose",
         "with-unit"]
Both = tuple[Path, Collector, dict[tuple[str, str], list[Entry]]]
CALLS = [[*words, "-o", "json", *more] for words, more in product(
    CONDITIONS, ([], ["--utc"], ["-a"]))] + [
    [*words, "-o", form] for words, form in product(CONDITIONS[:4] + CONDITIONS[18:20] + CONDITIONS[38:40], TEXTS)]


@pytest.fixture(scope="module")
def both(tmp_path_factory: pytest.TempPathFactory) -> Iterator[Both]:
    """The machines' own files, and what was collected of them, the last of it in the present."""
    folder = tmp_path_factory.mktemp("both")
    found = machines.journals()
    machines.original(folder / "own", found)
    collector = Collector(folder / "collector")
    present = machines.collect(collector, found, True)
    yield folder / "own", collector, found
    assert present
    present.stop()


@pytest.fixture(scope="module")
def finished(tmp_path_factory: pytest.TempPathFactory, both: Both) -> Collector:
    """The same when all databases are finished: the last entries of the present are those that came last."""
    collector = Collector(tmp_path_factory.mktemp("finished") / "collector")
    machines.collect(collector, both[2], False)
    return collector


def journalctl(own: Path, *words: str) -> subprocess.CompletedProcess[str]:
    return subprocess.run(["journalctl", f"--file={own}/*.journal", "--no-pager", *words], text=True, errors="replace",
                          capture_output=True, check=False, env={**os.environ, "TZ": "UTC", "LC_ALL": "C.UTF-8"})


def as_said(text: str) -> list[Any]:
    """What is said, order and cursors aside."""
    if text.startswith("{"):
        entries = [json.loads(line) for line in text.splitlines()]
        return sorted(sorted((name, str(in_order(value))) for name, value in each.items()
                             if name not in ("__CURSOR", "_COLLECTED_FROM")) for each in entries)
    return sorted(line.partition(" [s=")[0] for line in text.splitlines() if "_COLLECTED_FROM=" not in line)


def in_order(value: Any) -> Any:
    """Several values of a field have none; what is no text is a list of bytes."""
    return sorted(value) if isinstance(value, list) and value and isinstance(value[0], str) else value


def test_there_are_two_hundred_calls() -> None:
    assert len(CALLS) >= 200


@pytest.mark.parametrize("words", CALLS, ids=" ".join)
def test_it_is_what_journalctl_gives(both: Both, finished: Collector, words: list[str]) -> None:
    own, collector, _ = both
    is_of_last = any(word.startswith(("-n", "-rn")) for word in words)
    expected = journalctl(own / "*", "-q", "--merge", *words)
    said = (finished if is_of_last else collector).search("-q", *words)
    assert as_said(said.stdout) == as_said(expected.stdout), said.stderr
    assert said.returncode == expected.returncode


@pytest.mark.parametrize("machine", machines.NAMES)
@pytest.mark.parametrize("words", [["-b"], ["-b", "-1"], ["-b-2"], ["-b", "1"], ["-b", "2"], ["--boot=all"], ["-k"],
                                   ["-k", "-b", "-1"], ["-b", "-u", "nginx"], ["-b0", "-p", "3"], ["-bID"], ["-bID-1"],
                                   ["-b", "-n", "4"], []], ids=" ".join)
def test_boots_of_a_machine(both: Both, finished: Collector, machine: str, words: list[str]) -> None:
    own, collector = both[0], finished if "-n" in words else both[1]
    words = [word.replace("ID", digits(machine, 1)) for word in words]
    plain = journalctl(own / machine, "-q", "-o", "json", *words)
    said = collector.search("-q", "-o", "json", "-M", machine, *words)
    assert as_said(said.stdout) == as_said(plain.stdout), said.stderr


@pytest.mark.parametrize("machine", machines.NAMES)
def test_the_table_of_boots(both: Both, machine: str) -> None:
    own, collector, _ = both
    plain = journalctl(own / machine, "--list-boots", "--utc")
    assert collector.search("-M", machine, "--list-boots", "--utc").stdout == plain.stdout


def counted(found: dict[tuple[str, str], list[Entry]], field: str, machine: str = "") -> Counter[str]:
    return Counter(str(each.fields.get(field, "-")) for (name, _), entries in found.items() for each in entries
                   if machine in ("", name))


def test_machines(both: Both) -> None:
    _, collector, found = both
    of_machine = {name: sum(len(entries) for (machine, _), entries in found.items() if machine == name)
                  for name in machines.NAMES}
    for words, names in ((["-M", "web"], ["web"]), (["-M", "we*"], ["web", "web2"]),
                         (["-Mdb", "--machine=web2"], ["db", "web2"]), (["-M", "*"], machines.NAMES),
                         (["--mach=web?"], ["web2"])):
        lines = collector.search("-q", "-o", "json", *words).stdout.splitlines()
        said_of = Counter(json.loads(line)["_COLLECTED_FROM"] for line in lines)
        assert said_of == {name: of_machine[name] for name in names}
    said = collector.search("-q", "-o", "json", "-M", "web", "_TRANSPORT=kernel", "+", "_UID=1000").stdout.splitlines()
    assert {json.loads(line)["_HOSTNAME"] for line in said} == {"web.lan"}
    missing = collector.search("-M", "nobody")
    assert (missing.returncode, missing.stdout) == (2, "") and "nobody" in missing.stderr
    table = collector.search("--list-machines", "--utc").stdout.splitlines()
    assert [line.split()[0] for line in table[1:]] == sorted(machines.NAMES)


COMPLETION = """source "$1"; shift; COMP_WORDS=("$@"); COMP_CWORD=$(($# - 1)); word=${COMP_WORDS[COMP_CWORD]}
_journal_collect "$1" "$word" "${COMP_WORDS[COMP_CWORD - 1]}"; printf '%s\\n' "${COMPREPLY[@]}" """


@pytest.mark.parametrize("words, wanted", [
    (["-M", "we"], ["web", "web2"]), (["-o", "json", "--machine", ""], machines.NAMES),
    (["--machine", "="], machines.NAMES), (["--machine", "=", "d"], ["db"]), (["--list-m"], ["--list-machines"])])
def test_machines_are_completed(both: Both, words: list[str], wanted: list[str]) -> None:
    script = ROOT / "deploy/completions/journal-collect.bash"
    done = subprocess.run(["bash", "-c", COMPLETION, "bash", script, SEARCH, *words], env=both[1].environment,
                          capture_output=True, text=True, check=True)
    assert sorted(done.stdout.split()) == sorted(wanted)


def test_the_commands_of_people_are_completed() -> None:
    script, admin = ROOT / "deploy/completions/journal-collect.bash", SEARCH.with_name("journal-collect-admin")
    done = subprocess.run(["bash", "-c", COMPLETION, "bash", script, admin, ""], capture_output=True, text=True,
                          check=True)
    assert sorted(done.stdout.split()) == sorted(
        "setup admit retire rename release take backup restore check head moved passed rebuild".split())


def test_counts(both: Both) -> None:
    _, collector, found = both
    for words, field, machine in ((["--count-by=unit"], "_SYSTEMD_UNIT", ""),
                                  (["--count-by", "PRIORITY", "-M", "db"], "PRIORITY", "db")):
        said = dict(reversed(line.split(None, 1)) for line in collector.search(*words).stdout.splitlines())
        assert {value: int(count) for value, count in said.items()} == counted(found, field, machine)
    said = collector.search("--histogram=86400", "--utc").stdout.splitlines()
    assert sum(int(line.split()[4]) for line in said) == machines.BOOTS * machines.ENTRIES
    table = collector.search("--histogram=86400", "--count-by=priority", "--utc").stdout.splitlines()
    names = table[0].split()[1:]
    sums = [sum(int(line.split()[4 + place]) for line in table[1:]) for place in range(len(names))]
    expected = counted(found, "PRIORITY")
    assert len(names) == len(expected) == 9 and names[-1] == "(others)"
    assert dict(zip(names, sums)) == dict(expected.most_common(8)) | {"(others)": min(expected.values())}
    units = collector.search("-M", "db", "-F", "_SYSTEMD_UNIT").stdout.split()
    assert units == sorted(set(counted(found, "_SYSTEMD_UNIT", "db")) - {"-"})


def test_failed_units(both: Both) -> None:
    _, collector, found = both
    expected = Counter((machine, entry.fields["UNIT"]) for (machine, _), entries in found.items() for entry in entries
                       if "UNIT" in entry.fields)
    said = [line.split() for line in collector.search("--failed", "--utc").stdout.splitlines()[1:]]
    assert {(line[5], line[7]): int(line[4]) for line in said} == expected


@pytest.mark.parametrize("words", [["-D", "/x"], ["--file=/x"], ["--root=/"], ["--vacuum-size=1"], ["--rotate"], ["-y"],
                                   ["--nothing"], ["--until"], ["--li"], ["-b", "-9"], ["--histogram=x"]], ids=" ".join)
def test_wrong_words(both: Both, words: list[str]) -> None:
    done = both[1].search(*words)
    assert (done.returncode, done.stdout) == (2, "") and done.stderr.startswith("journal-collect-search: ")


def test_nothing_collected_is_no_entries(collector: Collector) -> None:
    done = collector.search()
    assert (done.returncode, done.stdout) == (0, "-- No entries --\n")
    assert SEARCH.exists()
