#!/usr/bin/env bash
# `--json`: each line of `check`, `codes`, `inspect`, `show` and `verify` is an object that has the words of the line by
# name; the status is that of the call without it, and other commands refuse the option.
. "$(dirname "$0")/expect.sh"
. "$(dirname "$0")/shared/read_files.sh"

# prints STATUS OBJECT WORD..: one object, whatever the order of its names, with the option at each end of the words
prints() {
    local status=$1 wanted=$2 place got
    shift 2
    for place in front back; do
        local words=("$@" --json)
        [[ $place == back ]] || words=(--json "$@")
        "$PROGRAM" "${words[@]}" > "$folder/told" 2> "$folder/why"
        got=$?
        [[ $got -eq $status && ! -s $folder/why ]] || differs "status $got, not $status, and '$(< "$folder/why")': $*"
        python3 -B - "$folder/told" "$wanted" << 'COMPARED' || differs "$* prints $(< "$folder/told")"
import json
import sys
with open(sys.argv[1], encoding="utf-8") as file:
    lines = file.read().splitlines()
sys.exit([json.loads(line) for line in lines] != [json.loads(sys.argv[2])])
COMPARED
    done
}
numbers='"result": "upload", "source": "'$id'"'
prints 0 '{"result": "ok", "entries": 2}' check "$folder/logs.db"
prints 1 '{"result": "bad", "code": 64, "name": "NotAJournal", "meaning": "a database has no journal of this version",
    "place": 0}' check "$folder/prose"
prints 0 '{"result": "ok", "entries": 2, "left": 0}' verify export "$folder/in"
prints 0 '{"result": "ok", "entries": 0, "left": 8}' verify export "$folder/prose"
prints 0 '{"result": "ok", "entries": 1, "left": 0}' verify file "$folder/journal"
prints 1 '{"result": "bad", "code": 10, "name": "EmptyName", "meaning": "a field begins with `=`", "place": 0}' \
    verify export "$folder/bad"
prints 0 "{$numbers, \"start\": 0, \"entries\": 2, \"left\": 0, \"number\": 2, \"windows\": 1,
    \"id\": \"000102030405060708090a0b0c0d0e0f\"}" inspect "$folder/up"
prints 0 "{$numbers, \"start\": 7, \"entries\": 0, \"left\": 20, \"id\": null, \"number\": null, \"windows\": 0}" \
    inspect "$folder/none"
prints 1 '{"result": "bad", "code": 1, "name": "ShortHeader", "meaning": "an upload has fewer bytes than a header",
    "place": 9}' inspect "$folder/short-head"

# all codes, as the table has them
"$PROGRAM" codes > "$folder/codes"
expect 0 "~*" "" "$PROGRAM" codes --json
"$PROGRAM" codes --json > "$folder/told"
python3 -B - "$folder/codes" "$folder/told" << 'COMPARED' || differs "codes"
import json
import re
import sys
with open(sys.argv[1], encoding="utf-8") as file:
    rows = re.findall(r"^(\d+) +(\w+) +(.*)\n {24}(.*)$", file.read(), re.MULTILINE)
with open(sys.argv[2], encoding="utf-8") as file:
    told = [json.loads(line) for line in file]
wanted = [{"code": int(code), "name": name, "meaning": meaning, "advice": advice}
          for code, name, meaning, advice in rows]
sys.exit(not wanted or told != wanted)
COMPARED

# entries, with values of each kind: text as it is, and what is no text as its size
cat > "$folder/compare.py" << 'COMPARED'
import json
import struct
import subprocess
import sys
from samples import SEQNUM_ID, stream
program, folder = sys.argv[1:]
VALUES = [
    (None, "-"), (b"-", "-"), (b"[5 bytes]", "[5 bytes]"), (b'a "quoted" \\ tab\tulator', 'a "quoted" \\ tab\tulator'),
    ("\u00e4\u20ac\U0001d11e".encode(), "\u00e4\u20ac\U0001d11e"), (b"", ""), (b" two  blanks ", " two  blanks "),
    (b"\xff\xfe", "[2 bytes]"), (b"line\nline", "[9 bytes]"), ("\x7f\x85\u202e".encode(), "\x7f\x85\u202e"),
    (b"x" * 100_000, "x" * 100_000),
]


def entry(number: int, value: bytes | None) -> bytes:
    field = b"" if value is None else b"MESSAGE\n" + struct.pack("<Q", len(value)) + value + b"\n"
    return (b"__REALTIME_TIMESTAMP=1000000\n__MONOTONIC_TIMESTAMP=5\n__SEQNUM=%d\n__SEQNUM_ID=%s\nPRIORITY=6\n%s\n"
            % (number, SEQNUM_ID.hex().encode(), field))


def told(*words: str) -> list[dict[str, object]]:
    done = subprocess.run([program, "show", f"{folder}/values.db", "--json", *words], stdout=subprocess.PIPE,
                          check=True)
    return [json.loads(line) for line in done.stdout.splitlines()]


with open(f"{folder}/values", "wb") as file:
    file.write(stream(*(entry(number, value) for number, (value, _) in enumerate(VALUES, 1))))
subprocess.run([program, "collect", f"{folder}/values.db", f"{folder}/values"], stdout=subprocess.DEVNULL, check=True)
wanted = [{"id": SEQNUM_ID.hex(), "number": number, "realtime": 1000000, "monotonic": 5, "value": value}
          for number, (_, value) in enumerate(VALUES, 1)]
sys.exit(told() != wanted or told("--from", "2", "--to", "3") != wanted[1:3]
         or told("--field", "PRIORITY") != [row | {"value": "6"} for row in wanted])
COMPARED
python3 -B "$folder/compare.py" "$PROGRAM" "$folder" || differs "show"

# each object goes out as its line ends: with 20 MB of them a run takes hardly more memory than without them
cat > "$folder/memory.py" << 'MEASURED'
import os
import subprocess
import sys
from samples import entry_text, stream
program, folder = sys.argv[1:]


def kilobytes(*words: str) -> int:
    with subprocess.Popen([program, "show", f"{folder}/large.db", *words], stdout=subprocess.DEVNULL) as process:
        return os.wait4(process.pid, 0)[2].ru_maxrss


with open(f"{folder}/large", "wb") as file:
    file.write(stream(*(entry_text(number, b"%06d" % number * 16_000) for number in range(1, 201))))
subprocess.run([program, "collect", f"{folder}/large.db", f"{folder}/large"], stdout=subprocess.DEVNULL, check=True)
sys.exit(kilobytes("--json") - kilobytes() > 5_000)
MEASURED
python3 -B "$folder/memory.py" "$PROGRAM" "$folder" || differs "the memory of show"

# failures are lines on standard error, as without the option; and both options go together
expect 3 "" "cannot open $folder/gone" "$PROGRAM" check --json "$folder/gone"
expect 3 "" "~cannot open $folder/gone"$'\n'"explain: $folder/gone is missing: *" \
    "$PROGRAM" --explain --json check "$folder/gone"
expect 1 '~{*"code":10,*}' "~explain: 10 EmptyName *" "$PROGRAM" --json --explain verify export "$folder/bad"
expect 3 "" "write failed" bash -c "'$PROGRAM' --json codes > /dev/full"
expect 0 "~*Usage: journal-collect check*" "" "$PROGRAM" check --json --help
for command in collect export migrate; do
    expect 2 "" "~error: unexpected argument '--json' found*" "$PROGRAM" $command "$folder/logs.db" --json
done
finish
