# shellcheck shell=bash
# What the tests of options of all commands begin with, beside expect.sh: a folder with files that read well and badly,
# the database logs.db, into which `up` was collected, and the id of the uploads.
folder=$(mktemp -d)
trap 'rm -rf "$folder"' EXIT
# shellcheck disable=SC2034 # the tests use it
id=a0a1a2a3a4a5a6a7a8a9aaabacadaeaf
export PYTHONPATH=tests
python3 -B - "$folder" << 'MADE'
import sys
from samples import E1, E2, FILE, H1, head, stream
for name, data in {
    "in": E1 + E2, "up": stream(E1, E2), "changed": stream(H1), "journal": FILE, "prose": b"8 bytes\n", "bad": b"=x\n",
    "none": stream(E1[:20], start=7), "no-number": E1.replace(b"__SEQNUM=1\n", b""), "empty": b"", "resume": b"?\n",
    "short-head": head(1)[:9], "cut-up": stream(E1)[:60], "garbage": b"all of this is prose\n" * 3,
}.items():
    with open(f"{sys.argv[1]}/{name}", "wb") as file:
        file.write(data)
MADE
"$PROGRAM" collect "$folder/logs.db" "$folder/up" > "$folder/told" || differs "no database"
