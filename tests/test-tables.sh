#!/usr/bin/env bash
# Databases whose tables are by key or have a text a row: what `--tables 3` makes, what the stock SQLite reads there and
# may have written, and that every command finds out which tables there are.
. "$(dirname "$0")/expect.sh"

new_folder
for rows in by_text by_key; do
    mkdir "$folder/$rows"
    PYTHONPATH=tests python3 -B "tests/collect/$rows.py" "$PROGRAM" "$folder/$rows" || differs "tests/collect/$rows.py"
done
finish
