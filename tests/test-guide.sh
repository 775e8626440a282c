#!/usr/bin/env bash
# The guide, typed on a collector and a machine that systemd starts: each of its blocks, each event in their lives by
# one command, and each failure named by journal-collect-status with what to do. It takes root and systemd-nspawn. It
# says how many commands set it up, and how long it took until the first entry was read.
. "$(dirname "$0")/expect.sh"

export PROGRAM
new_folder
python3 -B tests/guide > "$folder/said" 2>&1 || differs "tests/guide: $(cat "$folder/said")"
grep -E "^(skipped|measured): " "$folder/said"
finish
