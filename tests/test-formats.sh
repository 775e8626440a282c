#!/usr/bin/env bash
# Worked bytes of every format, and what readers and texts say of them, as crates/jc_test_calls prints it: the scripts
# tests/formats/*.rows, whose lines tests/formats/script.py explains; and rows that are wrong, which have to fail.
# shellcheck source=tests/trials.sh
. "$(dirname "$0")/trials.sh"

trials formats rows
finish
