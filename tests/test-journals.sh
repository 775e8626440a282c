#!/usr/bin/env bash
# Worked uploads over journals of every kind, whose rows stand in tests/journals/*.rows: over maps and databases that
# take turns, as crates/jc_test_calls prints it, and over tables of each kind, by the program itself. And rows that are
# wrong, which have to fail.
# shellcheck source=tests/trials.sh
. "$(dirname "$0")/trials.sh"

trials journals rows tables
finish
