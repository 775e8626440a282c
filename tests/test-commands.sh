#!/usr/bin/env bash
# Worked runs of every command, with all that each prints, its status and the files that it leaves: the scripts
# tests/commands/*.rows, whose lines tests/commands/script.py explains; and scripts that are wrong, which have to fail.
# shellcheck source=tests/trials.sh
. "$(dirname "$0")/trials.sh"

trials commands rows
finish
