#!/usr/bin/env bash
# Machines, a collector and a hostile machine as they are installed, in rounds of random events over disks and journals
# of their own, and what came of it: ROUNDS of them, or 40. It takes root, loop devices and systemd-journal-remote.
. "$(dirname "$0")/expect.sh"

export PROGRAM
python3 -B tests/world --rounds "${ROUNDS:-40}" || differs "tests/world"
finish
