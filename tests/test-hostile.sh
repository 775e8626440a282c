#!/usr/bin/env bash
# Hostile uploads, and databases that were damaged: what the program answers, and that it neither crashes nor hangs.
# shellcheck source=tests/trials.sh
. "$(dirname "$0")/trials.sh"

# less memory than the largest journal file has bytes
ulimit -v 1000000
trials hostile uploads bodies damaged
finish
