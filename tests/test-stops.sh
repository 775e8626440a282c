#!/usr/bin/env bash
# The program stopped at each of its writes, over devices that fail, and after power was lost, also as the service runs
# it; and over a database or a log with a byte that can't be read. The library that stops it is preloaded, and compiled
# here by the compiler of the toolchain.
# shellcheck source=tests/trials.sh
. "$(dirname "$0")/trials.sh"

trials stops stops losses noted noted_failures counted rotten
finish
