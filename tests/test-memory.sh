#!/usr/bin/env bash
# Memory is refused to every command at one request at a time, and at some with all later ones; in a long row of
# requests of one size, and of requests like those of an earlier command, at some of them. So it is to calls of the
# libraries, as jc_test_calls makes them. The library that refuses is preloaded, and compiled here by the toolchain's.
# shellcheck source=tests/trials.sh
. "$(dirname "$0")/trials.sh"

trials memory sweeps calls
finish
