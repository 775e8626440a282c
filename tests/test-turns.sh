#!/usr/bin/env bash
# Databases that take turns over one folder of notes, as rounds of random choices: ROUNDS of them, or 30. The library
# that stops the program is compiled by the toolchain's compiler.
# shellcheck source=tests/trials.sh
. "$(dirname "$0")/trials.sh"

trials collect turns
finish
