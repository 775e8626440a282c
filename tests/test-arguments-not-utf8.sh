#!/usr/bin/env bash
# Arguments that aren't UTF-8 are a wrong command line: status 2, one line on standard error, nothing printed.
. "$(dirname "$0")/expect.sh"

expect 2 "" "error: an argument is not UTF-8 text" "$PROGRAM" verify export $'\xff'
expect 2 "" "error: an argument is not UTF-8 text" "$PROGRAM" $'\xc3\x28' export file
expect 2 "" "error: an argument is not UTF-8 text" "$PROGRAM" --help $'caf\xe9'
finish
