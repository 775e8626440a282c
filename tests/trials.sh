# shellcheck shell=bash
# What the scripts share whose trials of the program are in Python: modules, the program for tests, and files in memory,
# if the system has some, since each run makes its database anew.
. "$(dirname "${BASH_SOURCE[0]}")/expect.sh"

files_in_memory
memory_in_large_pages
export CALLS=${CALLS:-crates/jc_test_calls/out/jc_test_calls}
export PYTHONPATH=tests:tests/collect:tests/hostile:tests/shared:tests/stops
export PROGRAM PYTHONDONTWRITEBYTECODE=1

# trials FOLDER PART..: the parts of a folder of tests/, one after the other.
trials() {
    local part
    for part in "${@:2}"; do
        python3 "tests/$1/$part.py" || differs "tests/$1/$part.py"
    done
}
