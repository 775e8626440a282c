#!/usr/bin/env bash
# The gate: every proof from nothing, the tests and the stored run (rt ci); beside it the edits (tests/refused), each
# crate's from when it is proved; and when rt ci has ended the scripts tests/test-*.sh side by side, and tests/python.sh
# beside them, over the program that it built. The last line is `N passed, M failed`, over all of them.
set -uo pipefail
cd "$(dirname "$0")/.." || exit

passed=0
failed=0
work=$(mktemp -d)
trap clean_up EXIT

# Ends what still runs, as an interrupt at a terminal would, and then what doesn't end by that.
clean_up() {
    local signal running
    for signal in INT TERM; do
        mapfile -t running < <(jobs -rp)
        [[ ${#running[@]} -gt 0 ]] || break
        kill -s "$signal" -- "${running[@]/#/-}"
        sleep 1
    done
    rm -rf "$work"
}

# Each part keeps what it says in a file of its name.

# The tests of what stands around the program.
python() {
    nice bash tests/python.sh
} > "$work/python" 2>&1

# One processor for each check: two processes of one check do some of its work twice.
ci() {
    RT_JOBS=$at_once rt ci 2>&1 | tee "$work/ci"
}

# What rt ci has to do goes first: the edits' checks run where it leaves a processor idle, or at a lower priority where
# that can't be asked for. They may all be judged before rt ci ends. So this part's status isn't that of what hands on
# the words of rt ci.
edits() {
    local last=(chrt --idle 0)
    "${last[@]}" true 2> /dev/null || last=(nice)
    RT_JOBS=$at_once TMPDIR=$work "${last[@]}" python3 -ESB tests/refused --beside \
        < <(tail -n +1 -s 1 -f --pid="$ci" "$work/ci")
} > "$work/edits" 2>&1

# The scripts side by side, as many as there may be checks; what they say is printed in the order of their names.
scripts() {
    local script name passed=0 failed=0
    mkdir "$work/said" "$work/passed"
    for script in tests/test-*.sh; do
        name=${script#tests/}
        { [[ -x $PROGRAM ]] && bash "$script" > "$work/said/$name" 2>&1 && touch "$work/passed/$name"; } &
        while [[ $(jobs -rp | wc -l) -ge $at_once ]]; do
            wait -n
        done
    done
    wait
    for script in tests/test-*.sh; do
        name=${script#tests/}
        cat "$work/said/$name"
        if [[ -e $work/passed/$name ]]; then
            passed=$((passed + 1))
        else
            echo "FAILED: $script"
            failed=$((failed + 1))
        fi
    done
    echo "$passed passed, $failed failed"
    [[ $failed -eq 0 ]]
} > "$work/scripts" 2>&1

# Starts a part in a group of processes of its own, which ends as one if the gate is interrupted.
start() {
    set -m
    "$1" < /dev/null &
    set +m
}

# Waits for a part, whose last line is `N passed, M failed`, and adds its counts. A part that says no count, or whose
# status its count doesn't explain, is a failure of its own.
count() {
    local part=$1 process=$2 status=0 of_part=0
    wait "$process" || status=$?
    [[ $part == ci ]] || cat "$work/$part"
    if [[ $(tail -n 1 "$work/$part") =~ ^([0-9]+)\ passed,\ ([0-9]+)\ failed$ ]]; then
        passed=$((passed + BASH_REMATCH[1]))
        of_part=${BASH_REMATCH[2]}
    else
        status=1
    fi
    if [[ $status -ne 0 && $of_part -eq 0 ]]; then
        echo "FAILED: $part"
        of_part=1
    fi
    failed=$((failed + of_part))
}

# it loads the toolchain's parts, and says so if they aren't those that it knows
at_once=$(python3 -ESB tests/refused/parallel.py) || {
    echo "0 passed, 1 failed"
    exit 1
}
memory=$(awk '/^MemAvailable/ { print int($2 / 1e6) }' /proc/meminfo)
echo "$at_once scripts, and checks of edits, at once${RT_JOBS:+, as RT_JOBS says}:" \
    "$(nproc) processors, $memory GB of memory free"

: > "$work/ci"
start ci
ci=$!
start edits
edits=$!
count ci $ci

export PROGRAM=$PWD/crates/jc_cli/out/jc_cli
# Scripts begin Python hundreds of times: one that has the standard library alone, and is found at once. To choose one
# each time, and to look at what is installed there, can take ten times as long.
if python3 -ISm venv --without-pip "$work/interpreter" > "$work/venv" 2>&1; then
    PATH=$work/interpreter/bin:$PATH
fi
echo "the scripts, and the edits that are left beside them; what they say follows when they end"
start scripts
scripts=$!
start python
python=$!
count edits $edits
count scripts $scripts
count python $python

# once more above the sum: what no tool was there for, which isn't among what passed, and what passed at a second try
grep -hE '^(skipped|failed once): ' "$work/scripts" "$work/python" | sort -u
echo "$passed passed, $failed failed"
[[ $failed -eq 0 ]]
