#!/usr/bin/env bash
# The tests of deploy/journalcollect, by Debian's pytest (python3-pytest), over the program that PROGRAM names: folders
# of tests, or all. The last line is `N passed, M failed`.
#
# If SYSTEM names a folder with another system they run in that one, over its systemd, and nothing that they write in it
# stays. For tests/machine debootstrap makes it (trixie: Debian 13) with --include=dbus,netcat-openbsd,openssh-server,\
# procps,python3-pytest,strace,systemd,systemd-journal-remote.
set -uo pipefail
cd "$(dirname "$0")/.." || exit

there=()
if [[ -n ${SYSTEM-} ]]; then
    there=(systemd-nspawn --quiet --directory="$SYSTEM" --volatile=overlay --private-network --register=no --keep-unit)
    there+=(--pipe --as-pid2 --bind=/tmp --bind-ro="$PWD" --chdir="$PWD")
    there+=(--bind-ro="$PROGRAM" --setenv=JOURNAL_COLLECT="$PROGRAM")
fi
if ! "${there[@]}" /usr/bin/python3 -c 'import pytest' 2> /dev/null; then
    echo "skipped: python3-pytest isn't installed, so the tests of deploy/journalcollect aren't run"
    echo "0 passed, 0 failed"
    exit 0
fi
if [[ $# -eq 0 ]]; then
    set -- tests/*/conftest.py
    set -- "${@%/conftest.py}"
fi
work=$(mktemp -d)
said=$work/said
trap 'rm -rf "$work"' EXIT
export JOURNAL_COLLECT=$PROGRAM

# how many are told so in the last line of a run, which is pytest's own count
count() { tail -n 1 "$said" | grep -oE "\\b[0-9]+ ($1)\\b" | awk '{ sum += $1 } END { print sum + 0 }'; }

# Runs tests, and adds what passed.
run() {
    "${there[@]}" /usr/bin/python3 -B -m pytest -q -rfEs -o cache_dir="$work/cache" "$@" | tee "$said"
    status=${PIPESTATUS[0]}
    sed -n 's/^SKIPPED/skipped:/p' "$said"
    passed=$((passed + $(count passed)))
}
passed=0
failed=0
# each folder by itself, since each has a conftest of its own
for folder; do
    run "$folder"
    # on a slow machine some fail beside all others: they are run once more, by themselves, and that they failed is told
    if [[ $status -eq 1 ]]; then
        sed -nE 's/^(FAILED|ERROR)/failed once:/p' "$said"
        run --last-failed "$folder"
    fi
    of_folder=$(count 'failed|errors?')
    if [[ $status -ne 0 && $of_folder -eq 0 ]]; then
        echo "FAILED: $folder: status $status"
        of_folder=1
    fi
    failed=$((failed + of_folder))
done
echo "$passed passed, $failed failed"
[[ $failed -eq 0 ]]
