# shellcheck shell=bash
# What the test scripts share. `expect STATUS OUTPUT ERRORS COMMAND..` runs the command and compares; OUTPUT and ERRORS
# are a whole text without its last newline, or a pattern after `~`. Each script ends with `finish`.
set -uo pipefail
mistakes=0

differs() {
    echo "$*" >&2
    mistakes=$((mistakes + 1))
}

matches() {
    local text=$1 wanted=$2
    if [[ $wanted == "~"* ]]; then
        # shellcheck disable=SC2053 # it is a pattern
        [[ $text == ${wanted#"~"} ]]
    else
        [[ $text == "$wanted" ]]
    fi
}

expect() {
    local status=$1 output=$2 errors=$3
    shift 3
    local told errors_file
    errors_file=$(mktemp)
    told=$("$@" 2> "$errors_file")
    local got=$?
    [[ $got -eq $status ]] || differs "status $got, not $status: $*"
    matches "$told" "$output" || differs "standard output '$told', not '$output': $*"
    matches "$(cat "$errors_file")" "$errors" || differs "standard error '$(cat "$errors_file")', not '$errors': $*"
    rm -f "$errors_file"
}

# as_user COMMAND..: the command as a user whose rights count; if the superuser tries, it is as nobody.
as_user() {
    if [[ $(id -u) -ne 0 ]]; then
        "$@"
    else
        setpriv --reuid=65534 --regid=65534 --clear-groups "$@"
    fi
}

# new_folder: an empty folder, `$folder`, until the script ends.
new_folder() {
    folder=$(mktemp -d)
    trap 'chmod -R u+rwx "$folder"; rm -rf "$folder"' EXIT
}

# The id that the samples have as a source.
# shellcheck disable=SC2034 # the scripts use it
id=a0a1a2a3a4a5a6a7a8a9aaabacadaeaf

# samples NAME=EXPRESSION..: files of these names in the folder, each with what tests/samples.py makes of its words.
samples() {
    python3 -B tests/samples.py "$folder" "$@" || differs "no samples"
}

# files_in_memory: what `mktemp` makes lies in memory from now on, if there is room for it and programs may run there.
files_in_memory() {
    local room probe
    room=$(stat --file-system --format='%a * %S' /dev/shm 2> /dev/null) && ((room >= 2 << 30)) || return 0
    probe=$(mktemp /dev/shm/may-run.XXXXXX 2> /dev/null) || return 0
    printf '#!/bin/sh\n' > "$probe" && chmod +x "$probe" && "$probe" 2> /dev/null && export TMPDIR=/dev/shm
    rm -f "$probe"
}

# memory_in_large_pages: what programs take from now on. The store takes 8 MB as it opens a database; at once and in
# large pages, such a run takes two thirds of the time.
memory_in_large_pages() {
    export GLIBC_TUNABLES=glibc.malloc.hugetlb=1:glibc.malloc.top_pad=8388608
}

# well_before_midnight: five minutes of this day (UTC) are left, or the next one is waited for.
well_before_midnight() {
    local left=$((86400 - $(date +%s) % 86400))
    ((left > 300)) || sleep "$((left + 1))"
}

finish() {
    exit $((mistakes > 0))
}
