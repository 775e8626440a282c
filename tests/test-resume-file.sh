#!/usr/bin/env bash
# Resume files and pipes, as only a process shows them: what a failure leaves of the old file, and sources that come
# once. Rows of tests/commands have the rest.
. "$(dirname "$0")/expect.sh"

new_folder
point="resume 1 000102030405060708090a0b0c0d0e0f 1"
in=$folder/in
resume=$folder/resume
cp examples/one-entry.export "$in"
printf 'ack %s 0 1 1 0\n' $id > "$folder/answers"
samples 'upload=stream(read("examples/one-entry.export"))'

upload() { "$PROGRAM" upload --source $id --resume "$resume" "$@"; }
ack() { "$PROGRAM" ack --source $id --resume "$resume" "$@"; }

# the resume file has this one line, and nothing lies beside it
holds() {
    [[ $(cat "$resume") == "$1" ]] || differs "the resume file has '$(cat "$resume")', not '$1'"
    [[ ! -e $resume.new ]] || differs "$resume.new is left"
}

# a source that is a pipe
upload export /dev/stdin < <(cat "$in") | cmp -s - "$folder/upload" || differs "an upload of a pipe"
upload export <(cat "$in") | cmp -s - "$folder/upload" || differs "an upload of another pipe"
expect 0 "resume 1" "" ack export <(cat "$in") < "$folder/answers"
holds "$point"
expect 1 "" "bad 30 121" upload file <(cat "$in")
expect 1 "bad 30 121" "" "$PROGRAM" verify file /dev/stdin < <(cat "$in")

# standard input that can't be read
echo "$point" > "$resume"
expect 3 "" "read failed" ack export "$in" < "$folder"
holds "$point"

# what was left by a run that was stopped is written over
echo "resume" > "$resume.new"
expect 0 "resume 1" "" ack export "$in" < "$folder/answers"
holds "$point"

# a folder, a folder that isn't there, and a device that never ends
mkdir "$folder/sub"
resume=$folder/sub
expect 3 "" "read failed" upload export "$in"
resume=$folder/none/resume
expect 3 "" "write failed" ack export "$in" < "$folder/answers"
resume=/dev/zero
expect 1 "" "bad resume" upload export "$in"

# a journal file that memory has no room for
truncate -s 1G "$folder/large"
resume=$folder/resume
expect 3 "" "out of memory" bash -c \
    "ulimit -v 400000; '$PROGRAM' upload --source $id --resume '$resume' file '$folder/large'"
expect 1 "bad 31 0" "" bash -c "ulimit -v 400000; '$PROGRAM' verify file '$folder/large'"
rm "$folder/large"

# a file that may not be read, and a folder that may not be written; the superuser may do either
if [[ $(id -u) -ne 0 ]]; then
    resume=$folder/resume
    chmod 000 "$resume"
    expect 3 "" "cannot open $resume" upload export "$in"
    chmod 600 "$resume"
    resume=$folder/sub/resume
    echo "$point" > "$resume"
    chmod 500 "$folder/sub"
    expect 3 "" "write failed" ack export "$in" < "$folder/answers"
    holds "$point"
    chmod 700 "$folder/sub"
fi
finish
