#!/usr/bin/env bash
# Journal files and exports that systemd itself wrote (tests/fixtures says how each was made): what `verify` says of
# them, how `collect` answers them, and what `export` then writes. What is expected is what journalctl printed of it.
. "$(dirname "$0")/expect.sh"

fixtures=$PWD/tests/fixtures
fit_stream=$PWD/deploy/programs/fit-stream
tests=$PWD/tests
source=a0a1a2a3a4a5a6a7a8a9aaabacadaeaf
# as many entries as entries.py writes
count=6
new_folder
cd "$folder" || exit 1

# unpack NAME: the journal file
unpack() {
    gzip -dc "$there/$1.journal.gz" > file
}

# fit: the export of the regular one as a stream whose entries have their keys
fit() {
    cp "$there/regular.export" stream
    if [[ $version -lt 254 ]]; then
        expect 1 "bad 23 0" "" "$PROGRAM" verify export stream
        "$fit_stream" < "$there/regular.export" > stream
    fi
}

# upload KIND IN: writes the upload of all entries
upload() {
    "$PROGRAM" upload --source "$source" --resume none --limit 1000 "$1" "$2"
}

# exports DATABASE: what it exports is what the stream says
exports() {
    "$PROGRAM" export "$1" > exported || differs "export $1"
    PYTHONPATH=$tests python3 -B "$tests/collect/expected_text.py" < stream > expected || differs "the expected text"
    cmp exported expected || differs "what $1 exports"
}

# refuses CODE: the file isn't read, whatever is done with it
refuses() {
    expect 1 "bad $1 12" "" "$PROGRAM" verify file file
    expect 1 "" "bad $1 12" upload file file
    { head -c 48 whole.upload; cat file; } > refused.upload
    expect 1 "no $source 0 $1 12" "" "$PROGRAM" collect refused.db refused.upload
    expect 0 "ok 0" "" "$PROGRAM" check refused.db
}

for version in 252 254 257; do
    there=$fixtures/systemd-$version
    unpack regular
    fit
    expect 0 "ok $count 0" "" "$PROGRAM" verify file file
    upload file file > whole.upload || differs "the upload of a file"
    expect 0 "ack $source 0 $count $count 0" "" "$PROGRAM" collect file.db whole.upload
    exports file.db
    expect 0 "ok $count 0" "" "$PROGRAM" verify export stream
    upload export stream > stream.upload || differs "the upload of a stream"
    expect 0 "ack $source 0 $count $count 0" "" "$PROGRAM" collect stream.db stream.upload
    exports stream.db
    # a file and an export of it give the same entries, whichever comes first
    expect 0 "ack $source 0 $count 0 0" "" "$PROGRAM" collect file.db stream.upload
    expect 0 "ack $source 0 $count 0 0" "" "$PROGRAM" collect stream.db whole.upload

    unpack compact
    refuses 34
    unpack compressed
    refuses 33
    rm -f ./*.db*
done
finish
