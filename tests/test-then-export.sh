#!/usr/bin/env bash
# The file of `collect --then-export`, as only a process shows it: what it has beside what `export` prints, what a
# failure leaves of it, and what may be in its place.
. "$(dirname "$0")/expect.sh"

new_folder
db=$folder/db
out=$folder/out
samples 'first=stream(*map(entry_text, range(1, 3001)))' 'second=stream(*map(entry_text, range(3001, 3003)))'

collect() { "$PROGRAM" collect --then-export "$out" "$db" "$@"; }

# the file has what `export` prints, and nothing lies beside it
is_export() {
    "$PROGRAM" export "$db" | cmp -s - "$out" || differs "$1: the file isn't what export prints"
    [[ ! -e $out.new ]] || differs "$1: $out.new is left"
}
is_old() {
    [[ $(cat "$out") == before ]] || differs "$1: the file isn't as it was"
}

expect 0 "ack $id 0 3000 3000 0" "" collect "$folder/first"
is_export "a new file"
expect 0 "ok 3000 0" "" "$PROGRAM" verify export "$out"

# who reads the old file goes on reading it
exec 7< "$out"
expect 0 "ack $id 0 2 2 0" "" collect "$folder/second"
is_export "a file that was there"
expect 0 "3000" "" grep -c __CURSOR=\\\|__SEQNUM= <&7
exec 7<&-

# what was left by a run that was stopped is written over; a link becomes a file of its own
echo left > "$out.new"
echo before > "$folder/other"
ln -sf other "$out"
expect 0 "ack $id 0 2 0 0" "" collect "$folder/second"
is_export "a link"
[[ ! -L $out && $(cat "$folder/other") == before ]] || differs "a link was written through"

# a file that may not be larger
echo before > "$out"
expect 3 "ack $id 0 2 0 0" "write failed" bash -c "
    trap '' XFSZ; ulimit -f 100
    '$PROGRAM' collect --then-export '$out' '$db' '$folder/second'"
is_old "no room"
[[ ! -e $out.new ]] || differs "no room: $out.new is left"

# standard output that takes nothing: no answer was given, and nothing is written
expect 3 "" "write failed" bash -c "'$PROGRAM' collect --then-export '$out' '$db' '$folder/second' > /dev/full"
is_old "no standard output"

# a folder that may not be written; the superuser gives up the right to write it all the same
as=()
if [[ $(id -u) -eq 0 ]]; then
    as=(setpriv "--bounding-set=-dac_override,-dac_read_search")
fi
mkdir "$folder/sub"
echo before > "$folder/sub/out"
chmod 500 "$folder/sub"
if "${as[@]}" touch "$folder/sub/other" 2> "$folder/told"; then
    echo "skipped: a folder that may not be written, for this user may write each"
else
    expect 3 "ack $id 0 2 0 0" "write failed" \
        "${as[@]}" "$PROGRAM" collect --then-export "$folder/sub/out" "$db" "$folder/second"
    out=$folder/sub/out is_old "no rights"
    [[ ! -e $folder/sub/out.new ]] || differs "no rights: out.new is left"
fi
chmod 700 "$folder/sub"

# one of the uploads: it is read to its end, and then replaced
cp "$folder/second" "$folder/upload"
out=$folder/upload
expect 0 "ack $id 0 2 0 0" "" collect "$out"
is_export "one of the uploads"

# the database's own files, by whatever name: refused before anything is opened, made or changed
own=$folder/own
mkdir "$own" "$own/sub"
cp "$db" "$own/db"
cp "$folder/second" "$own/upload"
ln -s db "$own/link"
ln -s ../db "$own/sub/linked"
ln -s . "$own/here"
echo before > "$own/before"
is_unchanged() {
    local now
    now=$(cd "$own" && ls -lR --time-style=full-iso && sha256sum -- * 2> "$folder/told")
    [[ -z $seen || $now == "$seen" ]] || differs "$1: something was changed"
    seen=$now
}
refused() {
    expect 2 "" "bad export name" "$PROGRAM" collect --then-export "$1" "$2" "$own/upload"
    is_unchanged "$1 of $2"
}
seen=
is_unchanged "the beginning"
for end in "" -wal -shm -journal; do
    for name in "$own/db" "$own/./db" "$own/sub/../db" "$own/here/db"; do
        refused "$name$end" "$own/db"
        refused "$name$end" "$own/sub/../here/db"
    done
    # a database that isn't there yet
    refused "$own/here/new$end" "$own/new"
done
refused "$own/link" "$own/db"
refused "$own/db" "$own/link"
refused "$own/db-wal" "$own/link"
refused "$own/db-journal" "$own/sub/linked"
refused "$own/x" "$own/x.new"
refused "$own/here/x" "$own/x.new"
refused_in_folder() (
    mistakes=0
    cd "$own" || exit
    expect 2 "" "bad export name" "$PROGRAM" collect --then-export "$1" "$2" upload
    finish
)
refused_in_folder db "$own/db" || differs "a name without a folder"
refused_in_folder ./db-wal db || differs "a name without a folder, of the log"
is_unchanged "names without a folder"
ln "$own/db" "$own/hard"
seen=
is_unchanged "a second name"
refused "$own/hard" "$own/db"
rm "$own/hard"

# names that are only like those
for name in "$own/db-wal2" "$own/sub/db" "$own/sub/db-wal" "$own/dbx" "$own/before"; do
    out=$name db=$own/db
    expect 0 "ack $id 0 2 0 0" "" collect "$own/upload"
    is_export "$name"
done
finish
