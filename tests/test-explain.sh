#!/usr/bin/env bash
# `--explain`: each cause is told for a file that has it, each code with what it means, and what had no complete entry;
# the lines of answers and errors, and the status, are those of the same call without the option.
. "$(dirname "$0")/expect.sh"
. "$(dirname "$0")/shared/read_files.sh"
python3 -B - "$folder" << 'MADE'
import sqlite3
import sys
folder = sys.argv[1]
other = sqlite3.connect(f"{folder}/other.db")
other.execute("CREATE TABLE t(x)")
other.commit()
other.execute("PRAGMA journal_mode = WAL")
other.close()
none = sqlite3.connect(f"{folder}/none.db")
none.execute("CREATE TABLE t(x)")
none.execute("DROP TABLE t")
none.commit()
none.close()
MADE

# explains STATUS OUTPUT ERRORS EXPLANATION WORD..: the call as it is without the option, and then with it at each end
# of the words. Without an EXPLANATION there is none.
explains() {
    local status=$1 output=$2 errors=$3 explanation=$4 all
    shift 4
    expect "$status" "$output" "$errors" "$PROGRAM" "$@"
    all=${errors:+$errors$'\n'}explain:\ $explanation
    [[ -n $explanation ]] || all=$errors
    expect "$status" "$output" "~$all" "$PROGRAM" --explain "$@"
    expect "$status" "$output" "~$all" "$PROGRAM" "$@" --explain
}

# why a database can't be opened
db=$folder/logs.db
mkdir "$folder/sub"
cp "$db" "$folder/twice.db"
ln "$folder/twice.db" "$folder/sub/second.db"
cp "$db" "$folder/played.db"
printf 'x' > "$folder/played.db-journal"
explains 3 "" "cannot open $folder/gone.db" "$folder/gone.db is missing: *" check "$folder/gone.db"
for name in "$folder/gone/logs.db" "$folder/up/logs.db"; do
    explains 3 "" "cannot open $name" "$name is missing: *" check "$name"
done
explains 3 "" "cannot open $folder/gone/logs.db" "$folder/gone/logs.db is missing, and can't be made: *" \
    collect "$folder/gone/logs.db" "$folder/up"
explains 3 "" "cannot open $folder/sub" "$folder/sub is a folder: *" collect "$folder/sub" "$folder/up"
explains 3 "" "cannot open /dev/null" "/dev/null is not a regular file: *" show /dev/null
explains 3 "" "cannot open $folder/empty" "$folder/empty is empty: *" migrate "$folder/empty"
explains 3 "" "cannot open $folder/none.db" "$folder/none.db is a database without tables: *" check "$folder/none.db"
for name in "$folder/twice.db" "$folder/sub/second.db"; do
    explains 3 "" "cannot open $name" "$name has a second name *" check "$name"
done
explains 3 "" "cannot open $folder/played.db" "$folder/played.db can't be opened to be written: *rollback journal*" \
    check "$folder/played.db"
mkfifo "$folder/pipe"
explains 3 "" "cannot open $folder/pipe" "$folder/pipe is not a regular file: *" collect "$folder/pipe" "$folder/up"

# one that another program has open: this one holds it while it waits for the name of an upload
mkfifo "$folder/names"
"$PROGRAM" collect --files-from "$folder/names" "$db" > "$folder/told" &
exec 9> "$folder/names"
while [[ ! -e $db-wal ]]; do sleep 0.1; done
explains 3 "" "cannot open $db" "$db is in use by another program: *" check "$db"
exec 9>&-
wait

# who may read and write
sequence=000102030405060708090a0b0c0d0e0f
echo "$folder/up" > "$folder/list"
cp "$PROGRAM" "$folder/program"
chmod 755 "$folder" "$folder/program"
if as_user "$folder/program" --version > "$folder/told" 2>&1; then
    mkdir "$folder/shut"
    for name in secret.db kept.db shut/kept.db; do cp "$db" "$folder/$name"; done
    chmod 000 "$folder/secret.db"
    chmod 444 "$folder/kept.db" "$folder/shut/kept.db"
    chmod 555 "$folder/shut"
    for row in "secret.db may not be read" "kept.db can't be opened to be" "shut/kept.db can't be opened to be"; do
        read -r name told <<< "$row"
        expect 3 "" "~cannot open $folder/$name"$'\n'"explain: $folder/$name $told *" \
            as_user "$folder/program" --explain check "$folder/$name"
    done
    chmod 777 "$folder/shut/kept.db"
    expect 3 "" "~*$folder/shut/kept.db can't be opened to be written: *" \
        as_user "$folder/program" --explain check "$folder/shut/kept.db"
    expect 3 "" "~*$folder/shut/new.db is missing, and can't be made: *" \
        as_user "$folder/program" --explain collect "$folder/shut/new.db" "$folder/up"
    expect 3 "" "~*$folder/secret.db may not be read *" \
        as_user "$folder/program" --explain verify export "$folder/secret.db"
    mkdir -m 777 "$folder/open" "$folder/open/notes" "$folder/open/notes/$sequence"
    mkdir -m 000 "$folder/shut/notes"
    touch "$folder/open/notes/$sequence/0"
    told="may not be read or written by this user: see its rights and those of its folders"
    noted=(--files-from "$folder/list" "$folder/open/union.db")
    expect 3 "" "cannot open $folder/shut/notes"$'\n'"explain: $folder/shut/notes $told" \
        as_user "$folder/program" --explain collect --sequences "$folder/shut/notes" "${noted[@]}"
    chmod 000 "$folder/open/notes/$sequence/0"
    expect 3 "no $id 0 62 0" "store failed"$'\n'"explain: the file of notes $folder/open/notes/$sequence/0 $told" \
        as_user "$folder/program" --explain collect --sequences "$folder/open/notes" "${noted[@]}"
else
    echo "skipped: nobody can't run programs here, so it isn't tried what another user is told"
fi

# what is no journal's database
explains 1 "bad 64 0" "" "64 NotAJournal *: $folder/garbage is no SQLite database, *" \
    check "$folder/garbage"
explains 1 "bad 64 0" "" "64 NotAJournal *: $folder/other.db is an SQLite database with other tables *" \
    check "$folder/other.db"
explains 1 "" "bad 64 0" "64 NotAJournal *: $folder/garbage is no SQLite database*" export "$folder/garbage"

# files that are read
explains 3 "" "cannot open $folder/gone" "$folder/gone is missing: *" verify export "$folder/gone"
explains 3 "" "read failed" "a file or standard input gave no more bytes: is it a folder, *" verify export "$folder/sub"
explains 0 "ok 0 8" "" "no entry is complete: the 8 bytes *" verify export "$folder/prose"
explains 0 "ok 0 0" "" "there was nothing to read: *" verify export "$folder/empty"
explains 0 "ok 2 0" "" "" verify export "$folder/in"
# shellcheck disable=SC2016 # the blank quotes are the table's
explains 1 "bad 23 0" "" '23 NoSeqnum (`__SEQNUM` is missing): *`fit-stream`*' verify export "$folder/no-number"
# shellcheck disable=SC2016 # as above
explains 1 "bad 2 0" "" '2 BadMagic (an upload begins with neither `JCUPLD01` nor `JCUPLD02`): *' \
    inspect "$folder/garbage"
explains 0 "upload $id 0 0 12 - - 0" "" "no entry is complete: the 12 bytes *" inspect "$folder/cut-up"

# answers; each code is explained once, and not what came of an upload that was stored
explains 1 "no $id 0 60 0" "" "60 Conflict (*): *" collect "$db" "$folder/changed"
explains 0 "ack $id 0 2 0 0" "" "" collect "$db" "$folder/up"
explains 0 "ack $id 0 0 0 12" "" "no entry is complete: the 12 bytes *" collect "$db" "$folder/cut-up"
expect 1 "no - - 2 0"$'\n'"no $id 0 60 0"$'\n'"no - - 2 0" "~explain: 2 BadMagic *"$'\n'"explain: 60 Conflict *" \
    "$PROGRAM" collect --explain "$db" "$folder/garbage" "$folder/changed" "$folder/garbage"
"$PROGRAM" collect --explain "$db" "$folder/garbage" "$folder/changed" "$folder/garbage" \
    > "$folder/told" 2> "$folder/why"
[[ $(wc -l < "$folder/why") -eq 2 ]] || differs "a code is explained twice"

# what is on standard output of the others is no answer, whatever is in it
"$PROGRAM" show --explain "$db" > "$folder/told" 2> "$folder/why" || differs "show"
[[ ! -s $folder/why ]] || differs "what show lists is explained"

# a cause is what was seen as the file was asked for: one of these is there before the run ends
mkfifo "$folder/more"
"$PROGRAM" collect --explain --files-from "$folder/more" "$db" > "$folder/told" 2> "$folder/why" &
exec 9> "$folder/more"
printf '%s\n' "$folder/late" "$folder/gone" >&9
while (($(wc -l < "$folder/told") < 2)); do sleep 0.1; done
cp "$folder/up" "$folder/late"
exec 9>&-
wait
matches "$(< "$folder/why")" "~*explain: $folder/late is missing: *explain: $folder/gone is missing: *" \
    || differs "a file that is mended before the run ends: $(< "$folder/why")"

# the notes of sequences: the file of them that failed is named, or their folder, and not the database
notes=$folder/notes
noted=(--sequences "$notes" --files-from "$folder/list" "$folder/union.db")
expect 0 "ack $id 0 2 2 0" "" "$PROGRAM" collect "${noted[@]}"
explains 3 "" "cannot open $folder/up" "$folder/up is to be a folder, or to lie in one, and something else is *" \
    owners --sequences "$folder/up"
explains 3 "" "cannot open $folder/gone/notes" "$folder/gone/notes is missing: *" \
    owners --sequences "$folder/gone/notes"
exec 9< "$notes"
flock 9
explains 3 "" "cannot open $notes" "$notes is in use by another program: *" collect "${noted[@]}"
exec 9<&-
mv "$notes/$sequence/0" "$folder/kept"
mkdir "$notes/$sequence/0"
explains 3 "" "store failed" \
    "the file of notes $notes/$sequence/0 is no regular file with one name: put back the one that was there" \
    collect "${noted[@]}"
rmdir "$notes/$sequence/0"
mv "$folder/kept" "$notes/$sequence/0"

# what has no more room: notes, as a sequence is claimed and as the run ends, and the database
mkdir "$folder/small"
small() {
    # shellcheck disable=SC2016 # the shell in there expands it
    unshare --mount bash -c 'mount -t tmpfs -o size=4k none "$0" && head -c 4096 /dev/zero > "$0/rest" && exec "$@"' \
        "$folder/small" "$@"
}
if small true 2> "$folder/told"; then
    full="~store failed
explain: the file of notes $folder/small/$sequence/* has no more room: look at the space on its disk"
    noted=(--sequences "$folder/small" --files-from "$folder/list")
    expect 3 "ack $id 0 2 2 0" "$full" small "$PROGRAM" collect --explain "${noted[@]}" "$folder/first.db"
    printf 'web\t%s\n' "$folder/up" > "$folder/list"
    expect 3 "no $id 0 62 0" "$full" small "$PROGRAM" collect --explain "${noted[@]}" "$folder/second.db"
else
    echo "skipped: no small disk can be made here, so it isn't tried what is told of notes on one that is full"
fi
samples later="stream(entry_text(7))"
echo "$folder/later" > "$folder/list"
expect 3 "no $id 0 62 0" "store failed
explain: 62 StoreFailed (the database failed; the upload may be stored whole): look at the disk of the database, \
see whether \`check\` finds its rows well, and send it again
explain: the database failed while it was read or written: look at the space on its disk, and at the disk" \
    bash -c 'trap "" XFSZ; ulimit -f 1; exec "$@"' - "$PROGRAM" collect --explain --sequences "$notes" \
    --files-from "$folder/list" "$folder/union.db"

# failures that name no file
source=(--source "$id" --resume "$folder/resume" export "$folder/in")
explains 1 "" "bad resume" "the resume file has something else in it: *" upload "${source[@]}"
rm "$folder/resume"
explains 2 "" "bad id" "an id is 32 hexadecimal digits: *" show "$db" --id a0
explains 2 "" "bad field name" "a field's name has no *" show "$db" --field A=B
explains 2 "" "bad database name" "SQLite takes a name *" check file:logs.db
explains 2 "" "bad export name" "the export would take the place *" collect --then-export "$db" "$db" "$folder/up"
expect 3 "" "~write failed"$'\n'"explain: standard output *" \
    bash -c "'$PROGRAM' --explain verify export '$folder/in' > /dev/full"
expect 1 "" "~bad answer 1"$'\n'"explain: this line of standard input is no answer: *" \
    "$PROGRAM" --explain ack "${source[@]}" <<< "prose"

# where the option stands, and where it is no option
expect 0 "ok 2 0" "" env -C "$folder" "$PROGRAM" verify --explain export in
cp "$folder/in" "$folder/--explain"
expect 0 "ok 2 0" "" env -C "$folder" "$PROGRAM" verify export -- --explain
expect 2 "" "~error: unexpected argument '--explain' found*" "$PROGRAM" --explain check "$db" --explain
expect 0 "~*Usage: journal-collect \[--explain\] *<COMMAND>*" "" "$PROGRAM" --help
expect 0 "~*Usage: journal-collect \[--explain\] *<COMMAND>*" "" "$PROGRAM" --explain --help
finish
