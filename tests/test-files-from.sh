#!/usr/bin/env bash
# `collect --files-from`: lists of names in place of names among the arguments, also under a small limit on open files,
# and from a pipe that is still open. Random choices come from a seed that is printed; SEED=N makes the same again.
. "$(dirname "$0")/expect.sh"

new_folder
up=$folder/upload
db=$folder/db
list=$folder/list
samples 'upload=stream(read("examples/one-entry.export"))'
sed 's/__SEQNUM=1$/__SEQNUM=2/' "$up" > "$folder/second"
first="ack $id 0 1 1 0"
again="ack $id 0 1 0 0"
unread="no - - 61 0"

# a name that can't be opened, between others: it is answered, and the run goes on
printf '%s\n' "$up" "$folder/none" "$folder/second" > "$list"
expect 3 "$first"$'\n'"$unread"$'\n'"$first" "cannot open $folder/none" "$PROGRAM" collect --files-from "$list" "$db"
expect 0 "ok 2" "" "$PROGRAM" check "$db"
expect 0 "$again" "" "$PROGRAM" collect "$db" "$folder/second"

# the list on standard input, and the option after the database
expect 0 "$again"$'\n'"$again" "" "$PROGRAM" collect "$db" --files-from=- < <(printf '%s\n' "$up" "$folder/second")
# a last line without a newline is a name too, and a carriage return belongs to the name
expect 0 "$again" "" "$PROGRAM" collect "$db" --files-from - < <(printf '%s' "$up")
expect 3 "$unread" "cannot open $up"$'\r' "$PROGRAM" collect "$db" --files-from - < <(printf '%s\r\n' "$up")
# without `--sequences` a tab is a part of the name, too
cp "$up" "$folder/one"$'\t'"upload"
expect 0 "$again" "" "$PROGRAM" collect "$db" --files-from - < <(printf '%s/one\tupload\n' "$folder")
# an empty line is a name that no file has, so each line has its answer
expect 3 "$unread"$'\n'"$again" "cannot open " "$PROGRAM" collect "$db" --files-from - < <(printf '\n%s\n' "$up")
# a name that isn't UTF-8 can't be opened, and is printed as it was given
cp "$up" "$folder/"$'\xff'
expect 3 "$unread"$'\n'"$again" "cannot open $folder/"$'\xff' \
    "$PROGRAM" collect "$db" --files-from - < <(printf '%s/\xff\n%s\n' "$folder" "$up")
# `-` in a list, and among the arguments, is the name of a file
cp "$up" "$folder/-"
expect 0 "$again" "" env -C "$folder" "$PROGRAM" collect "$db" --files-from - < <(printf -- '-\n')
expect 0 "$again" "" env -C "$folder" "$PROGRAM" collect "$db" - < /dev/null
# a folder opens, and can't be read
expect 3 "$unread"$'\n'"$again" "" "$PROGRAM" collect "$db" --files-from - < <(printf '%s\n' "$folder" "$up")

# a list without a line: nothing is answered, and the database is made
: > "$folder/empty"
expect 0 "" "" "$PROGRAM" collect --files-from "$folder/empty" "$folder/new"
expect 0 "ok 0" "" "$PROGRAM" check "$folder/new"

# a list that can't be opened, before the database is; and one that can't be read
rm -f "$folder/new"*
expect 3 "" "cannot open $folder/none" "$PROGRAM" collect --files-from "$folder/none" "$folder/new"
[[ ! -e $folder/new ]] || differs "a database was made before the list was opened"
expect 2 "" "bad database name" "$PROGRAM" collect --files-from "$folder/none" :memory:
expect 3 "" "read failed" "$PROGRAM" collect --files-from "$folder" "$db"
expect 1 "" "bad 64 0" "$PROGRAM" collect --files-from "$list" "$up"

# a refusal among the answers, and a failure goes before it
sed 's/^MESSAGE=.*/MESSAGE=another/' "$up" > "$folder/conflict"
expect 1 "no $id 0 60 0"$'\n'"$again" "" \
    "$PROGRAM" collect --files-from - "$db" < <(printf '%s\n' "$folder/conflict" "$up")
expect 3 "$unread"$'\n'"no $id 0 60 0" "cannot open $folder/none" \
    "$PROGRAM" collect --files-from - "$db" < <(printf '%s\n' "$folder/none" "$folder/conflict")

# standard output that takes nothing: the 64 that are stored before their lines are printed stay, and no later upload is
sed 's/__SEQNUM=1$/__SEQNUM=3/' "$up" > "$folder/third"
{ echo "$up"; yes "$folder/second" | head -n 63; echo "$folder/third"; } > "$list"
expect 3 "" "write failed" bash -c "'$PROGRAM' collect '$folder/full' --files-from '$list' > /dev/full"
expect 0 "ok 2" "" "$PROGRAM" check "$folder/full"
expect 0 "~$again"$'\n'"*$again"$'\n'"$first" "" "$PROGRAM" collect "$folder/full" --files-from "$list"
printf '%s\n' "$up" "$folder/second" > "$list"

# both ways at once are a wrong command line
both="~error: the argument '--files-from <FILE>' cannot be used with '\\[UPLOAD\\]...'"
both+=$'\n\n'"Usage: journal-collect collect *"
for words in "$up --files-from $list" "--files-from $list $up" "--files-from=- -- $up"; do
    # shellcheck disable=SC2086
    expect 2 "" "$both" "$PROGRAM" collect "$folder/both" $words
done
[[ ! -e $folder/both ]] || differs "a wrong command line made a database"
expect 2 "" "~error: the argument '--files-from <FILE>' cannot be used multiple times*" \
    "$PROGRAM" collect "$db" --files-from "$list" --files-from "$list"

export PROGRAM
PYTHONPATH=tests python3 tests/collect/listed.py || differs "tests/collect/listed.py"
finish
