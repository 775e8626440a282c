#!/usr/bin/env bash
# What arguments ask for, by what the program then does: which files it takes, and in which order. And the mistakes in
# arguments, by the words that stand for each kind of mistake.
. "$(dirname "$0")/expect.sh"

new_folder
most=9223372036854775807
db=$folder/db
samples 'a=stream(E1, E2)' 'b=stream(E3)' '-a=stream(entry_text(10))'

# the uploads in the order of the arguments, one of them twice; one after `--`; and the one on standard input
a=$folder/a b=$folder/b
expect 0 "ack $id 0 1 1 0"$'\n'"ack $id 0 2 2 0"$'\n'"ack $id 0 1 0 0" "" "$PROGRAM" collect "$db" "$b" "$a" "$b"
expect 0 "ack $id 0 1 1 0" "" env -C "$folder" "$PROGRAM" collect "$db" -- -a
expect 0 "ack $id 0 2 0 0" "" "$PROGRAM" collect "$db" < "$a"
expect 0 "ok 4" "" "$PROGRAM" check "$db"
"$PROGRAM" export "$db" > "$folder/all"
expect 0 "ok 4 0" "" "$PROGRAM" verify export "$folder/all"

# the numbers of the entries that `show` lists
shows() {
    local wanted=$1 told
    shift
    told=$("$PROGRAM" show "$@" | cut -d ' ' -f 2 | paste -sd ' ') || differs "show $* fails"
    [[ $told == "$wanted" ]] || differs "show $* lists '$told', not '$wanted'"
}
shows "1 2 3 10" "$db"
shows "2 3" "$db" --id 000102030405060708090a0b0c0d0e0f --from 2 --to 3
shows "" --to=0 "$db" "--from=$most"
shows "1 2 3" --to 007 "$db"

# the field that `show` has in its lines, and names that none has
first="000102030405060708090a0b0c0d0e0f 1 1000000 5"
expect 0 "$first -" "" "$PROGRAM" show "$db" --to 1 --field=_BOOT_ID
for name in "" = A=B "MESSAGE=" $'\n' $'A\nB' $'A\n' __ __CURSOR __SEQNUM; do
    expect 2 "" "bad field name" "$PROGRAM" show "$db" --field "$name"
done
for name in _ _A A__ " " $'\t' "größe" "$(printf 'A%.0s' {1..2000})"; do
    expect 0 "$first -" "" "$PROGRAM" show "$db" --to 1 --field "$name"
done

# the file of `inspect`, and that of `--then-export`
expect 0 "upload $id 0 1 0 000102030405060708090a0b0c0d0e0f 10 1" "" env -C "$folder" "$PROGRAM" inspect -- -a
expect 0 "ack $id 0 1 0 0" "" "$PROGRAM" collect "$db" "--then-export=$folder/out" < "$b"
cmp -s "$folder/all" "$folder/out" || differs "--then-export after the database"

# mistakes
missing="error: the following required arguments were not provided:"
more="error: unexpected argument 'more' found"
expect 2 "" "~$missing"$'\n'"  <DB>*" "$PROGRAM" collect
expect 2 "" "~$missing"$'\n'"  <DB>*" "$PROGRAM" export
expect 2 "" "~$missing"$'\n'"  <DB>*" "$PROGRAM" show --id 00
expect 2 "" "~$missing"$'\n'"  <FILE>*" "$PROGRAM" inspect
expect 2 "" "~$more*" "$PROGRAM" inspect file more
expect 2 "" "~error: a value is required for '--then-export <FILE>' but none was supplied*" \
    "$PROGRAM" collect db --then-export
expect 2 "" "~error: the argument '--then-export <FILE>' cannot be used multiple times*" \
    "$PROGRAM" collect db --then-export out --then-export out
for command in collect migrate; do
    for word in 1 4 02 23 key " 2"; do
        expect 2 "" "~error: invalid value '$word' for '--tables <N>'"$'\n'"  \\[possible values: 2, 3\\]*" \
            "$PROGRAM" $command --tables "$word" "$folder/none"
    done
    expect 2 "" "~error: a value is required for '--tables <N>' but none was supplied*" \
        "$PROGRAM" $command "$folder/none" --tables
    expect 2 "" "~error: the argument '--tables <N>' cannot be used multiple times*" \
        "$PROGRAM" $command "$folder/none" --tables 2 --tables 3
    expect 2 "" "~$missing"$'\n'"  <DB>*" "$PROGRAM" $command --tables 3
done
[[ ! -e $folder/none ]] || differs "a database is made though its tables are wrong"
expect 2 "" "~error: unexpected argument '--tables' found*" "$PROGRAM" check "$folder/none" --tables 2
expect 2 "" "~$more*" "$PROGRAM" export db more
expect 2 "" "~$more*" "$PROGRAM" check db more
expect 2 "" "~$more*" "$PROGRAM" show db more
expect 2 "" "~error: a value is required for '--field <NAME>' but none was supplied*" "$PROGRAM" show db --field
expect 2 "" "~error: the argument '--from <N>' cannot be used multiple times*" "$PROGRAM" show db --from 1 --from 2
expect 2 "" "~error: invalid value 'x' for '--from <N>': *" "$PROGRAM" show db --from x
expect 2 "" "~error: invalid value '-1' for '--from <N>': *" "$PROGRAM" show db --from=-1
expect 2 "" "~error: invalid value '9223372036854775808' for '--to <N>': *" "$PROGRAM" show db --to 9223372036854775808
expect 2 "" "~error: invalid value '9223372036854775808' for '--limit <N>': *" \
    "$PROGRAM" upload --limit 9223372036854775808 --source "$id" --resume r export in
expect 2 "" "~error: invalid value '9223372036854775808' for '--bytes <N>': *" \
    "$PROGRAM" upload --bytes 9223372036854775808 --source "$id" --resume r export in
expect 2 "" "~error: invalid value 'x' for '--bytes <N>': *" \
    "$PROGRAM" upload --bytes x --source "$id" --resume r export in
expect 2 "" "~error: invalid value 'other' for '<KIND>'"$'\n'"  \\[possible values: export, file\\]*" \
    "$PROGRAM" verify other in
finish
