#!/usr/bin/env bash
# Collecting into a database, as only processes show it: a full disk, several collectors at once, files that can't be
# read, notes in files, and databases of the first version of the tables. What is stored is read by the stock sqlite3
# too. The random choices are the same each time; SEED chooses others, which each part prints.
. "$(dirname "$0")/expect.sh"

memory_in_large_pages
new_folder
chmod 755 "$folder"
ack="ack $id 0 1 1 0"
up=$folder/upload
db=$folder/db
samples 'upload=stream(read("examples/one-entry.export"))'
sample=$(cat examples/one-entry.export)

# an upload on standard input that can't be read
mkdir "$folder/sub"
expect 3 "no - - 61 0" "" "$PROGRAM" collect "$folder/new" < "$folder/sub"

# into_a_closed_pipe COMMAND..: nobody has the other end of its standard output any more.
into_a_closed_pipe() {
    python3 -c 'import os, signal, sys
read, write = os.pipe()
os.close(read)
os.dup2(write, 1)
signal.signal(signal.SIGPIPE, signal.SIG_DFL)
os.execv(sys.argv[1], sys.argv[1:])' "$@"
}

# standard output that nobody reads
expect 0 "$ack" "" "$PROGRAM" collect "$db" "$up"
for command in export show check; do
    expect 3 "" "write failed" into_a_closed_pipe "$PROGRAM" $command "$db"
done

# files that are no databases: a refusal changes no byte
for text in "a text of one line" "So begins another" "$(head -c 20000 "$PROGRAM" | tr -d '\0')"; do
    echo "$text" > "$folder/text"
    cp -p "$folder/text" "$folder/before"
    for command in collect export show; do
        expect 1 "" "bad 64 0" "$PROGRAM" $command "$folder/text" < "$up"
    done
    expect 1 "bad 64 0" "" "$PROGRAM" check "$folder/text"
    cmp -s "$folder/text" "$folder/before" || differs "a refusal changed ${text:0:20}"
done

# files that this user may not read or write
cp "$PROGRAM" "$folder/program"
chmod 755 "$folder/program"
if as_user "$folder/program" --version > "$folder/told" 2>&1; then
    mkdir "$folder/open" "$folder/shut"
    chmod 777 "$folder/open"
    cp "$up" "$folder/secret"
    chmod 000 "$folder/secret"
    chmod 644 "$up"
    mine=$folder/open/db
    expect 3 "" "cannot open $folder/secret" as_user "$folder/program" collect "$mine" "$up" "$folder/secret"
    [[ ! -e $mine ]] || differs "a database was made beside an upload that may not be read"
    expect 0 "$ack" "" as_user "$folder/program" collect "$mine" "$up"
    expect 3 "" "cannot open $folder/secret" as_user "$folder/program" collect "$mine" "$folder/secret"
    expect 0 "$sample" "" as_user "$folder/program" export "$mine"
    chmod 555 "$folder/shut"
    expect 3 "" "cannot open $folder/shut/db" as_user "$folder/program" collect "$folder/shut/db" "$up"
    cp "$mine" "$folder/open/secret"
    chmod 000 "$folder/open/secret"
    for command in collect export show check; do
        expect 3 "" "cannot open $folder/open/secret" as_user "$folder/program" $command "$folder/open/secret" < "$up"
    done
else
    echo "no user without rights can be had here: files that may not be read aren't tried"
fi

export PROGRAM
for part in at_once full older sequences; do
    PYTHONPATH=tests python3 "tests/collect/$part.py" || differs "tests/collect/$part.py"
done
finish
