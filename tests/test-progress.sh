#!/usr/bin/env bash
# What a command tells on a terminal of how far it is: on standard error, a second after it began, once a second at
# most, and of a large file at once; the line is cleared before any other and at the end. Where standard error is no
# terminal there is none of it, and never in the output. And what a terminal gets of output with characters that it
# obeys, or that turn a line.
. "$(dirname "$0")/expect.sh"
. "$(dirname "$0")/shared/read_files.sh"

# on_terminal FILE COMMAND..: what the terminal gets, of which standard error is one; FILE takes the output
on_terminal() {
    python3 -B tests/shared/on_terminal.py "$@"
}
clear=$'\r\e[K'
# the same in a pattern
cleared=$'\r\e\\[K'

# a large file, of which there is something to tell before anything is counted
python3 -B - "$folder" << 'MADE'
import sys
from samples import entry_text, stream
entries = [entry_text(number, b"%06d" % number * 100_000) for number in range(1, 21)]
with open(f"{sys.argv[1]}/large", "wb") as file:
    file.write(stream(*entries))
with open(f"{sys.argv[1]}/large.export", "wb") as file:
    file.write(b"".join(entries))
MADE
"$PROGRAM" collect "$folder/large.db" "$folder/large" > "$folder/told" || differs "no large database"
size='1[0-9].[0-9] MB'
# A command that takes more than a second, as on a busy machine, tells it again.
large=$folder/large.db
told="+(${cleared}check: reads a database of $size)"
expect 0 "~$told$cleared" "" on_terminal "$folder/told" "$PROGRAM" check "$large"
[[ $(< "$folder/told") == "ok 20" ]] || differs "what check prints: $(< "$folder/told")"
expect 0 "~$told${cleared}ok 20"$'\r'"?("$'\n'"$told$cleared)" "" on_terminal - "$PROGRAM" check "$large"
expect 0 "~+(${cleared}verify: reads 12.0 MB)$cleared" "" \
    on_terminal "$folder/told" "$PROGRAM" verify export "$folder/large.export"
cp "$large" "$folder/copy.db"
expect 0 "~+(${cleared}migrate: reads and writes a database of $size)$cleared" "" \
    on_terminal "$folder/told" "$PROGRAM" migrate --tables 3 "$folder/copy.db"
for words in "check $large" "verify export $folder/large.export" "show $large"; do
    # shellcheck disable=SC2086 # these are words
    "$PROGRAM" $words > "$folder/told" 2> "$folder/why" || differs "$words"
    [[ ! -s $folder/why ]] || differs "there is no terminal, and yet: $(< "$folder/why")"
done

# what can be counted, read by a slow reader: a pipe holds 64 KiB
for words in "export $large" "show $large" "show --json $large"; do
    # shellcheck disable=SC2086 # these are words
    "$PROGRAM" $words > "$folder/wanted"
    mkfifo "$folder/pipe"
    { head -c 1300000; sleep 1.5; head -c 1300000; sleep 1.5; cat; } < "$folder/pipe" > "$folder/told" &
    SECONDS=0
    # shellcheck disable=SC2086 # these are words
    on_terminal "$folder/pipe" "$PROGRAM" $words > "$folder/seen" || differs "$words"
    most=$((SECONDS + 3))
    wait
    rm "$folder/pipe"
    cmp -s "$folder/wanted" "$folder/told" || differs "$words prints something else beside a terminal"
    [[ $(< "$folder/seen") == "$clear${words%% *}: 0"*"$clear" ]] || differs "$words begins or ends without a line"
    case $words in
        export*) grep -q 'export: [1-9]\.[0-9] MB written, of a database of 1[0-9]\.[0-9] MB' "$folder/seen" ;;
        *) grep -q 'show: [1-9][0-9]* entries, of a database of 1[0-9]\.[0-9] MB' "$folder/seen" ;;
    esac || differs "$words is told as $(< "$folder/seen")"
    [[ $(grep -o "${words%% *}:" "$folder/seen" | wc -l) -le $most ]] || differs "$words is told too often"
done

# on a terminal that has the output too, the line stands between two lines of it, and takes the place of none
on_terminal --slow - "$PROGRAM" show "$large" > "$folder/seen" || differs "show on a terminal"
python3 -B - "$folder/seen" << 'COMPARED' || differs "the line stands within another one, or nowhere"
import re
import sys
with open(sys.argv[1], "rb") as file:
    seen = file.read()
sys.exit(not re.search(rb"\n\r\x1b\[Kshow: \d+ entries", seen) or bool(re.search(rb"[^\nK]\r\x1b\[Kshow", seen)))
COMPARED

# uploads: those that are named, with how many there are, and those of a list
mkfifo "$folder/slow"
{ cat "$folder/up"; sleep 1.5; } > "$folder/slow" &
on_terminal "$folder/told" "$PROGRAM" collect "$folder/logs.db" "$folder/slow" "$folder/up" > "$folder/seen"
wait
seen=$(< "$folder/seen")
[[ $seen == *"${clear}collect: 1 of 2 uploads answered$clear"* ]] || differs "uploads: $seen"
{ cat "$folder/up"; sleep 1.5; } > "$folder/slow" &
printf '%s\n' "$folder/slow" "$folder/in" |
    on_terminal "$folder/told" "$PROGRAM" collect --files-from - "$folder/logs.db" > "$folder/seen"
wait
seen=$(< "$folder/seen")
[[ $seen == *"${clear}collect: "[12]" uploads answered"*"$clear" ]] || differs "a list: $seen"

# what takes no second says nothing; on a busy machine it may take one
for words in "check $folder/logs.db" "collect $folder/logs.db $folder/up"; do
    begun=${EPOCHREALTIME/./}
    # shellcheck disable=SC2086 # these are words
    seen=$(on_terminal "$folder/told" "$PROGRAM" $words) || differs "$words"
    [[ -z $seen || $((${EPOCHREALTIME/./} - begun)) -ge 1000000 ]] || differs "$words says $seen"
done

# a terminal gets other characters for those that Unicode calls controls, and for separators and marks of direction
python3 -B - "$folder" << 'MADE'
import sys
from samples import entry_text, stream
text = "".join(map(chr, (*range(32, 0x3000), 0xfeff, 0x1f600, *range(0xe0000, 0xe0080)))) + "\t" * 600
with open(f"{sys.argv[1]}/texts", "wb") as file:
    file.write(stream(*(entry_text(number, text[number:].encode()) for number in range(1, 6))))
MADE
"$PROGRAM" collect "$folder/texts.db" "$folder/texts" > "$folder/told" || differs "no database of texts"
for words in "show $folder/texts.db" "show --json $folder/texts.db" "export $folder/texts.db"; do
    # shellcheck disable=SC2086 # these are words
    "$PROGRAM" $words > "$folder/wanted" || differs "$words"
    for character in $'\x7f' $'\u85' $'\u202e'; do
        grep -qF "$character" "$folder/wanted" || differs "$words takes a character away where no terminal is"
    done
    # shellcheck disable=SC2016,SC2086 # the words are those of another shell
    on_terminal - bash -c '"$@" 2> /dev/null' bash "$PROGRAM" $words > "$folder/seen" || differs "$words on a terminal"
    python3 -B - "$folder/wanted" "$folder/seen" << 'COMPARED' || differs "$words: what the terminal got"
import sys
from pathlib import Path
from unicodedata import bidirectional, category
TURNING = "LRE", "RLE", "LRO", "RLO", "PDF", "LRI", "RLI", "FSI", "PDI"
def is_obeyed(character):
    if category(character) in ("Cc", "Zl", "Zp"):
        return character not in "\t\n"
    return bidirectional(character) in TURNING or character in "\u061c\u200e\u200f"
wanted = Path(sys.argv[1]).read_text("utf-8")
seen = Path(sys.argv[2]).read_bytes().decode().replace("\r\n", "\n")
others = {before for before, after in zip(wanted, seen) if before != after}
sys.exit(len(wanted) != len(seen) or others != set(filter(is_obeyed, wanted)) or any(map(is_obeyed, seen)))
COMPARED
done

# each line on standard error begins where one was cleared
expect 3 "~${cleared}cannot open $folder/gone"$'\r' "" on_terminal "$folder/told" "$PROGRAM" check "$folder/gone"
expect 3 "~${cleared}cannot open $folder/gone"$'\r\n'"${cleared}explain: $folder/gone is missing: *" "" \
    on_terminal "$folder/told" "$PROGRAM" --explain check "$folder/gone"
finish
