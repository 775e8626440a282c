#!/usr/bin/env bash
# `make install` puts the program, its man page, and the documents that the page names below PREFIX. It starts no build
# (-o: the program isn't made anew). The installed program prints its version, and does the demo as the README shows it.
. "$(dirname "$0")/expect.sh"

new_folder
program=$folder/usr/bin/journal-collect
page=$folder/usr/share/man/man1/journal-collect.1

expect 0 "~*" "" env -u MAKEFLAGS -u MAKELEVEL make -o crates/jc_cli/out/jc_cli install DESTDIR="$folder" PREFIX=/usr
[[ $(stat -c %a "$program") == 755 ]] || differs "the program's mode"
[[ $(stat -c %a "$page") == 644 ]] || differs "the page's mode"
cmp "$program" "$PROGRAM" || differs "the program installed"
cmp "$page" docs/journal-collect.1 || differs "the page installed"
cmp "$folder/usr/share/doc/journal-collect/README.md" README.md || differs "the README installed"
for name in GUIDE FORMATS FORWARDING PERFORMANCE; do
    cmp "$folder/usr/share/doc/journal-collect/$name.md" "docs/$name.md" || differs "the document installed"
done
expect 0 "journal-collect 0.1.0" "" "$program" --version

# what is taken away again is all but the settings
copy=$folder/copy
install_by() { env -u MAKEFLAGS -u MAKELEVEL make -o crates/jc_cli/out/jc_cli "$1" DESTDIR="$copy" PREFIX=/usr; }
expect 0 "~*" "" install_by install
expect 0 "~*" "" install_by uninstall
left=$(cd "$copy" && find . -not -type d -not -path './etc/journal-collect/*')
[[ -z $left ]] || differs "left by make uninstall: $left"

# the commands after `make install`, with a stand-in for journalctl that prints what the real one wrote
mkdir "$folder/stand-in"
printf '#!/bin/sh\n[ "$*" = --output=export ] && cat "%s/tests/fixtures/systemd-254/regular.export"\n' "$PWD" \
    > "$folder/stand-in/journalctl"
chmod 755 "$folder/stand-in/journalctl"
commands=$(sed -n '/^make install /,/^```$/p' README.md | sed "1d;\$d;s#/usr/local#$folder/usr#")
expect 0 "ok 6 0" "" env -C "$folder" PATH="$folder/stand-in:$folder/usr/bin:$PATH" bash -ec "$commands"

# the block of the quick start from its first prompt after `make demo`
shown=$(sed -n '/^\$ make demo$/,/^```$/p' README.md | sed '1d;$d')
expect 0 "$shown" "" bash examples/demo.sh "$program"
finish
