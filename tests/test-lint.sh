#!/usr/bin/env bash
# The texts of the repository are as tools/lint wants them. A text with each kind of mistake is told line by line, what
# the list of exceptions names is passed over while it is needed, and a program that isn't installed is told as skipped.
. "$(dirname "$0")/expect.sh"
cd "$(dirname "$0")/.." || exit

new_folder

python=$(python3 -c 'import sys; print(sys.executable)')

# lint FOLDER..: where every other program is that there is; lint_alone FOLDER: where there is none
lint() {
    "$python" -ESB tools/lint "$@"
}

lint_alone() {
    PATH=$folder/none lint "$1"
}

# the repository itself; what is skipped is said by the gate too
if ! lint . > "$folder/said"; then
    differs "the texts of the repository: $(cat "$folder/said")"
fi
grep '^skipped: ' "$folder/said"

# each mistake that is found without another program, and texts that come near to one
mkdir -p "$folder/tree/tools/lint" "$folder/tree/out" "$folder/tree/build" "$folder/none"
(
    cd "$folder/tree" || exit
    printf '%0120d\n%0121d\n' 0 0 > width.md
    printf 'ä%.0s' {1..120} > width-of-characters.md && echo >> width-of-characters.md
    printf 'a \nb\tc\n' > blanks.md
    printf 'no end' > end.md
    printf 'two ends\n\n' > ends.md
    printf 'all:\n\techo\n' > Makefile
    printf 'zero\0\t' > data
    printf '\xff\t' > latin
    printf '\t' > out/built
    printf '\t' > build/built
    ln -s blanks.md link.md
    printf '%s\n' '#!/bin/sh' 'if true; then' '  echo "' ' one"' '    cat << end' ' one' 'end' 'fi' > steps
    printf '%s\n' 'def one(a, *b: int) -> None: ...' 'def _two(a): ...' \
        'class Three:' '    def four(self): ...' > types.py
    printf 'def five(\n' > broken.py
)
found="blanks.md:1: blanks at the end (blanks)
blanks.md:2: a tab (blanks)
broken.py:1: it isn't Python: '(' was never closed (types)
end.md:1: the last line has no end (blanks)
ends.md:2: an empty line at the end (blanks)
steps:3: it begins at no step of 4 blanks (steps)
types.py:1: one has no type for a (types)
types.py:4: four has no type for what it returns (types)
width.md:2: 121 characters, and at most 120 are read at once (width)
skipped: shellcheck isn't installed, so 1 texts of shell aren't read by it
skipped: pyflakes3 isn't installed, so 2 texts of python aren't read by it
skipped: rattle isn't installed, so 0 texts of rattle aren't read by it"
expect 1 "$found
9 texts: 9 mistakes, 0 exceptions, 3 checks skipped" "" lint_alone "$folder/tree"

# what a library calls public and doesn't hand on; a module that it opens, and a program, may call all so
mkdir -p "$folder/library/crates/lends/src" "$folder/library/crates/runs/src"
(
    cd "$folder/library/crates" || exit
    printf '%s\n' 'mod closed;' 'pub mod open;' 'mod other;' 'pub use closed::{' '    Lent as Given, lend,' '};' \
        'pub use closed::back;' 'pub use other::kept;' > lends/src/lib.rt
    printf '%s\n' 'pub struct Lent;' 'pub enum Kept {}' 'pub fn lend() {}' 'pub fn back() {}' 'fn own() {}' \
        'pub(crate) fn near() {}' 'impl Lent {' '    pub fn inside(&self) {}' '}' 'pub const fn kept() {}' \
        > lends/src/closed.rt
    printf 'pub fn seen() {}\n' > lends/src/open.rt
    printf 'pub fn kept() {}\n' > lends/src/other.rt
    printf 'mod steps;\n' > runs/src/main.rt
    printf 'pub fn step() {}\n' > runs/src/steps.rt
)
expect 1 "~crates/lends/src/closed.rt:2: Kept is pub, and lib.rt doesn't hand it on (visible)
crates/lends/src/closed.rt:10: kept is pub, and lib.rt doesn't hand it on (visible)
*
6 texts: 2 mistakes, *" "" lint_alone "$folder/library"

# what the list names is passed over; a line of it that isn't needed is a mistake, but not for a check that was skipped
exceptions=$folder/tree/tools/lint/exceptions.txt
printf '%s\n' '# why' 'blanks *.md they are old' 'types *.py so are they' 'steps steps as well' 'width width.md too' \
    'shell steps old' > "$exceptions"
expect 0 "~*
10 texts: 0 mistakes, 5 exceptions, 3 checks skipped" "" lint_alone "$folder/tree"
sed -i 's/width\.md/another.md/' "$exceptions"
expect 1 "~tools/lint/exceptions.txt:5: nothing is to be passed over in another.md: take the line away (width)
width.md:2: *
10 texts: 2 mistakes, *" "" lint_alone "$folder/tree"
echo 'width width.md' >> "$exceptions"
expect 1 "" "~*/tools/lint/exceptions.txt:7: a line has a check, a pattern of paths and a reason" lint "$folder/tree"

# what other programs find, where they are installed; one that ends without a word is a mistake too
rm -r "$folder/tree"
mkdir "$folder/tree" "$folder/programs"
# shellcheck disable=SC2016
printf '#!/bin/sh\ncd $1\n' > "$folder/tree/careless"
printf 'import os\n' > "$folder/tree/careless.py"
if command -v shellcheck > "$folder/said"; then
    expect 1 "~careless:2: *SC2164* (shell)*" "" lint "$folder/tree"
fi
if command -v pyflakes3 > "$folder/said"; then
    expect 1 "~*careless.py:1: 'os' imported but unused (python)*" "" lint "$folder/tree"
fi
mkdir "$folder/crates"
printf 'fn  one() {}\n' > "$folder/crates/spread.rt"
printf 'fn two( {\n' > "$folder/crates/open.rt"
printf 'fn three() {}\n' > "$folder/crates/laid.rt"
if command -v rattle > "$folder/said"; then
    expect 1 "~open.rt:1: it does not parse: *unclosed delimiter* (layout)
spread.rt:1: is not in the layout (layout)
3 texts: 2 mistakes, *" "" lint "$folder/crates"
fi
printf '#!/bin/sh\nexit 3\n' > "$folder/programs/shellcheck"
printf '#!/bin/sh\necho lost >&2\n' > "$folder/programs/pyflakes3"
chmod 755 "$folder"/programs/*
PATH=$folder/programs:$PATH
expect 1 "$folder/programs/pyflakes3:1: status 0: lost (python)
$folder/programs/shellcheck:1: status 3:  (shell)
2 texts: 2 mistakes, 0 exceptions, 0 checks skipped" "" lint "$folder/tree"
finish
