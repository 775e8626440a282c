#!/usr/bin/env bash
# The documents agree with each other, with the sources and with the program: one version, one toolchain, one table of
# codes and of limits, all crates in the list, scripts that say what they test, the number of edits, each of which names
# a goal, one table of the figures to plan with, links to headings that are there, and pages that stay short. Each file
# says what it is about (`make files`).
. "$(dirname "$0")/expect.sh"

new_folder
other=$folder/other
printf '#!/bin/sh\necho journal-collect 0.0.0\n' > "$other"
chmod 755 "$other"

expect 0 "" "" python3 -B tests/documents.py "$PROGRAM"
expect 0 "~*
tests/test-stops.sh: The program stopped at *" "" python3 -ESB tools/files.py
expect 1 "" "~versions: *'--version': '0.0.0'*" python3 -B tests/documents.py "$other"

# a copy in which one thing after another is wrong
changed() {
    local file=$1 change=$2 said=$3
    rm -rf "$folder/tree"
    mkdir -p "$folder/tree/crates/jc_base/specs" "$folder/tree/tests" "$folder/tree/tools" "$folder/tree/deploy"
    cp -r README.md CHANGELOG.md CONTRIBUTING.md crates.txt docs "$folder/tree/"
    cp -r deploy/settings "$folder/tree/deploy/"
    cp --parents deploy/journalcollect/common/{program,fit}.py "$folder/tree/"
    cp --parents crates/*/refused/*.edit "$folder/tree/"
    cp crates/jc_base/specs/Fault.antt "$folder/tree/crates/jc_base/specs/"
    cp --parents crates/jc_collector/specs/Inspected.antt "$folder/tree/"
    cp tests/test-*.sh "$folder/tree/tests/"
    cp tools/kit.py "$folder/tree/tools/"
    sed -i -E "$change" "$folder/tree/$file"
    expect $((${#said} > 0)) "" "$said" python3 -B tests/documents.py "$PROGRAM" "$folder/tree"
}
changed README.md '' ''
changed README.md 's/rattle-kit-\w+/rattle-kit-1/' "README.md is for rattle-kit-1, which tools/kit.py doesn't know"
changed README.md '1s/^/\n/;1s/$/\n'"$(printf '\\n%.0s' {1..200})"'/' "~README.md has more than 200 lines*"
changed docs/FAULTS.md '$a '"$(printf '\\n%.0s' {1..1000})" "~the documents have *, and at most 3000 are read"
changed docs/PROOFS.md 's/rattle-kit-\w+//' "docs/PROOFS.md is for None, which tools/kit.py doesn't know"
changed crates.txt 's/^jc_file:/jc_files:/' \
    "docs/ARCHITECTURE.md: the crate jc_file isn't both there and listed
docs/ARCHITECTURE.md: the crate jc_files isn't both there and listed"
changed docs/ARCHITECTURE.md 's/`test-stops.sh`/`test-stop.sh`/' \
    "docs/ARCHITECTURE.md: there is no script test-stop.sh"
changed tests/test-stops.sh '2s/^.*$/set -u/' "tests/test-stops.sh doesn't begin with what it tests"
changed docs/GUIDE.md '$a An open takes 9.9 ms and 4.4\nkB of memory an entry, at 9,999 entries in a second.' \
    "docs/GUIDE.md: the figure '9,999 entries' isn't in the table of docs/PERFORMANCE.md
docs/GUIDE.md: the figure '9.9 ms' isn't in the table of docs/PERFORMANCE.md"
changed deploy/settings/collector.conf '$a # 1,234 bytes for each entry, and 7.5 million entries a day' \
    "deploy/settings/collector.conf: the figure '1,234 bytes' isn't in the table of docs/PERFORMANCE.md
deploy/settings/collector.conf: the figure '7.5 million' isn't in the table of docs/PERFORMANCE.md"
changed docs/PERFORMANCE.md 's/^## A machine.s commands$/&\n\nIt takes 9.8 ms an entry./' \
    "docs/PERFORMANCE.md, A machine's commands: the figure '9.8 ms' isn't in the table of docs/PERFORMANCE.md"
changed docs/PERFORMANCE.md 's/^## Limits$/## Bounds/' "~docs/PERFORMANCE.md has no part 'Limits'*"
changed docs/PERFORMANCE.md 's/^## Figures to plan with$/## Others/' \
    "~docs/PERFORMANCE.md has no figures under 'Figures to plan with'*"
changed docs/GUIDE.md 's/\]\(#at-three-in-the-morning\)/](#at-four)/' "docs/GUIDE.md: there is no #at-four"
changed docs/GATE.md 's/^There are [0-9]+\.$/There are 7./' "~docs/GATE.md tells of 7 edits, and there are *"
changed crates/jc_base/refused/limit-off-by-one.edit '/^goal:/d' \
    "crates/jc_base/refused/limit-off-by-one.edit names no goal that has to refuse it"
changed docs/FORMATS.md 's/^\| 60 \|/| 59 |/' "~code (59, *code (60, *"
changed docs/FORMATS.md 's/^(\| value \| .* )[0-9,]+ \|$/\17 |/' \
    "deploy/journalcollect/common/fit.py has other limits than docs/FORMATS.md"
changed deploy/journalcollect/common/program.py 's/OVER_BOUNDS = 6/OVER_BOUNDS = 7/' \
    "deploy/journalcollect/common/program.py: 7 isn't OVER_BOUNDS in docs/FORMATS.md"
finish
