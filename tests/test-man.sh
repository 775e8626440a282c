#!/usr/bin/env bash
# The man pages: each is as tools/man_pages.py makes it, is read without a warning, and is installed; units name pages
# that are there; there is one of each program and each settings file; and these have the settings that the programs
# take, and the defaults of these.
. "$(dirname "$0")/expect.sh"

new_folder
expect 0 "" "" python3 -ESB tools/man_pages.py --check
deploy/install.sh "$folder" /usr || differs "the programs aren't installed"
pages=$folder/usr/share/man
install -D docs/journal-collect.1 "$pages/man1/journal-collect.1"

for page in "$pages"/man?/*; do
    if command -v man > "$folder/told" && command -v groff > "$folder/told"; then
        expect 0 "~*" "" env LC_ALL=C.UTF-8 MANWIDTH=80 man --warnings -E UTF-8 -l -Tutf8 -Z "$page"
    fi
    if command -v mandoc > "$folder/told"; then
        expect 0 "" "" mandoc -T lint -W warning "$page"
    fi
done
for tool in man mandoc; do
    command -v $tool > "$folder/told" || echo "skipped: $tool isn't installed, so it doesn't read the man pages"
done

# pages that pages and units name, and a page for each program and each settings file
there() { [[ -e $pages/man$2/$1.$2 ]]; }
while read -r _ name section _; do
    [[ $name != journal-collect* ]] || there "$name" "$section" || differs "there is no page $name($section)"
done < <(grep -h '^\.Xr' "$pages"/man?/*)
for unit in deploy/units/*.{service,socket,timer}; do
    page=$(sed -n 's/^Documentation=man:\([^ ]*\).*/\1/p' "$unit")
    name=${page%(*} section=${page#*(}
    [[ $name != journal-collect* ]] || there "$name" "${section%)}" || differs "$unit: there is no page $page"
done
for program in deploy/programs/*; do
    name=journal-collect-${program##*/}
    name=${name/journal-collect-journal-/journal-}
    compgen -G "$pages/man?/$name.?" > "$folder/told" || differs "no page is about $name"
done
for conf in deploy/settings/*.conf; do
    there "journal-collect-${conf##*/}" 5 || differs "there is no page of ${conf##*/}"
done

# each setting stands in its file, with its default, and there are few
PYTHONPATH=deploy expect 0 "" "" python3 -B - << 'END_OF_PYTHON'
import dataclasses, re, sys
from journalcollect.collector.settings import Settings as Collector
from journalcollect.forward.settings import Settings as Forward
from journalcollect.machine.settings import Settings as Machine
count = 0
for name, kind in (("machine", Machine), ("collector", Collector), ("forward", Forward)):
    told = dict(re.findall(r"^#?([A-Z_]+)=(.*)$", open(f"deploy/settings/{name}.conf").read(), re.MULTILINE))
    for field in dataclasses.fields(kind):
        count += 1
        wanted = {True: "yes", False: "no"}.get(field.default, field.default) if field.type in (bool, "bool") \
            else field.default
        value = told.pop(field.name.upper(), None)
        if value != str(wanted) and not (field.type in (float, "float") and value and float(value) == wanted):
            print(f"{name}.conf: {field.name.upper()} is {value}, and {wanted} in the program", file=sys.stderr)
    for left in told:
        print(f"{name}.conf: {left} is no setting", file=sys.stderr)
if count > 25:
    print(f"there are {count} settings, and 25 are enough", file=sys.stderr)
END_OF_PYTHON
finish
