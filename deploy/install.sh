#!/bin/bash
# install.sh DESTDIR PREFIX: puts the programs of a deployment, their units and what they bring into their places below
# DESTDIR. Settings are folders of the administrator's own files, which this never writes.
set -euo pipefail
cd "$(dirname "$0")/.."

root=$1
prefix=$2
library=$prefix/lib/journal-collect

(cd deploy && find journalcollect -type f ! -path '*/__pycache__/*') | while read -r path; do
    install -D -m 644 "deploy/$path" "$root$library/$path"
done
install -d "$root$library/programs" "$root$prefix/bin"
for program in deploy/programs/*; do
    install -m 755 "$program" "$root$library/programs"
done
for program in deploy/programs/journal-collect-*; do
    ln -sf "../lib/journal-collect/programs/${program##*/}" "$root$prefix/bin/${program##*/}"
done
install -m 644 deploy/units/{sshd,slice}.conf "$root$library"
for unit in deploy/units/*.service deploy/units/*.socket deploy/units/*.timer; do
    install -D -m 644 "$unit" "$root$prefix/lib/systemd/system/${unit##*/}"
    sed -i "s#@library@#$library#" "$root$prefix/lib/systemd/system/${unit##*/}"
done
install -D -m 644 deploy/units/journal-collect.sysusers "$root$prefix/lib/sysusers.d/journal-collect.conf"
install -D -m 644 deploy/units/journald.conf "$root$prefix/lib/systemd/journald.conf.d/journal-collect.conf"
install -D -m 644 -t "$root$prefix/share/doc/journal-collect/examples" deploy/settings/*.conf deploy/units/alerts.yml \
    deploy/units/alarms.swatch
for page in docs/man/*.[1-8]; do
    install -D -m 644 "$page" "$root$prefix/share/man/man${page##*.}/${page##*/}"
done
completions=$root$prefix/share/bash-completion/completions
install -D -m 644 deploy/completions/journal-collect.bash "$completions/journal-collect"
for program in deploy/programs/journal-collect-*; do
    ln -sf journal-collect "$completions/${program##*/}"
done
install -D -m 644 deploy/completions/_journal-collect "$root$prefix/share/zsh/vendor-completions/_journal-collect"
install -d "$root/etc/journal-collect"/{collector,machine,forward}.conf.d
# No run has to compile a module. Each is known by what its source has: if that is another one, the run compiles it.
/usr/bin/python3 -m compileall -q -s "$root" -p / --invalidation-mode checked-hash "$root$library"
