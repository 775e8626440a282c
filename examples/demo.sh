#!/usr/bin/env bash
# The README's quick start on a sample: demo.sh PROGRAM. The collector is killed after it has stored an upload, which is
# then sent again. Prints each command as it is run, in a folder that is made for it.
set -euo pipefail

samples=$(cd "$(dirname "$0")" && pwd)
program=$(realpath "$1")
folder=$(mktemp -d)
trap 'rm -rf "$folder"' EXIT
mkdir "$folder/bin"
ln -s "$program" "$folder/bin/journal-collect"
PATH=$folder/bin:$PATH
cp "$samples/web.export" "$folder"
cd "$folder"

run() {
    echo "\$ $1"
    eval "$1"
}

run 'web=a0a1a2a3a4a5a6a7a8a9aaabacadaeaf'
run 'journal-collect upload --source $web --resume resume export web.export > upload'
run 'journal-collect collect --files-from <(echo upload; sleep 60) logs.db > answers &'
run 'until grep -s ack answers; do sleep 0.1; done; kill -KILL $!'
wait $! 2> /dev/null || true    # bash says that it was killed
run 'journal-collect collect logs.db upload | tee answers'
run 'journal-collect ack --source $web --resume resume export web.export < answers'
run 'journal-collect show logs.db'
