#!/usr/bin/env bash
# Edits in batches are judged as they must be: an edit of a small library that changes what it does is refused; one
# that changes nothing, doesn't apply, doesn't parse, is refused only by arithmetic, for want of a lemma or by another
# goal than it names, or leaves open all goals that it breaks or what is no goal is reported as a failure, also as the
# second edit of a function. So is a library that isn't proved, even if it was when it was built.
set -euo pipefail
cd "$(dirname "$0")/.."
python3 -ESB tests/refused/selftest.py
