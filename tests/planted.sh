#!/bin/sh
# Tries the planted bugs of tests/planted, for which the gate has no time: the prover must refuse each.
# planted.sh [CRATE..]: those of the named crates, or all. Each takes as long as a check of what it changes, over what `rt check` kept.
# It works in a copy of the repository whose crates have these edits in place of the gate's.
here=$(cd "$(dirname "$0")/.." && pwd)
room=$(mktemp -d) || exit 1
trap 'rm -rf "$room"' EXIT
cp -R "$here/crates" "$here/crates.txt" "$room" || exit 1
rm -rf "$room"/crates/*/must-fail
[ $# -gt 0 ] || set -- $(ls "$here/tests/planted")
for c in "$@"; do
    cp -R "$here/tests/planted/$c" "$room/crates/$c/must-fail" || exit 1
done
cd "$room" && rt must-fail "$@"
