#!/bin/sh
# Tries the edits below bench/edits: each makes a line or two of a crate wrong, and the prover must refuse it. `rt ci` tries those in the crates' must-fail/;
# these are as good, but an edit costs a check of its crate: so they are those of dear crates, and those whose clause a caller's edit breaks too, or a row shows.
# They are tried in a copy of what is committed. Usage: bench/edits.sh [CRATE ...], all crates where none is named.
set -eu
top=$(cd "$(dirname "$0")/.." && pwd)
work=$(mktemp -d)
trap 'rm -rf "$work"' EXIT
git clone -q "$top" "$work/copy"
cd "$work/copy"
[ $# -gt 0 ] || set -- $(ls bench/edits)
for crate; do
    rm -rf "crates/$crate/must-fail"
    mkdir "crates/$crate/must-fail"
    cp "bench/edits/$crate"/*.edit "crates/$crate/must-fail"
done
rt ci "$@"
