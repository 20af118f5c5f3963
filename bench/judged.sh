#!/bin/sh
# Runs the sessions of fdp_thread_rows again and again, in which hosts and collectors work beside one another: each time the plain drive has to take each entry
# of the history of a load that relocates, and each line has to be that of the stored run. (That images open again to what was written last, run by run,
# is what bench/threads.sh looks at.)
# Usage: bench/judged.sh [RUNS]: ten runs if not given.
set -eu
runs=${1:-10}
top=$(cd "$(dirname "$0")/.." && pwd)
rows=$top/crates/fdp_thread_rows
work=$(mktemp -d)
trap 'rm -rf "$work"' EXIT

if [ ! -x "$rows/out/fdp_thread_rows" ]; then (cd "$rows" && rt run) > "$work/built" 2>&1 || { cat "$work/built"; exit 1; }; fi
for run in $(seq "$runs"); do
    "$rows/out/fdp_thread_rows" > "$work/stdout" || { echo "NOT as expected: status $?"; exit 1; }
    cmp "$work/stdout" "$rows/stdout" || { echo "NOT as expected: run $run"; exit 1; }
done
echo "$runs runs: each line is that of the stored run"
