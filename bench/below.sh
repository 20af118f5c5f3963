#!/bin/sh
# Prints the crates of this repository that the one given stands on, with itself, a name a line: each line of crates.txt is read once.
# Usage: bench/below.sh CRATE
set -eu
top=$(cd "$(dirname "$0")/.." && pwd)
awk -v top="$1" '
    { name = $1; sub(/:$/, "", name); line = $0; sub(/^[^:]*: */, "", line); below[name] = line }
    END {
        list[count = 1] = top; seen[top] = 1
        for (at = 1; at <= count; at++) {
            print list[at]
            n = split(below[list[at]], names, " ")
            for (i = 1; i <= n; i++) if (names[i] in below && !(names[i] in seen)) { seen[names[i]] = 1; list[++count] = names[i] }
        }
    }' "$top/crates.txt"
