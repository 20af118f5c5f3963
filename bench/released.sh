#!/bin/sh
# Compares a program that was built here with the release, byte for byte, where the release is of these sources and of this toolchain.
# Usage: bench/released.sh [PROGRAM]: the one that `rt ci` or ./fdpdrive left, if not given.
set -eu
top=$(cd "$(dirname "$0")/.." && pwd)
program=${1:-$top/crates/fdpdrive/out/fdpdrive}
if [ ! -f "$top/release/SOURCES" ]; then
    echo "release: there is none"
elif [ "$("$top/bench/sources.sh" | grep '^sources ')" != "$(grep '^sources ' "$top/release/SOURCES")" ]; then
    echo "release: it is of other sources than these"
elif [ "$("$top/bench/sources.sh")" != "$(cat "$top/release/SOURCES")" ]; then
    echo "release: it is of these sources, and of another toolchain: $(sed -n 's/^toolchain //p' "$top/release/SOURCES")"
elif [ ! -f "$program" ]; then
    echo "release: no program lies at $program"
    exit 1
elif [ "$(sha256sum < "$program" | cut -d ' ' -f 1)" = "$(cut -d ' ' -f 1 "$top/release/SHA256")" ]; then
    echo "release: what was built here is the release, byte for byte"
else
    echo "release: what was built here is NOT the release, which claims these sources"
    exit 1
fi
