#!/bin/sh
# Prints what the program is built from, as release/SOURCES has it: the toolchain, and one checksum of HANDLES and of the sources, contracts and proofs of all
# crates that the program stands on, with their lines of crates.txt. Where there is no toolchain its name is that of release/SOURCES.
# Usage: bench/sources.sh
set -eu
cd "$(dirname "$0")/.."
below=$(bench/below.sh fdpdrive)

# the files of these crates that a proof reads
files() {
    find crates -name out -prune -o -type f -print | awk -F / -v below="$below" '
        BEGIN { n = split(below, names, "\n"); for (i = 1; i <= n; i++) is_below[names[i]] = 1 }
        $2 in is_below && $3 ~ /^(src|specs|proofs)$/' | LC_ALL=C sort
}

echo "toolchain $(rt version 2> /dev/null || sed -n 's/^toolchain //p' release/SOURCES 2> /dev/null)"
echo "sources $({
    cat HANDLES
    echo "$below" | sed 's/.*/^&[ :]/' | grep -f - crates.txt
    files | xargs sha256sum
} | sha256sum | cut -d ' ' -f 1)"
