#!/bin/sh
# Prints docs/CRATES.md: each crate, in the order of crates.txt, with the first sentence of its README.
# Usage: bench/crates.sh > docs/CRATES.md
set -eu
cd "$(dirname "$0")/.."
cat << 'END'
# The crates

In the order of `crates.txt`, so that each stands on some of those above it. The README of a crate says what its contracts promise, what is only tested
and what is trusted; [ARCHITECTURE](ARCHITECTURE.md) shows how they stand on one another. `bench/crates.sh` prints this page.

| Crate | |
|---|---|
END
sed 's/[ :].*//' crates.txt | while read -r crate; do
    awk -v crate="$crate" '
        NR > 1 && /./ { text = text (text == "" ? "" : " ") $0; next }
        text != "" { exit }
        END {
            if (match(text, /\. [A-Z`]/)) text = substr(text, 1, RSTART)
            printf "| [%s](../crates/%s) | %s |\n", crate, crate, text
        }' "crates/$crate/README.md"
done
