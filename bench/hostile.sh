#!/bin/sh
# Feeds random streams to the reader of binary streams, each whole, byte by byte and in every cut into two pieces: it has to
# answer, and the same each time. It takes the program of `fdp_binary_rows` that was built here.
# Usage: bench/hostile.sh [COUNT [SEED]]
set -eu
cd "$(dirname "$0")/.."
count=${1:-10000}
python3 bench/hostile.py "$count" "${2:-1}" | crates/fdp_binary_rows/out/fdp_binary_rows | awk -v count="$count" '
    /otherwise/ { bad++ }
    END { printf "hostile: %d passed, %d failed\n", NR - bad, count - NR + bad; exit NR - bad != count }'
