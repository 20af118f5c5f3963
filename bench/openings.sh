#!/bin/sh
# Measures openings: runs of an empty trace over images of drives of one group, of growing size up to the largest flash (262,144 pages), first
# without a block and then filled to the budget with blocks of 64 a command. Each run opens the image, writes the checkpoint that ends the opening,
# and puts the flash back; the start of the program is included. Prints milliseconds, and microseconds for each page of the flash.
# Usage: bench/openings.sh [RUNS]: the best of so many runs, 5 if not given. The program is the one that ./fdpdrive runs.
set -eu
runs=${1:-5}
top=$(cd "$(dirname "$0")/.." && pwd)
program=$("$top/fdpdrive" program)
work=$(mktemp -d)
trap 'rm -rf "$work"' EXIT
cd "$work"
: > empty.trace

# the configuration of a drive with blocks of so many bytes and so many units of 64 pages, and a namespace that is its budget
drive() {
    cat <<CONFIG
block = $1
unit_pages = 64
groups = 1
units = $2
area_units = $3
queues = 1
blocks_per_command = 64
fdp = [["initial"]]
enabled = true
index = 0
queue_depth = 64
collectors = 0
turns = 0

[[namespaces]]
blocks = $((64 * ($2 - 5) - 64))
handles = [0]
CONFIG
}

# the best of the runs over this image, in nanoseconds
measure() {
    best=
    for run in $(seq "$runs"); do
        start=$(date +%s%N)
        "$program" run drive.toml drive.img empty.trace > output
        took=$(($(date +%s%N) - start))
        if [ -z "$best" ] || [ "$took" -lt "$best" ]; then best=$took; fi
    done
    echo "$best"
}

tell() {
    awk -v what="$1" -v pages="$2" -v took="$3" 'BEGIN { printf "%s: %.1f milliseconds, %.2f microseconds a page\n", what, took / 1e6, took / 1e3 / pages }'
}

# a drive with blocks of so many bytes, so many units and so many units an area
openings() {
    drive "$1" "$2" "$3" > drive.toml
    blocks=$((64 * ($2 - 5) - 64))
    pages=$((64 * ($2 + 2 * $3)))
    rm -f drive.img
    "$program" run drive.toml drive.img empty.trace > output
    tell "$pages pages of $1 bytes, no block" "$pages" "$(measure)"
    awk -v blocks="$blocks" 'BEGIN { for (at = 0; at < blocks; at += 64) print "write 1", at, 64, at }' > fill.trace
    "$program" run drive.toml drive.img fill.trace > output
    written=$(grep -c '^[0-9]* write 0/00 00000000$' output)
    if [ "$written" -ne $((blocks / 64)) ]; then
        echo "NOT as expected: $written of $((blocks / 64)) writes succeeded"
        exit 1
    fi
    tell "$pages pages of $1 bytes, $blocks blocks" "$pages" "$(measure)"
}

openings 512 62 1
openings 512 1004 10
openings 512 4012 42
openings 4096 4082 7
