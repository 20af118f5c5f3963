#!/bin/sh
# Measures how costs grow with the drive, always as full: drives of 16,384, 66,048 and 262,144 pages of 512 bytes in units of 64, each of two areas of a
# sixty-fourth of the pages and with a namespace of three quarters of them. Each is filled, and as many blocks as it has pages are written anew at random
# places, 8 a command, so that units are emptied as fast as they are filled; only then so many such writes are measured. Prints the time and the processors'
# time of a write, reading the trace and printing included (the difference to a run of an empty trace over the same image), programs a block, the opening of the
# drive without a block and of the full one (a run of an empty trace, the start of the program included), and the most memory of the writing run, of which the
# trace and its answers are a part.
# Usage: bench/growth.sh [RUNS [WRITES [UNITS:AREA ..]]]: the best of so many runs of so many writes, 5 and 8192 (the most of a trace) if not given, for so many
# units of data and units an area, 248:4 1000:16 3968:64 if none are given. The program is the one that ./fdpdrive runs.
set -eu
top=$(cd "$(dirname "$0")/.." && pwd)
. "$top/bench/measures.sh"
needs /usr/bin/time "apt-get install -y time"
runs=${1:-5} writes=${2:-8192}
[ $# -lt 2 ] || shift
[ $# -eq 0 ] || shift
[ $# -gt 0 ] || set -- 248:4 1000:16 3968:64
cd "$work"

# the configuration of a drive of so many units and so many units an area, and a namespace of so many blocks
drive() {
    cat << END
block = 512
unit_pages = 64
groups = 1
units = $1
area_units = $2
queues = 1
blocks_per_command = 64
fdp = [["initial"]]
enabled = true
index = 0
queue_depth = 64
collectors = 0
turns = 0
namespaces = [{ blocks = $3, handles = [0] }]
END
}

# so many writes of 8 blocks, from this number of the row on
writes() {
    awk -v blocks="$1" -v count="$2" -v x="$3" 'BEGIN {
        for (i = 0; i < count; i++) {
            x = (x * 69069 + 12345) % 4294967296
            print "write 1", 8 * (int(x / 256) % int(blocks / 8)), 8, i
        }
    }'
}

# looks that so many commands of the last run succeeded
wrote() { [ "$(grep -c '^[0-9]* write 0/00 00000000$' output)" -eq "$1" ] || fail "not all of $1 writes succeeded"; }

# the best of the runs of a trace, each over a copy of this image
measure() {
    best=
    for try in $(seq "$runs"); do
        cp "$1" drive.img
        timed run drive.toml drive.img "$2"
        keep_best
    done
}

tell_machine
for drive; do
    units=${drive%:*} area=${drive#*:}
    pages=$((64 * (units + 2 * area)))
    blocks=$((pages * 3 / 4 / 64 * 64))
    drive "$units" "$area" "$blocks" > drive.toml
    rm -f blank.img
    timed run drive.toml blank.img empty.trace
    measure blank.img empty.trace
    blank=$best
    awk -v blocks="$blocks" 'BEGIN { for (at = 0; at < blocks; at += 64) print "write 1", at, 64, at }' > aging.trace
    writes "$blocks" $((pages / 8)) 1 >> aging.trace
    cp blank.img full.img
    rm -f part.*
    split -l 8192 aging.trace part.
    for part in part.*; do
        timed run drive.toml full.img "$part"
        wrote "$(wc -l < "$part")"
    done
    before=$(bytes_written)
    measure full.img empty.trace
    full=$best processors=$((best_user + best_system))
    writes "$blocks" "$writes" 2 > writes.trace
    measure full.img writes.trace
    wrote "$writes"
    awk -v pages="$pages" -v blocks="$blocks" -v count="$writes" -v took=$((best - full)) -v processors=$((best_user + best_system - processors)) \
        -v programs="$(programs_a_block "$before" "$(bytes_written)")" -v blank="$blank" -v full="$full" -v memory="$best_memory" 'BEGIN {
        printf "%d pages, %d blocks: a write of 8 blocks %.1f microseconds, %.1f of processors, %s programs a block; opening %.1f milliseconds blank, %.1f full; %.1f megabytes\n",
            pages, blocks, took / 1e3 / count, processors * 1e3 / count, programs, blank / 1e6, full / 1e6, memory / 1e3 }'
done
