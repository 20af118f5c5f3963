#!/bin/sh
# Measures runs of 8,192 commands: on drive S 64 writes of a block, and reads of what they wrote; on the large drive 4,096
# writes of a block, and reads of what they wrote. Prints commands per second, the start of the program, the reading of the
# texts, the making of the drive in a new file and the printing included.
# Usage: bench/commands.sh [RUNS]: the best of so many runs, 5 if not given. The program is the one that ./fdpdrive runs.
set -eu
runs=${1:-5}
top=$(cd "$(dirname "$0")/.." && pwd)
program=$("$top/fdpdrive" program)
work=$(mktemp -d)
trap 'rm -rf "$work"' EXIT

# a trace of so many writes, over so many addresses, and reads up to 8,192 commands
trace() {
    awk -v writes="$1" -v blocks="$2" 'BEGIN {
        for (i = 0; i < writes; i++) printf "write 1 %d 1 %d\n", i % blocks, i
        for (i = writes; i < 8192; i++) printf "read 1 %d 1\n", i % blocks
    }'
}

# the best of the runs of a trace on a configuration
measure() {
    best=
    for run in $(seq "$runs"); do
        rm -f "$work/drive.img"
        start=$(date +%s%N)
        "$program" run "$top/examples/$1" "$work/drive.img" "$2" > "$work/output"
        end=$(date +%s%N)
        took=$((end - start))
        if [ -z "$best" ] || [ "$took" -lt "$best" ]; then best=$took; fi
    done
    echo "$1: $((8192 * 1000000000 / best)) commands per second ($((best / 1000)) microseconds for 8192)"
}

trace 64 52 > "$work/small.trace"
trace 4096 4096 > "$work/large.trace"
"$program" run "$top/examples/drive-s.toml" "$work/first.img" "$work/small.trace" > "$work/output"
measure drive-s.toml "$work/small.trace"
measure large.toml "$work/large.trace"
