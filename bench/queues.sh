#!/bin/sh
# Measures a session of sixteen traces of 8,192 commands, three writes of a block to one read, each in its queue and over blocks of its own, on a drive
# of two groups whose units it empties and fills again: as a run, and as a record. Prints commands per second, the start of the program, the
# texts, the making of the drive in a new file and the printing included, and looks that each queue has completed each of its commands with success.
# Usage: bench/queues.sh [RUNS]: the best of so many runs, 5 if not given. The program is the one that ./fdpdrive runs.
set -eu
runs=${1:-5}
top=$(cd "$(dirname "$0")/.." && pwd)
program=$("$top/fdpdrive" program)
work=$(mktemp -d)
trap 'rm -rf "$work"' EXIT
cat > "$work/drive.toml" <<'END'
block = 512
unit_pages = 64
groups = 2
units = 600
area_units = 64
queues = 16
blocks_per_command = 4
fdp = [["initial", "initial", "persistent"]]
enabled = true
index = 0
queue_depth = 64
collectors = 0
turns = 0

[[namespaces]]
blocks = 32000
handles = [0, 1, 2]
END
set --
for queue in $(seq 16); do
    awk -v first=$((queue * 2000 - 2000)) 'BEGIN {
        for (i = 0; i < 8192; i++) {
            if (i % 4 == 3) printf "read 1 %d 1\n", first + i % 500
            else printf "write 1 %d 1 %d\n", first + i * 7 % 500, i + 1
        }
    }' > "$work/$queue.trace"
    set -- "$@" "$work/$queue.trace"
done

# the best of the runs, or of the records, of the traces
measure() {
    form=$1
    shift
    best=
    for run in $(seq "$runs"); do
        rm -f "$work/drive.img"
        start=$(date +%s%N)
        "$program" "$form" "$work/drive.toml" "$work/drive.img" "$@" > "$work/output"
        end=$(date +%s%N)
        took=$((end - start))
        if [ -z "$best" ] || [ "$took" -lt "$best" ]; then best=$took; fi
    done
    completed=$(grep -c '^[0-9]* \(write\|read\) 0/00 00000000$' "$work/output")
    if [ "$completed" -ne 131072 ]; then
        echo "NOT as expected: $completed of 131072 commands were completed with success"
        exit 1
    fi
    awk -v form="$form" -v took="$best" -v bytes="$(wc -c < "$work/output")" 'BEGIN {
        printf "%s: %d commands per second (%d milliseconds for 131072, %d bytes printed)\n", form, 131072 / (took / 1e9), took / 1e6, bytes }'
}

"$program" run "$work/drive.toml" "$work/drive.img" "$1" > "$work/output"
measure run "$@"
measure record "$@"
