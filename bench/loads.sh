#!/bin/sh
# Measures `make 1024` and `make 8192`, the generated load of four hosts and two collectors, each into a new image. Prints commands a second (the start of the
# program, the making of the drive and the summary included), programs a block (pages of data that were programmed for each block of the hosts), the processors'
# time and the most memory. It looks that each command succeeded and each block was read as it was written.
# Usage: bench/loads.sh [RUNS [NUMBER ..]]: the best of so many runs, 5 if not given, of these numbers, 1024 and 8192 if none is given. The program is the one
# that ./fdpdrive runs.
set -eu
top=$(cd "$(dirname "$0")/.." && pwd)
. "$top/bench/measures.sh"
needs /usr/bin/time "apt-get install -y time"
runs=${1:-5}
[ $# -eq 0 ] || shift
[ $# -gt 0 ] || set -- 1024 8192
cd "$work"
made_drive 0 0 > drive.toml

tell_machine
for number; do
    best=
    for try in $(seq "$runs"); do
        rm -f drive.img
        timed make "$number" drive.img
        keep_best
        awk -v all=$((4 * number)) '$4 == all && $6 == all && $10 == $12 { ok = 1 } END { exit !ok }' output || fail "$(cat output)"
    done
    timed run drive.toml drive.img empty.trace
    awk -v number="$number" -v took="$best" -v user="$best_user" -v calls="$best_system" -v memory="$best_memory" -v programs="$(programs_a_block "0 0" "$(bytes_written)")" 'BEGIN {
        printf "make %d: %d commands a second (%d milliseconds), %s programs a block; %d milliseconds user, %d system; %.1f megabytes\n",
            number, 4 * number / (took / 1e9), took / 1e6, programs, user, calls, memory / 1e3 }'
done
