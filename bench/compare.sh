#!/bin/sh
# Measures the same trace over an image on a file system in memory and over one on a disk. The program keeps its flash in a file, always: that of the proofs
# which is kept in memory cannot be run from the command line. So the image in memory has the same calls of the system without a disk behind them, and the
# difference is that disk's. A disk is not waited for: what it does later, when the system writes its cache back, is not measured but for what the program has
# to wait.
# The trace: one host, three writes of 8 blocks of 4,096 bytes to one read of 4, scattered over a drive whose blocks are three quarters of its pages and that
# empties units as fast as it fills them. Prints commands a second (the start of the program, the text, the opening and the printing included), programs a block
# and the processors' time of each, and compares what was printed and the images, which have to be the same.
# Usage: bench/compare.sh [RUNS [COMMANDS [MEMORY DISK]]]: the best of so many runs of so many commands, by turns, 5 and 8192 if not given, in folders of their
# own in these two folders, /dev/shm and /var/tmp if not given. The program is the one that ./fdpdrive runs.
set -eu
top=$(cd "$(dirname "$0")/.." && pwd)
. "$top/bench/measures.sh"
needs /usr/bin/time "apt-get install -y time"
runs=${1:-5} commands=${2:-8192} memory_folder=${3:-/dev/shm} disk_folder=${4:-/var/tmp}
in_memory=$(mktemp -d -p "$memory_folder")
on_disk=$(mktemp -d -p "$disk_folder")
trap 'rm -rf "$work" "$in_memory" "$on_disk"' EXIT
cd "$work"
full_drive
rows 0 $((commands / 4)) 1 2 3 4 > mixed.trace
[ "$(file_system "$on_disk")" != "$(file_system "$in_memory")" ] || echo "both folders lie on $(file_system "$on_disk")" >&2

# a run over a copy of the image in this folder, whose costs are kept if they are the best there
measure() {
    folder=$1 best=
    [ ! -e "$folder/best" ] || read -r best best_user best_system best_memory < "$folder/best"
    cp full.img "$folder/drive.img"
    timed run full.toml "$folder/drive.img" mixed.trace
    keep_best
    echo "$best $best_user $best_system $best_memory" > "$folder/best"
    programs=$(programs_a_block "$before" "$(bytes_written)")
    [ -e printed ] || cp output printed
    cmp -s output printed || fail "something else was printed"
}

tell_machine "$(file_system "$in_memory") and $(file_system "$on_disk")"
for try in $(seq "$runs"); do
    measure "$in_memory"
    measure "$on_disk"
    cmp -s "$in_memory/drive.img" "$on_disk/drive.img" || fail "the images differ"
done
for folder in "$in_memory" "$on_disk"; do
    read -r best best_user best_system best_memory < "$folder/best"
    echo "$(file_system "$folder"): $((commands / 4 * 4 * 1000000 / (best / 1000))) commands a second ($((best / 1000000)) milliseconds), $programs programs a block; $best_user milliseconds user, $best_system system"
done
