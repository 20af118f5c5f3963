#!/bin/sh
# Measures sessions of 1, 2 and 4 hosts with 0 and 2 collectors, which all do the same work on the same drive: its 12,288 blocks of 4,096 bytes, three quarters
# of its pages, are written once, and half of them once more, before the first; each session begins with a copy of that image. The commands, three writes of 8
# blocks to one read of 4, fall to four rows, each scattered over its own quarter of the blocks and with a handle of its own; one host serves all four rows by
# turns, two hosts two each, four hosts one each.
# Prints commands a second (the texts and the printing included, and not a run of empty traces over the same image, which is the start of the program and the
# opening), programs a block (pages of data for each block that hosts wrote, so 1 where nothing is copied), and the processors' time. The aim: four hosts serve
# at least 0.9 times as many commands a second as one host.
# Collectors have 4,096 turns each, each of which makes a step or finds that none is due in a group; between those they sleep until the history has grown by as
# many entries as a unit has pages.
# It looks that each command succeeded, that a host got the same answers in each session, whatever the schedule, and that each image
# opens to the blocks that were written last.
# Usage: bench/threads.sh [RUNS [COMMANDS]]: the best of so many runs of so many commands a row, 5 and 2048 (the most that one host serves of each) if not given.
# The program is the one that ./fdpdrive runs.
set -eu
top=$(cd "$(dirname "$0")/.." && pwd)
. "$top/bench/measures.sh"
needs /usr/bin/time "apt-get install -y time"
runs=${1:-5}
commands=${2:-2048}
cd "$work"
made_drive 0 0 > 0.toml
made_drive 2 4096 > 2.toml
full_drive

# what is printed for the queue of a host
answers() { awk -v host="$1" '$1 == "queue" { mine = $2 == host } /^(stats|ruh|event)/ { mine = 0 } mine' output; }

for half in 0 1; do
    awk -v first=$((half * 6144)) 'BEGIN { for (i = 0; i < 6144; i += 64) print "read 1", first + i, 64 }' > "blocks.$half"
done
for row in 1 2 3 4; do rows 0 "$commands" $row > "1.$row"; done
rows 0 "$commands" 1 2 > 2.12
rows 0 "$commands" 3 4 > 2.34
rows 0 "$commands" 1 2 3 4 > 4.1234
# what the blocks hold behind each session
awk '$1 == "write" { for (j = 0; j < $4; j++) holds[$3 + j] = $5 + j }
    END { for (i = 0; i < 12288; i++) printf "  %08x\n", holds[i] }' full.trace 4.1234 > blocks

# the best run of empty traces
open() {
    best=
    for try in $(seq "$runs"); do
        cp full.img drive.img
        timed run 0.toml drive.img empty.trace
        keep_best
    done
    opened=$best opened_user=$best_user opened_system=$best_system
}

# the best session of these traces with so many collectors
measure() {
    collectors=$1 best=
    shift
    for try in $(seq "$runs"); do
        cp full.img drive.img
        timed run "$collectors.toml" drive.img "$@"
        keep_best
        programs=$(programs_a_block "$before" "$(bytes_written)")
        [ "$(grep -c '^[0-9]* \(write\|read\) 0/00 00000000$' output)" -eq $((4 * commands)) ] || fail "not all commands succeeded"
        for host in $(seq $#); do
            answers "$host" > told
            [ -e "told.$#.$host" ] || cp told "told.$#.$host"
            cmp -s told "told.$#.$host" || fail "other answers for host $host"
        done
        timed run 0.toml drive.img blocks.0 blocks.1
        grep '^  ' output | cmp -s - blocks || fail "other blocks in the image"
    done
    took=$((best - opened))
    second=$((4 * commands * 1000000 / (took / 1000)))
    [ $# -gt 1 ] || alone=$second
    echo "hosts $#, collectors $collectors: $second commands a second, $(awk -v a="$second" -v b="$alone" 'BEGIN { printf "%.2f", a / b }') of one host's;" \
        "$programs programs a block; $((best_user - opened_user)) milliseconds user, $((best_system - opened_system)) system, of $((took / 1000000))"
}

tell_machine
open
for collectors in 0 2; do
    measure "$collectors" 4.1234
    measure "$collectors" 2.12 2.34
    measure "$collectors" 1.1 1.2 1.3 1.4
done
