#!/bin/sh
# Counts the processor's instructions and the calls of the system for each command: of `make 1024`; of reads of a block of 4,096 bytes; of writes of a block;
# and of writes of 64 blocks, there for each block. Each is the difference of two runs, of which one has more of these commands, so that reading the trace and
# printing are counted and the start of the program, the making of the drive and the end are not; for `make` the other one is `make 0`. The drive is that of
# `make`, without collectors but for `make`, whose two have up to 4,096 turns each; no unit is emptied but by `make`.
# The calls by which threads wait (futex) are counted in a run of their own, in which no other call is stopped. Where strace stops each call, a turn of a host
# takes some twenty times as long, and threads wait in nearly each turn; so counted they say how long strace takes.
# It needs valgrind for the instructions (of all threads, of the program and the libraries and not of the system's core) and strace for the calls.
# Usage: bench/instructions.sh [NUMBER]: `make NUMBER`, and so many commands of a block, 1024 if not given. The program is the one that ./fdpdrive runs.
set -eu
top=$(cd "$(dirname "$0")/.." && pwd)
. "$top/bench/measures.sh"
needs valgrind "apt-get install -y valgrind"
number=${1:-1024}
cd "$work"
made_drive 0 0 > drive.toml

# the instructions of a run of the program with these words, which makes a new image
instructions() {
    rm -f drive.img
    valgrind --tool=callgrind --callgrind-out-file=/dev/null "$program" "$@" 2>&1 > output | sed -n 's/.*Collected : //p'
}

# the calls of the system of such a run, but for those by which threads wait
calls() {
    rm -f drive.img
    strace -f -c -o counted "$program" "$@" > output
    awk '$4 ~ /^[0-9]+$/ && $NF != "total" && $NF != "futex" { all += $4 } END { print all }' counted
}

# the calls by which threads of such a run wait
waits() {
    rm -f drive.img
    strace -f --seccomp-bpf -e trace=futex -c -o counted "$program" "$@" > output
    awk '$NF == "futex" { all = $4 } END { print all + 0 }' counted
}

# how much more a run with the third words counts, by the first word, than one with the second, for each of so many
more() { awk -v less="$($1 $2)" -v more="$($1 $3)" -v count="$4" 'BEGIN {
    each = (more - less) / count
    printf "%.1f", (each > -0.05 && each < 0.05) ? 0 : each
}'; }

# what a run with the second words has more than one with the first, for each of so many
tell() {
    what=$1 count=$2
    less=$(instructions $3) more=$(instructions $4)
    [ -n "$less" ] && [ -n "$more" ] || fail "valgrind counted nothing: $what"
    line="$what: $(((more - less) / count)) instructions"
    if [ "$strace" = 1 ]; then line="$line, $(more calls "$3" "$4" "$count") calls of the system and $(more waits "$3" "$4" "$count") by which threads wait"; fi
    echo "$line"
}

# so many commands of a kind, of so many blocks each
commands() {
    awk -v kind="$1" -v count="$2" -v size="$3" 'BEGIN {
        for (i = 0; i < count; i++) print kind, 1, i * size, size, (kind == "write" ? i : "")
    }'
}

tell_machine
strace=1
command -v strace > /dev/null || { strace=0 && echo "calls of the system are not counted: strace is not there (apt-get install -y strace)"; }
tell "make $number, a command" $((4 * number)) "make 0 drive.img" "make $number drive.img"
commands write "$number" 1 > one
commands write $((2 * number)) 1 > two
{ cat one; commands read "$number" 1; } > reads
commands write $((number / 64)) 64 > one.64
commands write $((number / 32)) 64 > two.64
serve="run drive.toml drive.img"
tell "a read of a block" "$number" "$serve one" "$serve reads"
tell "a write of a block" "$number" "$serve one" "$serve two"
tell "a write of 64 blocks, a block" $((number / 64 * 64)) "$serve one.64" "$serve two.64"
