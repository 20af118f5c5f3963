#!/bin/sh
# Runs the program over images in files, and compares what it prints with what is expected:
# - a block that one run wrote is read by the next, and the sums go on; a drive of another configuration does not open the image;
# - a page of the newer checkpoint is torn: the drive is that of the older one; a page of each is torn: there is no drive;
# - 2,000 writes in one run, and in ten runs over one file: all blocks are the same;
# - a file that is no flash, one that is cut short, a folder, a device: status 5, a reason on standard error, and the file stays as it is;
# - 2,000 random traces over every command, with numbers at each edge and behind it, four on an image: what each run reads at its end the next one reads.
# Usage: bench/images.sh [SEED]: the seed of the random traces, 1 if not given. The program is the one that ./fdpdrive runs.
set -eu
top=$(cd "$(dirname "$0")/.." && pwd)
work=$(mktemp -d)
trap 'rm -rf "$work"' EXIT
program=$("$top/fdpdrive" program)
seed=${1:-1}
cd "$work"
cp "$top/examples/drive-s.toml" s.toml
sed 's/^units = 12$/units = 13/' s.toml > other.toml
echo "read 1 0 1" > read.trace

# a run with these words: its status and what it prints but for handles and events, in `got`
run() {
    ended=0
    "$program" run "$@" > printed 2> said || ended=$?
    { echo "status $ended"; sed '/^ruh /d; /^event /d' printed; } > got
}

# what is expected of the last run, from standard input
expect() {
    cat > wanted
    if cmp -s wanted got; then echo "as expected: $1"; else echo "NOT as expected: $1"; diff wanted got; exit 1; fi
}

# makes a page of an image torn: behind the 32 bytes of the head stands a byte for each page
tear() { printf '\002' | dd of="$1" bs=1 seek=$((32 + $2)) conv=notrunc status=none; }

run s.toml drive.img "$top/examples/first.trace"
expect "a block is written to a new image" <<'OUT'
status 0
queue 1
0 write 0/00 00000000
1 read 0/00 00000000
  00000007
stats 512 512 0
OUT
run s.toml drive.img read.trace
expect "the next run reads it" <<'OUT'
status 0
queue 1
0 read 0/00 00000000
  00000007
stats 512 512 0
OUT
run other.toml drive.img read.trace
expect "another drive does not open it" <<'OUT'
status 4
fault 4 image other units
OUT

awk 'BEGIN { for (i = 0; i < 24; i++) print "write 1", i, 1, i }' > fill.trace
awk 'BEGIN { for (i = 0; i < 24; i++) print "read 1", i, 1 }' > all.trace
run s.toml torn.img fill.trace
tear torn.img 130
run s.toml torn.img all.trace
awk 'BEGIN {
    print "status 0\nqueue 1"
    for (i = 0; i < 24; i++) printf "%d read 0/00 00000000\n  %08x\n", i, (i < 20 ? i : 0)
    print "stats 10240 10240 0"
}' | expect "a torn page of the newer checkpoint: the older one counts"
tear torn.img 100
tear torn.img 130
run s.toml torn.img all.trace
expect "a torn page of each: no drive" <<'OUT'
status 4
fault 4 image not-a-drive
OUT

awk 'BEGIN { for (i = 0; i < 2000; i++) print "write 1", (i * 7) % 52, 1, i }' > long.trace
awk 'BEGIN { for (i = 0; i < 52; i++) print "read 1", i, 1 }' > blocks.trace
run s.toml one.img long.trace
run s.toml one.img blocks.trace
grep '^  ' got > once
split -l 200 long.trace part.
for part in part.*; do run s.toml ten.img "$part"; done
run s.toml ten.img blocks.trace
grep '^  ' got > got.blocks && mv got.blocks got
expect "2,000 writes in ten runs leave the blocks of one run" < once

# a file that holds no flash of a drive ends the run with status 5, and stays as it is
refused() {
    cp "$1" before
    run s.toml "$1" read.trace
    if [ ! -s said ]; then echo "NOT as expected: no reason was told: $2"; exit 1; fi
    cmp before "$1"
    printf 'status 5\nfault 5 flash\n' | expect "$2 ($(head -n 1 said))"
}

echo "no flash at all, but a text that is longer than its head" > text.img
refused text.img "a text"
: > empty.img
refused empty.img "an empty file"
head -c 5000 drive.img > short.img
refused short.img "a file that is cut short"
mkdir folder.img
run s.toml folder.img read.trace
printf 'status 5\nfault 5 flash\n' | expect "a folder ($(head -n 1 said))"
run s.toml /dev/null read.trace
printf 'status 5\nfault 5 flash\n' | expect "a device ($(head -n 1 said))"

# Random traces. The drive has room for further namespaces; every other image begins nearly full of blocks that were overwritten.
cat > random.toml <<'OUT'
block = 512
unit_pages = 8
groups = 2
units = 20
area_units = 4
queues = 1
blocks_per_command = 4
fdp = [["initial", "initial", "persistent"], ["initial"]]
enabled = true
index = 0
queue_depth = 64
collectors = 0
turns = 0
namespaces = [{ blocks = 100, handles = [0, 1, 2] }]
OUT
awk 'BEGIN {
    for (i = 0; i < 100; i += 4) print "write 1", i, 4, i, "pid", i % 3
    for (i = 0; i < 90; i++) print "write 1", (i * 37) % 100, 1, 1000 + i, "pid", 32768 * (i % 2) + i % 3
}' > full.trace
# the reads behind each trace
awk 'BEGIN {
    for (i = 0; i < 100; i += 4) print "read 1", i, 4
    for (n = 1; n < 5; n++) { for (i = 0; i < 8; i++) print "read", n, i, 1; print "read", n, 59, 1; print "read", n, 99, 1 }
    print "get-fdp"
}' > behind.trace

awk -v seed="$seed" -v traces=2000 -f "$top/bench/traces.awk"

# what the last run answered to the commands from this number on, without their numbers
answers() { awk -v first="$1" '/^stats/ { exit } /^[0-9]/ { on = ($1 >= first); sub(/^[0-9]+ /, "") } on' printed; }

for trace in $(seq 2000); do
    if [ $((trace % 4)) = 1 ]; then
        rm -f random.img
        row=
        if [ $((trace % 8)) = 5 ]; then
            run random.toml random.img full.trace
            row=" full.trace"
        fi
    fi
    row="$row $trace"
    cat "$trace" behind.trace > whole.trace
    run random.toml random.img whole.trace
    first=$ended
    answers "$(wc -l < "$trace")" > wanted
    run random.toml random.img behind.trace
    answers 0 > got
    if [ "$first $ended" != "0 0" ] || ! cmp -s wanted got; then
        echo "NOT as expected: seed $seed, trace $trace: status $first, and then $ended, $(head -n 1 printed); on that image stood$row:"
        for part in $row; do if [ "$part" != full.trace ]; then cat "$part"; fi; done
        diff wanted got | head -n 10
        exit 1
    fi
done
echo "as expected: 2,000 random traces of seed $seed: what each run read at its end the next one read"
