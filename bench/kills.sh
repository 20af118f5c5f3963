#!/bin/sh
# Kills runs over one image at random moments, opens what each left, and looks whether the blocks that are there are those of a beginning of the
# run: of the writes that it was to make the first so many were made, and none behind them. And it has records audited: of the run that made the image, of a whole
# run of the writes, and of the run behind the kill. One host alone makes the same steps in each run, so the run that was killed had made a beginning of the whole one:
# the audit says that the run behind it goes on from such a beginning, in all that lasts, and which is the first completed write that it goes without. It is tried, not
# proved, that a file keeps what was written to it when its process is killed; what power loss leaves of a file is not tried.
# Usage: bench/kills.sh [RUNS [WRITES]]: so many runs of so many writes, 300 of 8000 if not given. The program is the one that ./fdpdrive runs.
set -eu
top=$(cd "$(dirname "$0")/.." && pwd)
program=$("$top/fdpdrive" program)
runs=${1:-300}
writes=${2:-8000}
work=$(mktemp -d)
trap 'rm -rf "$work"' EXIT
cd "$work"
cp "$top/examples/drive-s.toml" s.toml
blocks=52
# Each write has a number of its own, so that a block tells which write it is of.
awk -v b=$blocks -v w="$writes" 'BEGIN { for (i = 1; i <= w; i++) print "write 1", (i * 7) % b, 1, i }' > long.trace
awk -v b=$blocks 'BEGIN { for (i = 0; i < b; i++) print "read 1", i, 1 }' > blocks.trace
"$program" record s.toml first.img blocks.trace > first.record
start=$(date +%s%N)
cp first.img whole.img
"$program" run s.toml whole.img long.trace > /dev/null
took=$(( ($(date +%s%N) - start) / 1000 ))
echo "a whole run takes $took microseconds"
cp first.img whole.img
"$program" record s.toml whole.img long.trace > whole.record
"$program" audit s.toml first.record whole.record
killed=0 ended=0 whole=0 cut=0 least= most=
for run in $(seq "$runs"); do
    cp first.img drive.img
    "$program" run s.toml drive.img long.trace > /dev/null &
    pid=$!
    wait_for=$(awk -v t="$took" -v s="$run" 'BEGIN { srand(s); printf "%.6f", rand() * t / 1000000 }')
    sleep "$wait_for"
    if kill -9 "$pid" 2> /dev/null; then killed=$((killed + 1)); else ended=$((ended + 1)); fi
    wait "$pid" 2> /dev/null || true
    if ! "$program" record s.toml drive.img blocks.trace > behind.record; then
        echo "NOT as expected: run $run left an image that does not open: $(cat behind.record)"
        exit 1
    fi
    status=0
    "$program" audit s.toml first.record whole.record behind.record > said 2> /dev/null || status=$?
    case "$status $(cat said)" in
    "0 audit yes "*) whole=$((whole + 1)) ;;
    "13 fault 13 lost 2 "*) cut=$((cut + 1)) ;;
    *) echo "NOT as expected: run $run: the records end with $status: $(cat said)"; exit 1 ;;
    esac
    # what was read stands in front of the sums
    sed '/^stats/q' behind.record > printed
    # The highest number that a block has is that of the last write that was made; each block has that of the last write to it up to there.
    count=$(grep '^  ' printed | awk -v b=$blocks '
        { number = 0; for (i = 1; i <= 8; i++) number = number * 16 + index("0123456789abcdef", substr($1, i, 1)) - 1; has[NR - 1] = number; if (number > last) last = number }
        END {
            for (i = 1; i <= last; i++) wanted[(i * 7) % b] = i
            for (i = 0; i < b; i++) if (has[i] != wanted[i] + 0) { print "block " i " has " has[i] " in place of " wanted[i] + 0; exit }
            print last + 0
        }')
    case $count in
    *block*) echo "NOT as expected: run $run: $count"; exit 1 ;;
    esac
    if [ -z "$least" ] || [ "$count" -lt "$least" ]; then least=$count; fi
    if [ -z "$most" ] || [ "$count" -gt "$most" ]; then most=$count; fi
done
echo "as expected: $killed runs were killed and $ended were not, each left a beginning of its writes: $least to $most of $writes; by records $whole lost nothing, and $cut went on without a write of the whole run"
