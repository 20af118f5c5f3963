#!/bin/sh
# Turns traces into streams by `encode_command`, and serves both, each on an image of its own that goes on from trace to trace: what `stream` prints has to be what `run` prints, and what
# `stream-record` prints what `record` does. The traces are those of examples/, on drives with blocks of 512 and of 4,096 bytes, and random ones over every command, as those of
# bench/images.sh. A line whose command has no frame, as a create, or whose frame makes the stream longer than one may be, is left out of both. It takes the program of `fdp_binary_rows` that was built here, and the program that ./fdpdrive runs.
# Usage: bench/streams.sh [COUNT [SEED]]: so many random traces, 500 if not given. The last line counts the traces; where one differed, the status is 1.
set -eu
top=$(cd "$(dirname "$0")/.." && pwd)
program=$("$top/fdpdrive" program)
encoder=$top/crates/fdp_binary_rows/out/fdp_binary_rows
count=${1:-500} seed=${2:-1}
work=$(mktemp -d)
trap 'rm -rf "$work"' EXIT
cd "$work"
passed=0 failed=0

# turns the texts of these names into NAME.trace and NAME.stream, for blocks of so many bytes
encode() {
    block=$1
    shift
    awk '!/^[ \t]*(#|$)/ { print FILENAME "\t" $0 }' "$@" > lines
    awk -F '\t' -v block="$block" '{ print "frame", block, $2 }' lines | "$encoder" > frames
    python3 "$top/bench/streams.py" lines frames
}

# serves a trace and its stream in these two forms on the configuration, and compares what is printed
same() {
    one=0 other=0
    "$program" "$2" "$4" trace.img "$1.trace" > printed 2> said || one=$?
    "$program" "$3" "$4" stream.img "$1.stream" > streamed 2>> said || other=$?
    if [ "$one $other" = "0 0" ] && cmp -s printed streamed; then
        passed=$((passed + 1))
    else
        failed=$((failed + 1))
        echo "NOT the same: $1 by $2 and $3 on $4: status $one and $other"
        diff printed streamed | head -n 10
    fi
}

for config in drive-t.toml large.toml; do
    cp "$top/examples/$config" .
    case $config in large.toml) block=4096 ;; *) block=512 ;; esac
    rm -f trace.img stream.img
    for trace in "$top"/examples/*.trace; do
        name=${trace##*/}
        cp "$trace" "$name.text"
        encode "$block" "$name.text"
        same "$name.text" run stream "$config"
        same "$name.text" record stream-record "$config"
    done
done

sed 's/^queues = .*/queues = 1/' drive-t.toml > random.toml
mkdir random
(cd random && awk -v seed="$seed" -v traces="$count" -f "$top/bench/traces.awk")
encode 512 $(seq -f random/%.0f "$count")
for trace in $(seq "$count"); do
    if [ $((trace % 8)) = 1 ]; then rm -f trace.img stream.img; fi
    if [ $((trace % 2)) = 0 ]; then same "random/$trace" run stream random.toml; else same "random/$trace" record stream-record random.toml; fi
done

echo "streams: $passed passed, $failed failed"
[ "$failed" -eq 0 ]
