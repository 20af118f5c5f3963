#!/bin/sh
# Audits records: each example of examples/ has to be judged right as it is recorded on a new image, and so have the records of all of them over one image; those with one left out, with two changed
# over, or with one twice are to be refused. Of the record of a load with relocation, of some 2,000 lines, each text with a line taken away, doubled, changed over with the next, or with one digit changed
# is to be refused, with status 13 or 14; and so is each such text of a second load over the same image, behind the record of the first. Then it shows what records of about 1, 4 and 16 megabytes
# take. It takes the program that ./fdpdrive runs.
# Usage: bench/audits.sh [STEP]: of the wrong texts each STEP-th, all of them if not given. The last line counts the texts; where one was judged otherwise, the status is 1.
#
# A digit may be changed so that the record is right all the same, as where a moment is changed that nothing fixes: such texts are counted as let through, and shown.
set -eu
top=$(cd "$(dirname "$0")/.." && pwd)
program=$("$top/fdpdrive" program)
step=${1:-1}
work=$(mktemp -d)
trap 'rm -rf "$work"' EXIT
cd "$work"
passed=0 failed=0

# records a trace on a new image, and audits what was printed
right() {
    rm -f image
    "$program" record "$1" image "$2" > record
    if "$program" audit "$1" record > said 2>&1; then passed=$((passed + 1)); else failed=$((failed + 1)); echo "refused: $2: $(head -n 1 said)"; fi
}

# the traces of a load: writes of 4 blocks at pseudorandom addresses, some reads
load() {
    awk -v count="$1" -v seed="$2" -v blocks="$3" 'BEGIN {
        for (i = 0; i < count; i++) {
            seed = (seed * 1103515245 + 12345) % 2147483648
            place = int(seed / 65536) % (blocks - 4)
            if (i % 4 == 3) print "read 1 " place " 2"; else print "write 1 " place " 4 " i + 1
        }
    }'
}

for trace in "$top"/examples/*.trace; do
    case $trace in
    */large.trace) right "$top/examples/large.toml" "$trace" ;;
    *) right "$top/examples/drive-s.toml" "$trace"; right "$top/examples/drive-t.toml" "$trace" ;;
    esac
done
echo "examples: $passed judged right, $failed refused"

# whether these records are judged as they are to be
judged() {
    wanted=$1
    shift
    status=0
    "$program" audit "$top/examples/drive-t.toml" "$@" > said 2> /dev/null || status=$?
    if [ "$status" = "$wanted" ]; then passed=$((passed + 1)); else failed=$((failed + 1)); echo "status $status in place of $wanted: $*: $(cat said)"; fi
}

rm -f image
count=0
for trace in "$top"/examples/*.trace; do
    case $trace in
    */large.trace) ;;
    *) count=$((count + 1)) && "$program" record "$top/examples/drive-t.toml" image "$trace" > "$count.record" ;;
    esac
done
judged 0 $(seq -f %g.record "$count")
for one in $(seq "$count"); do
    judged 0 $(seq -f %g.record "$one")
    judged 13 $(seq -f %g.record "$one") "$one.record"
    if [ "$one" -gt 1 ]; then judged 13 "$one.record"; fi
done
echo "examples over one image: $count records, $failed judged otherwise"

cat > drive.toml << 'END'
block = 512
unit_pages = 8
groups = 2
units = 16
area_units = 8
queues = 2
blocks_per_command = 4
fdp = [["initial", "persistent"]]
enabled = true
index = 0
queue_depth = 64
collectors = 1
turns = 1000000
namespaces = [{ blocks = 80, handles = [0, 1] }]
END
load 110 1 80 > one.trace
load 110 2 80 > two.trace

# audits each wrong text of a record, behind those before it
wrong() {
    through=0
    rm -rf texts
    mkdir texts
    python3 "$top/bench/audits.py" record texts | awk -v step="$step" 'NR % step == 0' > list
    while read -r name what number; do
        status=0
        "$program" audit drive.toml "$@" "$name" > said 2> /dev/null || status=$?
        case $status in
        13 | 14) passed=$((passed + 1)) ;;
        0) through=$((through + 1)); echo "let through: line $number $what: $(sed -n "${number}p" "$name")" ;;
        *) failed=$((failed + 1)); echo "status $status: line $number $what" ;;
        esac
    done < list
    echo "wrong texts of a record of $(wc -l < record) lines: $through of $(wc -l < list) were let through"
}

rm -f image
"$program" record drive.toml image one.trace two.trace > record
"$program" audit drive.toml record
wrong
mv record before
load 40 3 80 > one.trace
load 40 4 80 > two.trace
"$program" record drive.toml image one.trace two.trace > record
"$program" audit drive.toml before record
wrong before

sed -e 's/^unit_pages.*/unit_pages = 64/' -e 's/^units.*/units = 64/' -e 's/^block = .*/block = 4096/' -e 's/^queues = .*/queues = 7/' -e 's/^namespaces.*/namespaces = [{ blocks = 6000, handles = [0, 1] }]/' drive.toml > wide.toml
for size in "2 2200" "4 3600" "7 7250"; do
    rm -f image ./*.trace
    for queue in $(seq "${size% *}"); do load "${size#* }" "$queue" 6000 > "$queue.trace"; done
    "$program" record wide.toml image ./*.trace > record
    began=$(date +%s%N)
    "$program" audit wide.toml record
    ended=$(date +%s%N)
    echo "$(wc -c < record) bytes, $(wc -l < record) lines: $(((ended - began) / 1000000)) ms"
done
echo "audits: $passed passed, $failed failed"
[ "$failed" = 0 ]
