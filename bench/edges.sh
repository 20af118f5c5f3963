#!/bin/sh
# Tries the edges of the program that no proof sees: exit statuses, and what is told on standard error; folders, devices and damaged files in place
# of texts and images; each limit of words, texts, traces and drives, served once; an output that is not taken; calls and memory that the system
# refuses. After some of these the image is opened anew, and its blocks must be those of a beginning of the run.
# Usage: bench/edges.sh. The program is the one that ./fdpdrive runs. It takes half a minute, and two hundred megabytes beside a sparse file of a gigabyte. The last line counts the checks; where one failed, the status is 1.
set -eu
top=$(cd "$(dirname "$0")/.." && pwd)
program=$("$top/fdpdrive" program)
work=$(mktemp -d)
trap 'rm -rf "$work"' EXIT
chmod 755 "$work"
cp "$program" "$work/program"
cd "$work"
passed=0 failed=0 as=

# counts a check: what is tried, what is wanted, and what came
check() {
    if [ "$2" = "$3" ]; then
        passed=$((passed + 1))
        echo "as expected: $1${2:+: $2}"
    else
        failed=$((failed + 1))
        printf 'NOT as expected: %s\n  wanted: %s\n  came:   %s\n' "$1" "$2" "$3"
    fi
}

# runs the program with these words
run() {
    ended=0
    $as ./program "$@" > printed 2> said || ended=$?
}

# runs it on the image of a new drive, and expects this status, this first line and, if one is given, this reason on standard error, beside what is advised
ends() {
    reason=${3:+fdpdrive: $3}
    wanted="status $1, $2, $reason"
    shift 3
    cp new.img drive.img
    run "$@"
    if [ -z "$reason" ] || grep -Fqx "$reason" said; then told=$reason; else told=$(cat said); fi
    check "$*" "$wanted" "status $ended, $(head -n 1 printed), $told"
}

# runs it, and expects just these completions, from standard input
serves() {
    tried=$1
    shift
    cat > wanted
    run "$@"
    sed '/^stats /d; /^ruh /d; /^event /d' printed > got
    came="status $ended, $(cat said)"
    if cmp -s wanted got; then came="$came, all completions"; else came="$came, $(diff wanted got | head -n 4)"; fi
    check "$tried" "status 0, , all completions" "$came"
}

# The image has the blocks that the first so many writes of long.trace leave, for one number of them: block i has the number of the last write to it.
blocks=52
beginning() {
    ./program run s.toml drive.img blocks.trace > reopened || { echo "no image that opens: $(cat reopened)"; return; }
    grep '^  ' reopened | awk -v b=$blocks '
        { number = 0; for (i = 1; i <= 8; i++) number = number * 16 + index("0123456789abcdef", substr($1, i, 1)) - 1; has[NR - 1] = number; if (number > last) last = number }
        END {
            for (i = 0; i < b; i++) { want = (last > i ? i + 1 + int((last - 1 - i) / b) * b : 0); if (has[i] != want) { print "the blocks of no beginning"; exit } }
            print "the blocks of a beginning"
        }'
}

cp "$top/examples/drive-s.toml" s.toml
cp "$top/examples/first.trace" first.trace
mkdir folder
: > empty
ln -s loop loop
cp first.trace hidden
chmod 000 hidden
awk -v b=$blocks 'BEGIN { for (i = 0; i < 8192; i++) print "write 1", i % b, 1, i + 1 }' > long.trace
awk -v b=$blocks 'BEGIN { for (i = 0; i < b; i++) print "read 1", i, 1 }' > blocks.trace
run run s.toml new.img blocks.trace

# the page of help, which ./fdpdrive itself prints
page="A model of an NVMe drive with Flexible Data Placement, whose promise is proved."
for word in '' help -h --help; do
    ended=0
    "$top/fdpdrive" ${word:+"$word"} > printed 2> said || ended=$?
    check "./fdpdrive $word" "status 0, $page, " "status $ended, $(head -n 1 printed), $(cat said)"
done

# words, texts and images that are not there, are of another kind or may not be read
ends 1 "fault 1 usage" ""
ends 1 "fault 1 usage" "" ""
ends 1 "fault 1 usage" "" run s.toml drive.img
ends 2 "fault 2 config absent" "" run absent drive.img first.trace
ends 2 "fault 2 config missing block" "" run empty drive.img first.trace
ends 3 "fault 3 trace 1 absent" "" run s.toml drive.img absent
ends 3 "fault 3 trace 2 queue" "" run s.toml drive.img first.trace first.trace
ends 3 "fault 3 trace 1 long" "" run s.toml drive.img /dev/zero
ends 5 "fault 5 flash" "folder: Is a directory (os error 21)" run s.toml folder first.trace
ends 5 "fault 5 flash" "absent/drive.img: No such file or directory (os error 2)" run s.toml absent/drive.img first.trace
ends 5 "fault 5 flash" "/dev/null: a folder or a device, and no file" run s.toml /dev/null first.trace
ends 5 "fault 5 flash" "first.trace: the file does not begin with the head of a flash" run s.toml first.trace first.trace
ends 6 "fault 6 source" "folder: the file cannot be read" run folder drive.img first.trace
ends 6 "fault 6 source" "folder: the file cannot be read" run s.toml drive.img folder
ends 6 "fault 6 source" "empty/text: Not a directory (os error 20)" run s.toml drive.img empty/text
ends 6 "fault 6 source" "loop: Too many levels of symbolic links (os error 40)" run s.toml drive.img loop
if [ "$(id -u)" = 0 ]; then as="setpriv --reuid=65534 --regid=65534 --clear-groups"; fi
ends 6 "fault 6 source" "hidden: Permission denied (os error 13)" run s.toml drive.img hidden
as=
ends 0 "queue 1" "" run s.toml drive.img empty
ends 0 "queue 1" "" record s.toml drive.img first.trace

# the file of an image: its head and its length; damaged images; one that no run makes any longer
check "the head of an image" "464450464c415348010000000002000008000000010000000c00000004000000" "$(head -c 32 new.img | od -An -v -tx1 | tr -d ' \n')"
check "the length of an image" 87232 "$(wc -c < new.img)"
head -c 5000 new.img > short.img
ends 5 "fault 5 flash" "short.img: the file ends before the last page of its flash" run s.toml short.img first.trace

# puts a byte into the spare bytes or, from 32 on, the block of a page of an image of drive S: the image, the page, the place there, the byte
put() { printf "$4" | dd of="$1" bs=1 seek=$((192 + 544 * $2 + $3)) conv=notrunc status=none; }
run run s.toml used.img first.trace
cp used.img data.img
put data.img 0 0 '\377'
ends 4 "fault 4 image bad 0" "" run s.toml data.img first.trace
cp used.img checkpoint.img
put checkpoint.img 96 32 '\377'
put checkpoint.img 128 32 '\377'
ends 4 "fault 4 image bad 96" "" run s.toml checkpoint.img first.trace
cp used.img spent.img
for page in $(seq 96 159); do put spent.img "$page" 15 '\100'; done
ends 4 "fault 4 image spent" "" run s.toml spent.img first.trace

# the longest texts, and texts a byte longer; the most commands of a trace, and one more
{ cat s.toml; echo "#"; } > least
{ cat least; yes "# a comment of a configuration" | head -c $((65536 - $(wc -c < least))); } > longest.toml
{ cat longest.toml; printf x; } > longer.toml
printf 'write 1 0 1 7\n' > least
{ cat least; yes "# a comment of a trace" | head -c $((16777216 - $(wc -c < least) - 11)); printf '\nread 1 0 1'; } > longest.trace
{ cat longest.trace; printf '\n'; } > longer.trace
{ yes "# a comment of a trace" | head -n 50000; cat first.trace; } > middle.trace
cat > first.output <<'OUT'
queue 1
0 write 0/00 00000000
1 read 0/00 00000000
  00000007
OUT
serves "a configuration of 65,536 bytes" run longest.toml drive.img first.trace < first.output
ends 2 "fault 2 config long" "" run longer.toml drive.img first.trace
serves "a trace of more than 1 MiB" run s.toml drive.img middle.trace < first.output
serves "a trace of 16 MiB" run s.toml drive.img longest.trace < first.output
ends 3 "fault 3 trace 1 long" "" run s.toml drive.img longer.trace

# streams: one of 16,777,216 bytes, in 32 writes of 32,763 blocks, each of more blocks than a command may have; one with a byte more; one with another end; the folder and the absent
# file that no stream is
little() { for place in 0 8 16 24; do printf "\\$(printf %03o $(($1 >> place & 255)))"; done; }
zeros() { head -c "$1" /dev/zero; }
blocks_written() { little 0; little $((512 * $1)); zeros 8; little 1; little 1; zeros 40; little $(($1 - 1)); zeros $((12 + 512 * $1)); }
{ for write in $(seq 31); do blocks_written 1024; done; blocks_written 1019; } > longest.stream
check "the length of the longest stream" 16777216 "$(wc -c < longest.stream)"
{ cat longest.stream; zeros 1; } > longer.stream
{ head -c 16777215 longest.stream; } > cut.stream
awk 'BEGIN { print "queue 1"; for (i = 0; i < 32; i++) print i " write 0/02 00000000" }' > longest.output
cp new.img drive.img
serves "a stream of 16 MiB" stream s.toml drive.img longest.stream < longest.output
ends 12 "fault 12 stream 1 long" "" stream s.toml drive.img longer.stream
ends 12 "fault 12 stream 1 at $((31 * (80 + 1024 * 512))) cut" "" stream s.toml drive.img cut.stream
ends 12 "fault 12 stream 1 absent" "" stream s.toml drive.img absent
ends 12 "fault 12 stream 1 long" "" stream-record s.toml drive.img /dev/zero
ends 6 "fault 6 source" "folder: the file cannot be read" stream s.toml drive.img folder
ends 0 "queue 1" "" stream-record s.toml drive.img empty

cp new.img drive.img
awk 'BEGIN { print "queue 1"; for (i = 0; i < 8192; i++) print i " write 0/00 00000000" }' > long.output
serves "a trace of 8,192 commands" run s.toml drive.img long.trace < long.output
check "and what it left" "the blocks of a beginning" "$(beginning)"
{ cat long.trace; echo "read 1 0 1"; } > longer.trace
ends 3 "fault 3 trace 1 line 8193 long" "" run s.toml drive.img longer.trace

# three groups, of which the last is written
sed 's/^groups = 1$/groups = 3/' s.toml > three.toml
printf 'write 1 0 1 7 pid 32768\nread 1 0 1\n' > three.trace
serves "a drive of three groups" run three.toml three.img three.trace < first.output
printf 'queue 1\n0 read 0/00 00000000\n  00000007\n' > three.output
echo "read 1 0 1" > three.trace
serves "and what it left" run three.toml three.img three.trace < three.output

# A drive at its limits: 262,144 pages, 16 groups, units of 256 pages, 16 queues and as many traces, 4 configurations of 16 handles, 16 namespaces that
# list them all, 8 collectors. Each trace writes 640 blocks of a namespace, in a group and by a handle of its own, and reads them; so does a second run.
handles=$(seq -s ", " 0 15)
classes=$(yes '"initial"' | head -n 16 | paste -s -d , -)
cat > wide.toml <<OUT
block = 4096
unit_pages = 256
groups = 16
units = 63
area_units = 8
queues = 16
blocks_per_command = 64
fdp = [[$classes], [$classes], [$classes], [$classes]]
enabled = true
index = 3
queue_depth = 1024
collectors = 8
turns = 100000
OUT
for space in $(seq 16); do printf '[[namespaces]]\nblocks = 6000\nhandles = [%s]\n' "$handles" >> wide.toml; done
for queue in $(seq 16); do
    awk -v q="$queue" 'BEGIN { for (i = 0; i < 640; i += 64) print "read", q, i, 64 }' > "$queue.read"
    awk -v q="$queue" 'BEGIN { for (i = 0; i < 640; i += 64) print "write", q, i, 64, 1000000 * q + i, "pid", 4097 * (q - 1) }' | cat - "$queue.read" > "$queue.write"
done
# the completions of those traces: how many writes are in front of the reads
wide_output() {
    awk -v writes="$1" 'BEGIN {
        for (q = 1; q <= 16; q++) {
            print "queue", q
            for (i = 0; i < writes; i++) print i, "write 0/00 00000000"
            for (i = 0; i < 640; i++) { if (i % 64 == 0) print writes + i / 64, "read 0/00 00000000"; printf "  %08x\n", 1000000 * q + i }
        }
    }'
}
# not by pipes: a check behind one is not counted
wide_output 10 > wide.output
serves "sixteen traces on a drive at its limits" run wide.toml wide.img $(seq -f %g.write 16) < wide.output
wide_output 0 > wide.output
serves "and what they left" run wide.toml wide.img $(seq -f %g.read 16) < wide.output
ends 1 "fault 1 usage" "" run wide.toml wide.img $(seq -f %g.read 16) 1.read

# More than 2^20 steps, and as many entries, in one run over units of 256 pages, of which most are erased many times. The last unit is left when 32 of its
# pages are written: the others are blank.
cat > many.toml <<'OUT'
block = 512
unit_pages = 256
groups = 1
units = 10
area_units = 1
queues = 2
blocks_per_command = 64
fdp = [["initial"]]
enabled = true
index = 0
queue_depth = 1024
collectors = 0
turns = 0
namespaces = [{ blocks = 128, handles = [0] }]
OUT
many_trace() { awk -v first="$1" 'BEGIN { for (i = 0; i < 8190; i++) print "write 1", first, 64, i; print "write 1", first, 16, 8190; print "read 1", first, 1 }'; }
many_trace 0 > 1.many
many_trace 64 > 2.many
awk 'BEGIN { for (q = 1; q <= 2; q++) { print "queue", q; for (i = 0; i < 8191; i++) print i, "write 0/00 00000000"; print "8191 read 0/00 00000000\n  00001ffe" } }' > many.output
serves "a run of more than 2^20 steps" run many.toml many.img 1.many 2.many < many.output
holes=$(tail -c +33 many.img | head -c 2560 | od -An -v -w256 -tu1 | awk '{ for (i = 2; i <= NF; i++) if ($i > 0 && $(i - 1) == 0) count++ } END { print count + 0 }')
check "pages of a unit that are not blank behind a blank one" 0 "$holes"
printf 'queue 1\n0 read 0/00 00000000\n  00001ffe\nqueue 2\n0 read 0/00 00000000\n  00001ffe\n' > many.output
tail -n 1 1.many > 1.read
tail -n 1 2.many > 2.read
serves "and what it left" run many.toml many.img 1.read 2.read < many.output

# generated loads
ends 1 "fault 1 usage" "" make 8193 make.img
ends 0 "make 1001 commands 4004 ok 4004 hbmw 98435072 read 4000 same 4000" "" make 1001 make.img
ends 0 "make 8192 commands 32768 ok 32768 hbmw 805306368 read 32768 same 32768" "" make 8192 make.img

# an output that is not taken
cp new.img drive.img
ended=0
./program run s.toml drive.img long.trace > /dev/full 2> said || ended=$?
check "a full device takes no output" "status 8, the blocks of a beginning" "status $ended, $(beginning)"
cp new.img drive.img
{ ended=0; ./program run s.toml drive.img long.trace 2> said || ended=$?; echo "$ended" > status; } | head -n 1 > printed
case $(cat status) in 0 | 8) came="status 0 or 8" ;; *) came="status $(cat status)" ;; esac
check "a pipe that is closed" "status 0 or 8, the blocks of a beginning" "$came, $(beginning)"

# files that the system does not let grow, and does not bring to its device (call 74 is fsync): the first is not left behind, the second is told of
ended=0
(trap '' XFSZ; ulimit -f 16; exec ./program run s.toml grown.img first.trace) > printed 2> said || ended=$?
if [ -e grown.img ]; then came="it is left"; else came="it is not left"; fi
check "an image that cannot be made whole" "status 5, fdpdrive: grown.img: a call of the file failed, it is not left" "status $ended, $(head -n 1 said), $came"
cp new.img drive.img
ended=0
"$top/bench/denied.py" 74 ./program run s.toml drive.img first.trace > printed 2> said || ended=$?
check "an image that is not brought to its device" "status 0, fdpdrive: drive.img: Input/output error (os error 5)" "status $ended, $(cat said)"

# An output of 70 megabytes, with 100 megabytes of memory: enough for the history, which holds 34 megabytes of pages of logs, and not for the output beside it.
awk 'BEGIN { for (i = 0; i < 8192; i++) print "log 0x20 0 1024" }' > logs.trace
cp new.img drive.img
ended=0
(ulimit -d 100000 && exec ./program run s.toml drive.img logs.trace) > printed 2> said || ended=$?
check "an output that is longer than memory" "status 0, 1048576 lines of data" "status $ended, $(grep -c '^  ' printed) lines of data"

# Limits below which the system does not start the program at all say nothing of it. The last one suffices.
started=0
for kilobytes in 3000 3500 4000 4500 5000 6000 7000 8000 9000 1000000; do
    cp new.img drive.img
    ended=0
    (ulimit -v "$kilobytes" && exec ./program run s.toml drive.img long.trace) > printed 2> said || ended=$?
    case $ended in
    0 | 7) started=$((started + 1)) came="status 0, 7 or 127" ;;
    127) came="status 0, 7 or 127" ;;
    *) came="status $ended" ;;
    esac
    check "$kilobytes kilobytes of memory" "status 0, 7 or 127, the blocks of a beginning" "$came, $(beginning)"
done
check "the last of them suffices" "status 0" "status $ended"
if [ "$started" -lt 2 ]; then check "limits that are met" "at least one" "none"; fi

echo "edges: $passed passed, $failed failed"
[ "$failed" -eq 0 ]
