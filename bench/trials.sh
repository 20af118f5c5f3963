#!/bin/sh
# Tries `./fdpdrive try`, by which the toolchain's interpreter runs words over the sources: statuses, files of one name, an image that stays as it is.
# Usage: bench/trials.sh. The program that makes the image is the one that ./fdpdrive runs. Each of the three trials reads the sources anew, in a minute or two. The last line counts them; where one failed, the status is 1.
set -eu
top=$(cd "$(dirname "$0")/.." && pwd)
program=$("$top/fdpdrive" program)
work=$(mktemp -d)
trap 'rm -rf "$work"' EXIT
cd "$work"
cp "$top/examples/drive-s.toml" s.toml
cp "$top/examples/first.trace" first.trace
mkdir again
cp first.trace again/s.toml
"$program" run s.toml drive.img first.trace > printed
cp drive.img before.img
passed=0 failed=0

# tries these words, and expects that status, that first line, and the image as it was
try() {
    wanted="status $1, $2" ended=0
    shift 2
    "$top/fdpdrive" try "$@" > printed 2> said || ended=$?
    came="status $ended, $(head -n 1 printed)"
    if [ "$came" = "$wanted" ] && cmp -s before.img drive.img; then
        passed=$((passed + 1))
        echo "as expected: $*: $wanted"
    else
        failed=$((failed + 1))
        printf 'NOT as expected: %s\n  wanted: %s, the image as it was\n  came:   %s\n' "$*" "$wanted" "$came"
    fi
}

try 0 "queue 1" run s.toml drive.img first.trace
try 0 "queue 1" run s.toml drive.img again/s.toml
try 2 "fault 2 config absent" run absent drive.img first.trace
echo "trials: $passed passed, $failed failed"
[ "$failed" -eq 0 ]
