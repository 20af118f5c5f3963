# What the scripts that measure share. `. "$top/bench/measures.sh"` prints the script's head for the word --help; else it makes a folder `work`, below TMPDIR if
# that is set, which is removed at the end, and finds the program in `program`. Images lie in that folder: with TMPDIR=/dev/shm on a file system in memory.
if [ "${1:-}" = --help ]; then
    sed -n '2,/^set -eu/{/^#/s/^# \{0,1\}//p}' "$0"
    exit 0
fi
program=$("$top/fdpdrive" program)
work=$(mktemp -d)
trap 'rm -rf "$work"' EXIT
: > "$work/empty.trace"

fail() {
    echo "NOT as expected: $1"
    exit 1
}

# leaves where a tool is not there, with the line that brings it
needs() {
    command -v "$1" > /dev/null || { echo "this needs $1, which is not there: $2" >&2 && exit 1; }
}

# the file system that a folder lies on
file_system() { df --output=fstype "$1" | tail -n 1; }

# says on what is measured, the file systems as they are given if not that of `work`, and warns where others are at work
tell_machine() {
    processors=$(getconf _NPROCESSORS_ONLN)
    load=$(cut -d ' ' -f 1 /proc/loadavg)
    echo "on $processors processors ($(sed -n 's/^model name[^:]*: //p' /proc/cpuinfo | head -n 1)), load $load, images on ${1:-$(file_system "$work")}"
    if awk -v load="$load" -v most="$processors" 'BEGIN { exit !(load > most) }'; then
        echo "this machine is busy: a load of $load on $processors processors, so these figures say little" >&2
    fi
}

# The drive that `make` serves, as a text: so many collectors, of so many turns each.
made_drive() {
    cat << END
block = 4096
unit_pages = 64
groups = 2
units = 128
area_units = 1
queues = 4
blocks_per_command = 64
fdp = [["initial", "initial", "persistent", "persistent"]]
enabled = true
index = 0
queue_depth = 64
collectors = $1
turns = $2
namespaces = [{ blocks = 12288, handles = [0, 1, 2, 3] }]
END
}

# Rows of commands over that drive, three writes of 8 blocks to one read of 4, each scattered over its own quarter of the blocks and with a handle of its own.
# From this number on so many commands of each of these rows, 1 to 4, by turns; the blocks of a write tell its number.
rows() {
    first=$1 count=$2
    shift 2
    echo "$@" | awk -v first="$first" -v count="$count" '{
        for (i = first; i < first + count; i++)
            for (n = 1; n <= NF; n++) {
                row = $n
                x[row] = ((i > first ? x[row] : row + first) * 69069 + 12345) % 4294967296
                lba = 3072 * (row - 1) + 8 * (int(x[row] / 65536) % 384)
                if (i % 4 == 3) printf "read 1 %d 4\n", lba
                else printf "write 1 %d 8 %d pid %d\n", lba, row * 16777216 + 8 * i, row % 2 ? row - 1 : 32768 + row - 1
            }
    }'
}

# Makes `full.img` in `work`, the drive of `made_drive`: each of its 12,288 blocks, three quarters of its pages, was written once, and half as many once more.
# What it wrote is in `before`.
full_drive() {
    made_drive 0 0 > "$work/full.toml"
    awk 'BEGIN { for (row = 1; row < 5; row++) for (i = 0; i < 384; i++) printf "write 1 %d 8 1 pid %d\n", 3072 * (row - 1) + 8 * i, row % 2 ? row - 1 : 32768 + row - 1 }' > "$work/full.trace"
    rows 1000000 256 1 2 3 4 >> "$work/full.trace"
    timed run "$work/full.toml" "$work/full.img" "$work/full.trace"
    before=$(bytes_written)
}

# A run of the program with these words, what it prints in `output`: its nanoseconds in `took`, the milliseconds of its processors in `user` and `system`, the
# kilobytes of its most memory in `memory`.
timed() {
    began=$(date +%s%N)
    /usr/bin/time -o "$work/cost" -f '%U %S %M' "$program" "$@" > "$work/output" || fail "status $? of $*"
    took=$(($(date +%s%N) - began))
    read -r user system memory << END
$(awk '{ print 1000 * $1, 1000 * $2, $3 }' "$work/cost")
END
}

# keeps the costs of the last run where it is the best so far; `best=` comes before the first
keep_best() {
    [ -z "${best:-}" ] || [ "$took" -lt "$best" ] || return 0
    best=$took best_user=$user best_system=$system best_memory=$memory
}

# the bytes that the hosts wrote and the bytes of pages of data that were programmed, of the last run's output
bytes_written() { awk '$1 == "stats" { print $2, $3 }' "$work/output"; }

# for each block of the hosts the pages of data that were programmed, between these two pairs of bytes
programs_a_block() { echo "$1 $2" | awk '{ if ($3 > $1) printf "%.2f", ($4 - $2) / ($3 - $1); else printf "0" }'; }
