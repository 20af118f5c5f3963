#!/bin/sh
# Runs every command in README.md and below docs/ and compares what it prints, standard error included, with the lines below it.
# A block of commands is marked as console: each line that begins with "$ " is a command, and what follows up to the next one is what it prints. The commands of
# a document run one after another in one shell, in a folder of the document's own that has examples/ and ./fdpdrive. A command in any other block fails.
# Usage: bench/documents.sh [DOCUMENT ..], all documents if none is named, and then that docs/CRATES.md is what bench/crates.sh prints. The program is the one that ./fdpdrive runs.
set -eu
top=$(cd "$(dirname "$0")/.." && pwd)
FDPDRIVE=$("$top/fdpdrive" program)
export FDPDRIVE
work=$(mktemp -d)
trap 'rm -rf "$work"' EXIT
cd "$top"
all=0
[ $# -gt 0 ] || { all=1 && set -- README.md docs/*.md; }

# A shell script of the commands of a document, whose outputs go to files by the number of their line; and what is expected of each, beside them.
script_of() {
    awk -v to="$work/found" '
        function keep(line, file) { file = to "/" at "." file; print line > file; close(file) }
        function begin(file) { file = to "/" at "." file; printf "" > file; close(file) }
        /^```/ { is_in = !is_in; is_run = is_in && $0 == "```console"; at = 0; next }
        is_in && /^\$ / {
            at = NR
            begin("wanted")
            if (!is_run) { begin("printed"); keep("no command may stand in a block that is not marked as console", "command"); next }
            keep(substr($0, 3), "command")
            print "exec > " to "/" at ".printed 2>&1; (exit ${last:-0})"
            print substr($0, 3)
            print "last=$?"
            next
        }
        is_run && at { print >> (to "/" at ".wanted"); close(to "/" at ".wanted") }' "$1"
}

passed=0 failed=0
for document; do
    rm -rf "$work/found" "$work/folder"
    mkdir "$work/found" "$work/folder"
    cp -r examples "$work/folder"
    printf '#!/bin/sh\nexec "%s/fdpdrive" "$@"\n' "$top" > "$work/folder/fdpdrive"
    chmod +x "$work/folder/fdpdrive"
    script_of "$document" > "$work/script"
    (cd "$work/folder" && sh "$work/script") < /dev/null > "$work/said" 2>&1 || true
    for line in $(ls "$work/found" | sed -n 's/\.command$//p' | sort -n); do
        found=$work/found/$line
        if grep -q '^no command may' "$found.command" || ! cmp -s "$found.wanted" "$found.printed"; then
            failed=$((failed + 1))
            echo "$document, line $line: NOT as expected: $(cat "$found.command")"
            [ -f "$found.printed" ] || echo "it was not run" > "$found.printed"
            diff "$found.wanted" "$found.printed" | sed 's/^/    /' || true
        else
            passed=$((passed + 1))
        fi
    done
done
if [ "$all" = 1 ]; then
    if bench/crates.sh | cmp -s - docs/CRATES.md; then
        passed=$((passed + 1))
    else
        failed=$((failed + 1))
        echo "docs/CRATES.md: NOT as expected: bench/crates.sh prints something else"
    fi
fi
echo "documents: $passed passed, $failed failed"
[ "$failed" -eq 0 ]
