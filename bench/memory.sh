#!/bin/sh
# Compares each place of the sources that makes an answer of want of memory with bench/memory.txt, where it stands with its reason. Contracts leave that answer free,
# so this list is what says that no body gives it at will.
# Usage: bench/memory.sh. It builds nothing and takes a second; what stands only in the sources or only in the list is printed, and the status is 1 then.
#
# Gathered is a line that makes `NoMemory`, `Memory`, `OutOfMemory`, `AllocError`, `AllocFailed` or `NotMade`, in the crates that end a process also the status 7, and
# the call of a function that answers one of these whatever it is given. Left out is an arm each of whose alternatives tells want of memory itself, since it only hands
# the answer on; `?` makes none. A place is told by the lines that it stands in, from the outermost to its own: so a condition that is changed is another place.
set -eu
export LC_ALL=C
top=$(cd "$(dirname "$0")/.." && pwd)
list=$top/bench/memory.txt
work=$(mktemp -d)
trap 'rm -rf "$work"' EXIT

cat > "$work/gather.awk" <<'CODE'
function count(text, sign) { return gsub(sign, "", text) }

# Whether a name stands in a text as a word of its own.
function has(text, name) { return text ~ ("(^|[^A-Za-z0-9_])(" name ")([^A-Za-z0-9_]|$)") }

# Keeps a line of code, without what is behind a comment's sign.
function keep(text, indent) {
    lines++
    code[lines] = text
    depth[lines] = indent
    file[lines] = path
}

# Whether each alternative of a pattern tells want of memory. A name without its type may be a binding, which takes everything.
function tells(pattern, path,    parts, number, at) {
    if (pattern ~ /!/) return 0
    number = split(pattern, parts, "|")
    for (at = 1; at <= number; at++) {
        if (parts[at] ~ /::NoMemory([^A-Za-z0-9_]|$)/ || parts[at] ~ /LineError::Memory([^A-Za-z0-9_]|$)/) continue
        if (parts[at] ~ /\.is_memory\(\)/ || parts[at] ~ /== (io::)?ErrorKind::OutOfMemory/) continue
        if (parts[at] ~ /\(NotMade \{/ || (has(parts[at], "AllocError") && (path in imports))) continue
        return 0
    }
    return 1
}

# What a line makes: all of it but its pattern, types, and what is only compared with.
function made_by(text,    at) {
    if (at = index(text, " =>")) text = substr(text, at + 3)
    else if (text ~ /(^|[ (])let /) sub(/^[^=]* = /, "", text)
    gsub(/[=!]= [A-Za-z_:]+/, "", text)
    gsub(/AllocError>/, "", text)
    gsub(/(AllocFailed|NotMade)</, "", text)
    if (text ~ /(^| )fn /) {
        gsub(/: AllocError[,)]/, "", text)
        sub(/(^| )fn [a-z0-9_]+/, "", text)
    }
    return text
}

function makes(line,    text, at) {
    if (code[line] ~ /(^| )fn is_memory\(/) return 1
    text = made_by(code[line])
    if (has(text, "NoMemory|Memory|OutOfMemory|AllocError|AllocFailed|NotMade")) return 1
    if (file[line] ~ /^(fdp_cli|fdp_finding|fdpdrive[a-z_]*)\// && has(text, "(7|0x0*7|0o0*7|0b0*111)(_?[iu][0-9]+)?")) return 1
    for (at in answering) if (index(text, at "(") && has(text, at)) return 1
    return 0
}

# The whole head that ends with this line: a closing sign belongs to what was opened at the same depth.
function head_of(line,    text, at) {
    text = code[line]
    at = line
    while (code[at] ~ /^[])}{]/ && at > 1 && file[at - 1] == file[line]) {
        at--
        while (depth[at] > depth[line]) { text = code[at] " " text; at-- }
        text = code[at] " " text
    }
    begin = at
    return text
}

# The lines that a line stands in, and itself. Tells the function that it stands in by `within`, and whether it does so without a condition by `always`.
function place_of(line,    text, head, at, level, name) {
    text = head_of(line)
    within = ""
    always = (text !~ / =>/ && !has(text, "if|else"))
    at = begin
    level = depth[line]
    while (level > 0) {
        at--
        if (at < 1 || file[at] != file[line]) break
        if (depth[at] >= level) continue
        level = depth[at]
        head = head_of(at)
        at = begin
        if (match(head, /(^| )fn [a-z0-9_]+/)) {
            name = substr(head, RSTART, RLENGTH)
            sub(/^ /, "", name)
            head = name " {"
            if (within == "") within = substr(name, 4)
        } else if (within == "" && (head ~ / =>/ || has(head, "if|else|match|for|while|loop"))) always = 0
        text = head " " text
    }
    return text
}

# What does not end would hide the code behind it.
function check_end() {
    if (open > 0 || using || listing >= 0) print path ": a contract, an import or a declaration without an end"
}

BEGIN { listing = -1 }
FNR == 1 {
    check_end()
    path = FILENAME
    open = 0
    using = 0
    listing = -1
}
{
    indent = match($0, /[^ ]/) - 1
    text = substr($0, indent + 1)
    if (text == "" || text ~ /^\/\// || text ~ /^#!?\[/) next
    # Not where the sign stands in a text of the code.
    if ((at = index(text, " //")) && count(substr(text, 1, at), "\"") % 2 == 0) text = substr(text, 1, at - 1)
}
# Contracts and what stands only for the proofs.
open > 0 || text ~ /^(ghost|ensures|requires) / {
    open += count(text, "{") - count(text, "}")
    if (open < 0) open = 0
    next
}
# Imports make nothing; another name for one of the answers would hide it.
using || text ~ /^(pub(\([a-z]+\))? )?use / {
    using = text !~ /;/
    if (has(text, "AllocError")) imports[path] = 1
    if (text ~ /(NoMemory|Memory|AllocError|AllocFailed|NotMade) as /) keep(text, indent)
    next
}
# Declarations of variants.
listing >= 0 {
    if (indent == listing && text ~ /^}/) listing = -1
    next
}
text ~ /^(pub(\([a-z]+\))? )?enum / {
    if (text !~ /}/) listing = indent
    next
}
{ keep(text, indent) }

END {
    check_end()
    # A function that always answers so is looked for by its name in its turn.
    do {
        more = 0
        for (line = 1; line <= lines; line++) {
            if ((line in found) || !makes(line)) continue
            at = index(code[line], " =>")
            if (at && tells(substr(code[line], 1, at - 1), file[line])) continue
            found[line] = file[line] ": " place_of(line)
            if (always && within != "" && within != "from" && !(within in answering)) {
                answering[within] = 1
                more = 1
            }
        }
    } while (more)
    for (line in found) print found[line]
}
CODE

cd "$top/crates"
find ./*/src -name '*.rt' | sed 's/^\.\///' | grep -v -e '^[a-z_]*_rows/' -e '^[a-z_]*_tests/' -e '/src/tests[./]' -e '/tests\.rt$' -e '/tests/' | sort > "$work/files"
xargs awk -f "$work/gather.awk" < "$work/files" | sort > "$work/made"
grep -v -e '^#' -e '^$' "$list" > "$work/lines" || true
sed 's/ -- .*//' "$work/lines" | sort > "$work/listed"
comm -23 "$work/made" "$work/listed" > "$work/unlisted"
comm -13 "$work/made" "$work/listed" > "$work/gone"
grep -v ' -- [A-Za-z]' "$work/lines" > "$work/bare" || true

sed 's/^/not in the list: /' "$work/unlisted"
sed 's/^/not in the sources: /' "$work/gone"
sed 's/^/without a reason: /' "$work/bare"
passed=$(comm -12 "$work/made" "$work/listed" | wc -l)
failed=$(cat "$work/unlisted" "$work/gone" "$work/bare" | wc -l)
echo "memory: $passed passed, $failed failed"
[ "$failed" -eq 0 ]
