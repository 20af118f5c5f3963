# Writes random traces over every command, with numbers at each edge and behind it: one for each number from 1 to `traces`, in a file of that name, of one to eight
# commands. `seed` chooses them.
function below(n) { state = (state * 16807) % 2147483647; return state % n }
function one(words,   list, n) { n = split(words, list, " "); return list[1 + below(n)] }
function some(words, most,   line, n) { line = one(words); for (n = below(most); n > 0; n--) line = line " " one(words); return line }
function many(word, n,   line) { line = word; while (--n > 0) line = line " " word; return line }
function space() { return one("1 1 1 1 1 1 2 2 3 0 4 16 17 4294967294 4294967295") }
function address() { return one("0 1 2 7 50 59 60 61 96 98 99 100 101 4294967295 4294967296 18446744073709551614 18446744073709551615") }
function count() { return one("1 1 2 4 4 5 64 65 100 101 65535 65536") }
function length_of() { return one("0 0 1 2 8 50 99 100 101 4294967294 4294967295") }
function ranges(  line, n) { line = address() " " length_of(); for (n = one("0 0 1 2 15 16 255"); n > 0; n--) line = line " " address() " " length_of(); return line }
function seed_of() { return one("0 1 2147483648 4294967295") }
function pid() { return one("0 1 2 3 255 256 32767 32768 32769 32770 32771 65535") }
function dwords() { return one("1 2 3 4 16 1023 1024 1025 65535 65536") }
function written(word) { return word " " space() " " address() " " count() }
function command(kind) {
    if (kind < 5) return written("write") " " seed_of() (below(2) ? " pid " pid() : "")
    if (kind == 5) return written("write") " " seed_of() "\nwrite 1 " address() " " count() " " seed_of() " pid " pid()
    if (kind == 6) return "read " space() " " address() " " one("1 2 4 5 64 100 101 900")
    if (kind == 7) return written("zero")
    if (kind < 10) return "dealloc " space() " " ranges()
    if (kind == 10) return "flush " space()
    if (kind == 11) return "delete " space()
    if (kind == 12) return "status " space() " " dwords()
    if (kind == 13) return "update " space() " " (below(4) ? some("0 1 2 3 32768 32769 32770 32771 65535", 4) : many(pid(), one("63 64 65 256")))
    if (kind == 14) return "log " one("0 0x20 0x21 0x22 0x23 0x24 255") " " one("0 1 4 8 64 4294967296 18446744073709551612 18446744073709551615") " " dwords() one("\\_ _host _ctrl")
    if (kind == 15) return "set-fdp " one("on off") " " one("0 0 1 1 2 3 255") (below(2) ? "\nget-fdp" : "")
    if (kind == 16) return "set-events " space() " " one("0 1 2 3 65535") " " one("on off") " " (below(4) ? some("0 1 2 3 0x80 0x81", 6) : some("0 3 4 0x7f 0x82 255", 6))
    return "create " one("0 1 2 8 59 60 61 100 160 161 4294967296 18446744073709551615") (below(3) ? " " some("0 1 2", 3) : below(2) ? " " many(one("0 3 65535"), one("15 16 17 32")) : "")
}
BEGIN {
    state = 1 + seed % 2147483646
    for (n = 0; n < 10; n++) below(1)
    for (t = 1; t <= traces; t++) {
        for (n = 1 + below(8); n > 0; n--) { line = command(below(18)); gsub(/\\_/, "", line); gsub(/_/, " ", line); print line > t }
        close(t)
    }
}
