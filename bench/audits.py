# Wrong records for bench/audits.sh: of each line of a record one that lacks it, one that has it twice, one that has it changed over with the next, and one with one digit changed.
# Usage: audits.py RECORD FOLDER. It writes them into the folder, and prints for each the name of its file and what was done.
import re
import sys

record, folder = sys.argv[1:]
lines = open(record).read().splitlines(keepends=True)
made = 0


def write(what, number, changed):
    global made
    if changed == lines:
        return
    made += 1
    name = f"{folder}/{made}"
    with open(name, "w") as file:
        file.write("".join(changed))
    print(name, what, number)


for at, line in enumerate(lines):
    before, behind = lines[:at], lines[at + 1 :]
    write("without", at + 1, before + behind)
    write("twice", at + 1, before + [line, line] + behind)
    if behind:
        write("changed-over", at + 1, before + [behind[0], line] + behind[1:])
    digits = [it.start() for it in re.finditer("[0-9]", line)]
    if digits:
        place = digits[at % len(digits)]
        other = str((int(line[place]) + 1) % 10)
        write("digit", at + 1, before + [line[:place] + other + line[place + 1 :]] + behind)
