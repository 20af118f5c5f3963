#!/usr/bin/env python3
"""Puts the lines of traces and their frames into files: of each text NAME the lines that have a frame into NAME.trace, and the bytes of the frames into NAME.stream,
as long as a stream may have them.

Usage: bench/streams.py LINES FRAMES: LINES has NAME, a tab and a line of that text in each line, and FRAMES its frame in hexadecimal digits, or the word Uncarried.
"""
import sys

# what a stream may have, in bytes
LIMIT = 2**24

texts = {}
with open(sys.argv[1]) as lines, open(sys.argv[2]) as frames:
    for row, frame in zip(lines, frames, strict=True):
        name, line = row.rstrip("\n").split("\t", 1)
        trace, stream = texts.setdefault(name, ([], []))
        if frame.strip() != "Uncarried" and sum(map(len, stream)) + len(frame) // 2 <= LIMIT:
            trace.append(line + "\n")
            stream.append(bytes.fromhex(frame))
for name, (trace, stream) in texts.items():
    with open(name + ".trace", "w") as file:
        file.writelines(trace)
    with open(name + ".stream", "wb") as file:
        file.writelines(stream)
