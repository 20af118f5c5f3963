#!/usr/bin/env python3
"""Prints rows of hostile streams for the program of `fdp_binary_rows`: frames that are whole, changed, cut and mixed with noise.

Usage: bench/hostile.py COUNT [SEED]
"""
import random
import sys

BLOCK = 512


def entry(opcode, flags=0, nsid=1, words=(0, 0, 0, 0)):
    return (
        bytes([opcode, flags, 0, 0])
        + nsid.to_bytes(4, "little")
        + bytes(32)
        + b"".join(word.to_bytes(4, "little") for word in words)
        + bytes(8)
    )


def head(admin, length):
    return bytes([admin, 0, 0, 0]) + length.to_bytes(4, "little") + bytes(8)


def word(rng):
    return rng.choice([0, 1, 2, 3, rng.randrange(256), rng.getrandbits(32)])


def frame(rng):
    admin = rng.randrange(2)
    opcode = rng.choice([0, 1, 2, 8, 9, 0x0A, 0x0D, 0x12, 0x1D, rng.randrange(256)])
    words = [word(rng) for _ in range(4)]
    if admin and opcode in (9, 0x0A):
        words[0] = rng.choice([0x1D, 0x1E, words[0]])
    length = 0
    if not admin and opcode == 1:
        words[2] &= 0xFFF00003
        length = ((words[2] & 3) + 1) * BLOCK
    elif not admin and opcode == 9:
        length = 16 * ((words[0] & 255) + 1)
    elif not admin and opcode == 0x1D:
        words[0] &= 0x0003FFFF
        length = 2 * ((words[0] >> 16) + 1)
    elif admin and opcode == 9 and words[0] & 255 == 0x1E:
        length = words[1] >> 16 & 255
    data = rng.randbytes(length)
    if length and rng.randrange(2):
        data = b"".join((7 + i // BLOCK).to_bytes(4, "little") for i in range(0, length, 4))[:length]
    return head(admin, length) + entry(opcode, 0, word(rng), words) + data


def stream(rng):
    parts = [frame(rng) for _ in range(rng.randrange(5))]
    data = bytearray(b"".join(parts))
    for _ in range(rng.choice([0, 0, 1, 2])):
        if data:
            data[rng.randrange(len(data))] = rng.choice([0, 1, 255, rng.randrange(256)])
    if rng.randrange(3) == 0:
        data = data[: rng.randrange(len(data) + 1)]
    if rng.randrange(8) == 0:
        data = bytearray(rng.randbytes(rng.randrange(200)))
    return bytes(data[:4096])


def main():
    rng = random.Random(int(sys.argv[2]) if len(sys.argv) > 2 else 1)
    for _ in range(int(sys.argv[1])):
        print("stream", BLOCK, stream(rng).hex() or "00*0")


main()
