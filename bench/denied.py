#!/usr/bin/env python3
"""Runs a program for which one call of the system, by its number, fails with EIO: bench/denied.py NUMBER PROGRAM WORD.."""
import ctypes
import errno
import os
import struct
import sys

NO_NEW_PRIVILEGES, SECCOMP, FILTER = 38, 22, 2
LOAD, EQUAL, ANSWER = 0x20, 0x15, 0x06
ERROR, ALLOW = 0x00050000, 0x7FFF0000


def statement(code, true, false, value):
    return struct.pack("HBBI", code, true, false, value)


number = int(sys.argv[1])
rules = ctypes.create_string_buffer(
    statement(LOAD, 0, 0, 0)
    + statement(EQUAL, 0, 1, number)
    + statement(ANSWER, 0, 0, ERROR | errno.EIO)
    + statement(ANSWER, 0, 0, ALLOW)
)
program = ctypes.create_string_buffer(struct.pack("HxxxxxxP", 4, ctypes.addressof(rules)))
call = ctypes.CDLL(None, use_errno=True).prctl
call.argtypes = [ctypes.c_int] + [ctypes.c_ulong] * 4
if call(NO_NEW_PRIVILEGES, 1, 0, 0, 0) or call(SECCOMP, FILTER, ctypes.addressof(program), 0, 0):
    sys.exit("the system takes no filter of its calls: " + os.strerror(ctypes.get_errno()))
os.execv(sys.argv[2], sys.argv[2:])
