#!/usr/bin/env python3
"""Writes an expression or a state file of a given shape and size, to be timed.

    bench/times/expressions.py SHAPE N > FILE

sums        an expression: a constant, and N additions to it
branches    an expression of N branches, each over one operation
one_target  an expression of N branches, groups of 8,000 of which lead to the same operation
reads       an expression that reads the word at 0x1000 N times
words       a state file of N lines, each of which gives four bytes of memory
backwards   the lines of `words`, the highest address first
again       a state file of N lines, each of which gives the same four bytes of memory
bytes       a state file of one line, which gives N bytes of memory
registers   a state file of N lines, each of which gives a register
"""
import sys

from sections import one_target


def text(shape, n):
    if shape == "sums":
        return b"\x30" + b"\x23\x01" * n
    if shape == "branches":
        return b"\x30" + b"\x30\x28\x01\x00\x96" * n
    if shape == "one_target":
        return one_target(n)
    if shape == "reads":
        return b"\x0a\x00\x10" + b"\x12\x06\x13" * n
    if shape in ("words", "backwards", "again"):
        places = {"words": range(n), "backwards": reversed(range(n)), "again": [0] * n}[shape]
        return "".join(f"mem {0x1000 + 4 * i:#x} {i % 256:02x}010203\n" for i in places).encode()
    if shape == "bytes":
        return b"mem 0x0 " + b"00" * n + b"\n"
    if shape == "registers":
        return "".join(f"reg {i % 65536} {i:#x}\n" for i in range(n)).encode()
    raise SystemExit(__doc__)


if __name__ == "__main__":
    if len(sys.argv) != 3:
        raise SystemExit(__doc__)
    sys.stdout.buffer.write(text(sys.argv[1], int(sys.argv[2])))
