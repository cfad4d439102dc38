#!/usr/bin/env python3
"""Writes a raw .debug_frame or .debug_loclists section (little-endian, addresses of 8 bytes) of a
given shape and size, to be timed.

    bench/times/sections.py SHAPE N > FILE

Frames:
ordinary        N FDEs, each with the six instructions of a function with a frame pointer
descending      the FDEs of `ordinary`, the highest address first
shuffled        the FDEs of `ordinary`, in random order
empty           N FDEs with empty ranges, all at the same address
overlap         N FDEs, the last of which shares an address with the first
nested          N FDEs, each within the one before it
long_cie        N FDEs with one CIE whose program has 100 KB
longest_cie     N FDEs with one CIE whose program has 4 MB
two_cies        N FDEs and two CIEs with programs of 100 KB; the FDEs name the CIEs in turn
full_cie        N FDEs with one CIE whose program gives rules to 128 registers
many_cies       N CIEs, and an FDE for each
full_cies       N CIEs whose programs give rules to 128 registers each, and an FDE for each
remember        one FDE with N pairs of remember_state and restore_state
remember_full   one FDE with N pairs of remember_state and restore_state, each saving 128 rules
remembers       one FDE with N remember_state instructions
rows            one FDE with N rows of 128 rules
rule_sets       one FDE with N rows, each with a different CFA
registers       N CIEs, each with a different return address register, and an FDE for each
ends            FDEs at the lowest and highest addresses and in the middle; N isn't used
nops            one FDE with N nops
expression      one FDE with an expression of N bytes
cie_expression  10,000 FDEs with one CIE that has an expression of N bytes
shown           one FDE with an expression of 1,000 bytes for the CFA, and N rows
branches        one FDE with an expression of N branches, which has 2^N paths
one_target      one FDE with an expression of N branches, groups of 8,000 of which lead to the same
                operation
targets         one FDE with an expression of N branches, each to a different operation, far away
expressions     N FDEs with 20 expressions each
block           one FDE with an expression whose length field says 2^32 - 1, but that has N bytes

Lists:
lists           N lists of one entry each
empty_lists     N lists without entries
entries         one list of N entries
tables          N tables without lists
array           an array of N offsets, all of the same list
count           a table with N bytes after its header, which says that there are 2^32 - 1 offsets
sizes           N lists, each with one expression for a piece of 2^32 - 1 bytes
"""
import random
import struct
import sys

CIE_PROGRAM = bytes.fromhex("0c07089001")
FUNCTION = bytes.fromhex("410e108602430d060320000c0708")
# A CIE's program that gives rules to 128 registers, among them the return address register.
FULL = bytes.fromhex("0c07089001") + b"".join(bytes([0x08, r]) for r in range(127) if r != 16) + bytes.fromhex("08ff01")


def record(body):
    return struct.pack("<I", len(body)) + body


def cie(program=CIE_PROGRAM):
    return record(b"\xff\xff\xff\xff\x04\x00\x08\x00\x01\x78\x10" + program)


def fde(pointer, initial, length, program=FUNCTION):
    return record(struct.pack("<IQQ", pointer, initial, length) + program)


def uleb(n):
    encoded = bytearray()
    while n >= 0x80:
        encoded.append(n & 0x7F | 0x80)
        n >>= 7
    return bytes(encoded + bytes([n]))


def functions(places, pointer=0):
    """An FDE for each number in `places`. That of number i begins at address 0x1000 + 64 * i."""
    return b"".join(fde(pointer, 0x1000 + 64 * i, 64) for i in places)


def each_cie(n, program):
    size = len(cie(program)) + len(fde(0, 0, 0))
    return b"".join(cie(program) + fde(size * i, 0x1000 + 64 * i, 64) for i in range(n))


def registers(n):
    """N CIEs, each with a different return address register, and an FDE for each."""
    section = b""
    for k in range(n):
        offset = len(section)
        section += record(b"\xff\xff\xff\xff\x04\x00\x08\x00\x01\x78" + uleb(k % 65536) + CIE_PROGRAM)
        section += fde(offset, 0x1000 + 64 * k, 64)
    return section


def two_cies(n):
    long = cie(LONG)
    return long + long + b"".join(fde(len(long) * (i % 2), 0x1000 + 64 * i, 64) for i in range(n))


def shuffled(n):
    places = list(range(n))
    random.Random(n).shuffle(places)
    return cie() + functions(places)


LONG = CIE_PROGRAM + b"\x08\x03" * 51200
LONGEST = CIE_PROGRAM + b"\x08\x03" * 2097152


def cfa_is(expression):
    """A CIE, and an FDE that gives the CFA by this expression."""
    return cie() + fde(0, 0x1000, 64, b"\x0f" + uleb(len(expression)) + expression)


def sums(size):
    return b"\x77\x00" + b"\x23\x01" * ((size - 2) // 2)


def one_target(n):
    """An expression of N pairs of lit0 and bra, in groups of at most 8,000 pairs. A group ends with
    a nop, to which all its branches lead."""
    groups = []
    for start in range(0, n, 8000):
        count = min(8000, n - start)
        groups += [b"\x30\x28" + struct.pack("<h", 4 * (count - 1 - i)) for i in range(count)] + [b"\x96"]
    return b"\x77\x00" + b"".join(groups)


def targets(n):
    """An expression of N pairs of lit0 and bra. Each branch leads 32,764 bytes further, or to the
    end of the expression if that is nearer."""
    size = 4 * n
    return b"\x77\x00" + b"".join(b"\x30\x28" + struct.pack("<h", min(32764, size - 4 * (i + 1))) for i in range(n))


FRAMES = {
    "ordinary": lambda n: cie() + functions(range(n)),
    "descending": lambda n: cie() + functions(reversed(range(n))),
    "shuffled": shuffled,
    "empty": lambda n: cie() + b"".join(fde(0, 0x1000, 0, b"") for _ in range(n)),
    "overlap": lambda n: cie() + functions(range(n)) + fde(0, 0x1010, 1, b""),
    "nested": lambda n: cie() + b"".join(fde(0, 0x1000 + i, 2 * (n - i), b"") for i in range(n)),
    "long_cie": lambda n: cie(LONG) + functions(range(n)),
    "longest_cie": lambda n: cie(LONGEST) + functions(range(n)),
    "two_cies": two_cies,
    "full_cie": lambda n: cie(FULL) + functions(range(n)),
    "many_cies": lambda n: each_cie(n, CIE_PROGRAM),
    "full_cies": lambda n: each_cie(n, FULL),
    "remember": lambda n: cie() + fde(0, 0x1000, 64, b"\x0a\x0b" * n),
    "remember_full": lambda n: cie(FULL) + fde(0, 0x1000, 64, b"\x0a\x0b" * n),
    "remembers": lambda n: cie() + fde(0, 0x1000, 64, b"\x0a" * n),
    "rows": lambda n: cie(FULL) + fde(0, 0x1000, n + 1, b"\x41" * n),
    "rule_sets": lambda n: cie() + fde(0, 0x1000, 2 * n, b"".join(b"\x41\x0e" + uleb(16 + k) for k in range(n))),
    "registers": registers,
    "ends": lambda n: cie() + b"".join(fde(0, start, 64) for start in (0, 1 << 63, (1 << 64) - 65)),
    "nops": lambda n: cie() + fde(0, 0x1000, 64, bytes(n)),
    "expression": lambda n: cfa_is(sums(n)),
    "cie_expression": lambda n: cie(CIE_PROGRAM + b"\x0f" + uleb(n // 2 * 2) + sums(n)) + functions(range(10000)).replace(
        FUNCTION, b"\x00" * len(FUNCTION)),
    "shown": lambda n: cie() + fde(0, 0x1000, n + 1, b"\x0f" + uleb(1000) + sums(1000) + b"\x41" * n),
    "branches": lambda n: cfa_is(b"\x77\x00" + b"\x30\x28\x01\x00\x96" * n),
    "one_target": lambda n: cfa_is(one_target(n)),
    "targets": lambda n: cfa_is(targets(n)),
    "expressions": lambda n: cie() + b"".join(
        fde(0, 0x1000 + 64 * i, 64, b"".join(bytes([0x10, r, 2, 0x23, 8 * r]) for r in range(10)) * 2) for i in range(n)),
    "block": lambda n: cie() + fde(0, 0x1000, 64, b"\x0f" + uleb(0xFFFFFFFF) + bytes(n)),
}


def table(lists, offsets=b""):
    body = struct.pack("<HBBI", 5, 8, 0, len(offsets) // 4) + offsets + lists
    return record(body)


LISTS = {
    "lists": lambda n: table(b"\x04\x00\x10\x01\x50\x00" * n),
    "empty_lists": lambda n: table(b"\x00" * n),
    "entries": lambda n: table(b"\x04\x00\x10\x01\x50" * n + b"\x00"),
    "tables": lambda n: table(b"") * n,
    "array": lambda n: table(b"\x04\x00\x10\x01\x50\x00", struct.pack("<I", 4 * n) * n),
    "count": lambda n: record(struct.pack("<HBBI", 5, 8, 0, 0xFFFFFFFF) + bytes(n)),
    "sizes": lambda n: table(b"\x05\x06\x93\xff\xff\xff\xff\x0f\x00" * n),
}


def section(shape, n):
    return (FRAMES.get(shape) or LISTS[shape])(n)


if __name__ == "__main__":
    if len(sys.argv) != 3 or sys.argv[1] not in FRAMES | LISTS:
        raise SystemExit(__doc__)
    sys.stdout.buffer.write(section(sys.argv[1], int(sys.argv[2])))
