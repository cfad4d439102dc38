#!/usr/bin/env python3
"""Writes what the `.eh_frame` section of a program for x86-64 says as a `.debug_frame` section, for
measurements of what reads only that.

    bench/times/eh_frame.py PROGRAM OUT

Augmentations are left out, addresses become absolute, and `DW_CFA_GNU_args_size` becomes
`DW_CFA_nop`. Addresses have to be relative to themselves and have four bytes, as compilers write
them.
"""
import os
import re
import struct
import subprocess
import sys
import tempfile

ARGS_SIZE = 0x2E
# The operands of each instruction: n bytes, L for LEB128, B for a block.
OPERANDS = {
    0x00: "", 0x01: "8", 0x02: "1", 0x03: "2", 0x04: "4", 0x05: "LL", 0x06: "L", 0x07: "L", 0x08: "L", 0x09: "LL",
    0x0A: "", 0x0B: "", 0x0C: "LL", 0x0D: "L", 0x0E: "L", 0x0F: "B", 0x10: "LB", 0x11: "LL", 0x12: "LL", 0x13: "L",
    0x14: "LL", 0x15: "LL", 0x16: "LB", ARGS_SIZE: "L",
}


def uleb(data, at):
    """The LEB128 number at an offset, and the offset after it."""
    value = shift = 0
    while True:
        byte = data[at]
        value |= (byte & 0x7F) << shift
        at, shift = at + 1, shift + 7
        if byte < 0x80:
            return value, at


def silenced(program):
    """A program without `DW_CFA_GNU_args_size`."""
    program = bytearray(program)
    at = 0
    while at < len(program):
        begin, code = at, program[at]
        operands = OPERANDS[code] if code < 0x40 else "L" if code & 0xC0 == 0x80 else ""
        at += 1
        for operand in operands:
            if operand in "LB":
                value, at = uleb(program, at)
                at += value if operand == "B" else 0
            else:
                at += int(operand)
        if code == ARGS_SIZE:
            program[begin:at] = bytes(at - begin)
    return bytes(program)


def cie(body):
    """A CIE without its augmentation, and whether its FDEs have augmentation data."""
    end = body.index(0, 5)
    letters = body[5:end].decode()
    at = uleb(body, uleb(body, end + 1)[1])[1] + 1
    numbers = body[end + 1 : at]
    if letters:
        size, data = uleb(body, at)
        at = data + size
        if not letters.startswith("z") or body[data + letters.find("R") - 1 : at][-1:] != b"\x1b":
            raise ValueError(f"the augmentation {letters}")
    return b"\xff" * 4 + body[4:5] + b"\0" + numbers + silenced(body[at:]), bool(letters)


def debug_frame(section, address):
    """The `.debug_frame` section for an `.eh_frame` section at an address."""
    made, cies, at = bytearray(), {}, 0
    while at + 4 <= len(section):
        begin, (length,) = at, struct.unpack_from("<I", section, at)
        body, at = section[at + 4 : at + 4 + length], at + 4 + length
        if length == 0:
            continue
        (pointer,) = struct.unpack_from("<I", body)
        if pointer == 0:
            record, has_data = cie(body)
            cies[begin] = (len(made), has_data)
        else:
            place, has_data = cies[begin + 4 - pointer]
            first, size = struct.unpack_from("<iI", body, 4)
            data, program = uleb(body, 12) if has_data else (0, 12)
            record = struct.pack("<IQQ", place, address + begin + 8 + first, size) + silenced(body[program + data :])
        made += struct.pack("<I", len(record)) + record
    return bytes(made)


def of_program(path):
    """The `.debug_frame` section for a program's `.eh_frame` section. None if it has none."""
    shown = subprocess.run(["readelf", "-SW", path], capture_output=True, text=True).stdout
    found = re.search(r" \.eh_frame +(?:PROGBITS|X86_64_UNWIND) +([0-9a-f]+) ", shown)
    if not found:
        return None
    with tempfile.TemporaryDirectory() as folder:
        out = os.path.join(folder, "section")
        subprocess.run(["objcopy", "--dump-section", f".eh_frame={out}", path, "/dev/null"], check=True)
        with open(out, "rb") as file:
            return debug_frame(file.read(), int(found[1], 16))


if __name__ == "__main__":
    if len(sys.argv) != 3:
        sys.exit(__doc__)
    made = of_program(sys.argv[1])
    if made is None:
        sys.exit("no .eh_frame section")
    with open(sys.argv[2], "wb") as out:
        out.write(made)
