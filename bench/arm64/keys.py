#!/usr/bin/env python3
"""Compares the keys with which files for arm64 sign return addresses: what readelf prints of their tables, what objdump prints
of their code, and what dwcheck-elf's lint finds.

    bench/arm64/keys.py DWCHECK-ELF FILE..

A function signs with key A if paciasp is in the range of its FDE, and with key B if pacibsp is. The table names B by this
letter in the augmentation of the FDE's CIE, and A without it. Prints a line for each file: how many functions sign with each
key, in how many the table names the other one, and how many `wrong key` the lint finds. The status is 1 if these two numbers
differ in a file, or if no file signs.
"""
import bisect
import re
import subprocess
import sys

PREFIX = "aarch64-linux-gnu-"
CIE = re.compile(r"^([0-9a-f]+) [0-9a-f]+ [0-9a-f]+ CIE")
AUGMENTATION = re.compile(r'^  Augmentation: +"(.*)"')
FDE = re.compile(r"^[0-9a-f]+ [0-9a-f]+ [0-9a-f]+ FDE cie=([0-9a-f]+) pc=([0-9a-f]+)\.\.([0-9a-f]+)")
SIGNS = re.compile(r"^ *([0-9a-f]+):\t.*\tpaci([ab])sp", re.MULTILINE)


def printed(*words):
    """What a command prints."""
    return subprocess.run(words, capture_output=True, text=True, check=False).stdout


def fdes_of(path):
    """The FDEs of `.eh_frame`, ascending: the first address, that after the last one, and the key that the table names."""
    text = printed(PREFIX + "readelf", "--wide", "--debug-dump=frames", path)
    text = text.partition("Contents of the .eh_frame section")[2].partition("Contents of the .debug_frame section")[0]
    keys, fdes, cie = {}, [], None
    for line in text.splitlines():
        if found := CIE.match(line):
            cie = int(found[1], 16)
        elif found := AUGMENTATION.match(line):
            keys[cie] = "b" if "B" in found[1] else "a"
        elif found := FDE.match(line):
            fdes.append((int(found[2], 16), int(found[3], 16), keys[int(found[1], 16)]))
    return sorted(fdes)


def keys_of(path):
    """How many functions sign with each key, and in how many the table names the other one."""
    fdes = fdes_of(path)
    signing, others = {"a": set(), "b": set()}, set()
    for address, key in SIGNS.findall(printed(PREFIX + "objdump", "--disassemble", path)):
        place = bisect.bisect(fdes, (int(address, 16), float("inf"))) - 1
        if place >= 0 and int(address, 16) < fdes[place][1]:
            signing[key].add(place)
            if fdes[place][2] != key:
                others.add(place)
    return len(signing["a"]), len(signing["b"]), len(others)


def main():
    """Compares all files."""
    program, files = sys.argv[1], sys.argv[2:]
    failed, signing = 0, 0
    for path in files:
        with_a, with_b, others = keys_of(path)
        found = len(re.findall(r": wrong key at ", printed(program, "lint", path)))
        print(f"{path}: key A {with_a} key B {with_b} other in the table {others} found {found}", flush=True)
        failed += others != found
        signing += with_a + with_b > 0
    return int(failed > 0 or signing == 0)


if __name__ == "__main__":
    sys.exit(main())
