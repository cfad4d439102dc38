#!/usr/bin/env python3
"""Damages .eh_frame sections, leaves their bad records out, and measures how the time grows.

    DWCHECK_LIBRARY=build/libdwcheck.so.2.0.0 bench/stress/left_out.py FILE..  [--runs 400] [--seed 1]

In each run, some bytes of a file's section are changed. Then the rows of each FDE whose own bytes and whose CIE's are as
they were have to be those of the file; a section that is accepted without leaving anything out has to lose nothing, and
one that is refused has to lose something, unless two of its FDEs cover the same address. Sections with more and more
records follow, all of which are bad in one way; the seconds that a check takes are printed. This needs pyelftools.
"""
import argparse
import os
import random
import struct
import sys
import time

sys.path.insert(0, os.path.join(os.path.dirname(os.path.dirname(os.path.dirname(os.path.abspath(__file__)))), "python"))
import dwcheck  # noqa: E402
from elftools.elf.elffile import ELFFile  # noqa: E402

OVERLAPPING = 23
# A CIE with pointers of 8 bytes, and one with an instruction that isn't known at its end.
CIE = bytes.fromhex("14000000 00000000 01 7a5200 01 78 10 01 00 0c0708 9001 0000")
BAD_CIE = CIE[:-1] + b"\x3f"


def section_of(path):
    """The file's .eh_frame section, and its address."""
    with open(path, "rb") as file:
        section = ELFFile(file).get_section_by_name(".eh_frame")
        return section.data(), section["sh_addr"]


def parts_of(row):
    """What a row says, without the numbers of the table that it is from."""
    return row and (row.start, row.end, row.cfa, row.rules, row.return_register)


def rows_of(section, address, fdes):
    """Three rows of each FDE, by the FDE's offset."""
    process = dwcheck.Process()
    process.add(section, eh_frame=address)
    return {fde.offset: [(at, parts_of(process.row(at))) for at in (fde.start, (fde.start + fde.end) // 2, fde.end - 1)]
            for fde in fdes if fde.end > fde.start}


def damage(section, records):
    """A copy with some bytes changed, but none of a length, and the offsets of the records that have them."""
    copy, changed = bytearray(section), set()
    for _ in range(random.choice((1, 1, 2, 5, 20))):
        record = random.choice([record for record in records if record.next > record.offset + 4])
        copy[random.randrange(record.offset + 4, record.next)] = random.randrange(256)
        changed.add(record.offset)
    return bytes(copy), changed


def fault_of(section):
    """The number of the section's fault, or None if it is accepted."""
    try:
        section.check()
    except dwcheck.Refused as why:
        return why.number
    return None


def try_section(damaged, address, expected, untouched):
    """What is wrong with the answers for a damaged section: a list that should be empty. And how it ended."""
    fault = fault_of(dwcheck.Section(damaged, eh_frame=address, leave_out=True))
    if fault is not None:
        return ([] if fault == OVERLAPPING else [f"refused by fault {fault}"]), "refused"
    left_out = dwcheck.Section(damaged, eh_frame=address, leave_out=True).left_out()
    is_whole = fault_of(dwcheck.Section(damaged, eh_frame=address)) is None
    wrong = [] if is_whole != bool(left_out) else ["accepted as a whole, and yet records are left out, or the reverse"]
    process = dwcheck.Process()
    process.add(damaged, eh_frame=address, leave_out=True)
    wrong += [f"the row of {at:#x}" for offset in untouched for at, row in expected[offset] if parts_of(process.row(at)) != row]
    return wrong, "bad records left out" if left_out else "nothing left out"


def try_file(path, runs):
    """Damages one file's section once in each run. Returns how many answers were wrong."""
    section, address = section_of(path)
    records = list(dwcheck.Section(section, eh_frame=address))
    fdes = [record for record in records if record.kind == "fde"]
    expected = rows_of(section, address, fdes)
    ends, wrong = {}, 0
    for _ in range(runs):
        damaged, changed = damage(section, records)
        untouched = [fde.offset for fde in fdes if fde.offset in expected and not changed & {fde.offset, fde.cie}]
        found, end = try_section(damaged, address, expected, untouched)
        ends[end] = ends.get(end, 0) + 1
        wrong += len(found)
        print("".join(f"{path}: {what}\n" for what in found[:5]), end="")
    print(f"{path}: {ends}, {wrong} wrong", flush=True)
    return wrong


def fde_at(offset, cie, start):
    """An FDE at an offset for 16 bytes from an address on."""
    return struct.pack("<IIQQB3x", 24, offset + 4 - cie, start, 16, 0)


def bad_sections(count):
    """Sections with that many records that are bad in one way, by what it is."""
    fdes = [fde_at(len(CIE) + 28 * index, 0, 16 * index) for index in range(count)]
    yield "FDEs of one bad CIE", BAD_CIE + b"".join(fdes)
    yield "bad FDEs of one CIE", CIE + b"".join(fde[:-1] + b"\x3f" for fde in fdes)
    yield "bad CIEs, each with an FDE", b"".join(BAD_CIE + fde_at(len(CIE), 0, 16 * index) for index in range(count))
    yield "copies of bad CIEs and FDEs", (BAD_CIE + fde_at(len(CIE), 0, 16)) * count
    yield "FDEs whose CIE isn't there", CIE + b"".join(fde_at(len(CIE) + 28 * index, 2, 16 * index) for index in range(count))


def measure():
    """Prints the seconds of a processor for each kind of bad section, with twice as many records in each column."""
    counts = [12_500, 25_000, 50_000, 100_000]
    times = {}
    for count in counts:
        for name, section in bad_sections(count):
            begun = time.process_time()
            fault_of(dwcheck.Section(section, eh_frame=0x10000000, leave_out=True))
            times.setdefault(name, []).append(time.process_time() - begun)
    for name, seconds in times.items():
        print(f"{name}: " + ", ".join(f"{each:.3f} s for {count}" for each, count in zip(seconds, counts)))


def main():
    parser = argparse.ArgumentParser()
    parser.add_argument("files", nargs="+")
    parser.add_argument("--runs", type=int, default=400)
    parser.add_argument("--seed", type=int, default=1)
    arguments = parser.parse_args()
    random.seed(arguments.seed)
    wrong = sum(try_file(path, arguments.runs) for path in arguments.files)
    measure()
    sys.exit(1 if wrong else 0)


main()
