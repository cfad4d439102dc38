#!/usr/bin/env python3
"""Checks that dwcheck-elf prints the same rows for ELF files as readelf.

    bench/elf/rows.py DWCHECK_ELF ROWS FILE_OR_FOLDER ..

Files for x86-64 are compared until ROWS rows were equal: of each FDE the address range, and of each
row the address where it begins, the CFA's rule and the registers' rules. Of files with the same
contents only one is compared. The bytes of expressions aren't compared, because readelf shows only
`exp` or `vexp` for an expression. This needs binutils.
"""
import hashlib
import os
import re
import subprocess
import sys

NAMES = ["rax", "rdx", "rcx", "rbx", "rsi", "rdi", "rbp", "rsp"] + [f"r{n}" for n in range(8, 16)] + ["rip"]
NAMES += [f"xmm{n}" for n in range(16)]
FDE = re.compile(r"FDE cie=([0-9a-f]+) pc=([0-9a-f]+)\.\.([0-9a-f]+)")
RECORD = re.compile(r"^([0-9a-f]+) [0-9a-f]+ [0-9a-f]+ (CIE|FDE)|ZERO terminator$")


def name_of(register):
    return NAMES[register] if register < len(NAMES) else f"r{register}"


def rule_by_readelf(text):
    """Converts a register's rule from readelf's output. `undefined`, which readelf writes as `u`,
    becomes None."""
    return None if text == "u" else text


def rule_by_dwcheck(text):
    """Converts a register's rule from dwcheck-elf's output to the text that readelf writes for this
    rule. `undefined` becomes None."""
    if text == "u":
        return None
    if text.startswith("[expr("):
        return "exp"
    if text.startswith("expr("):
        return "vexp"
    if text.startswith("[c"):
        return text[1:-1]
    if text.startswith("c"):
        return "v" + text[1:]
    return text


def cfa_by_dwcheck(text):
    if text.startswith("expr("):
        return "exp"
    register, sign, offset = re.fullmatch(r"r(\d+)([+-])(\d+)", text).groups()
    return name_of(int(register)) + sign + offset


def by_dwcheck(program, path):
    """What dwcheck-elf prints for a file: by the name of each section, a list of its FDEs, each
    with its range and its rows. None if the file is refused."""
    ran = subprocess.run([program, "rows", path], capture_output=True, text=True, errors="replace")
    if ran.returncode != 0:
        print(f"{path}: status {ran.returncode}: {(ran.stdout + ran.stderr).splitlines()[:1]}")
        return None
    sections = {}
    for line in ran.stdout.splitlines():
        words = line.split(" ")
        if words[0] == "section":
            fdes = sections.setdefault(words[1], [])
        elif words[0] == "fde":
            begin, end = words[4].split("..")
            fdes.append(((int(begin, 16), int(end, 16)), []))
        elif words[0] == "row":
            begin = int(words[1].split("..")[0], 16)
            rules = dict(word.split("=", 1) for word in words[3:])
            rules = {name_of(int(one[1:])): rule_by_dwcheck(rule) for one, rule in rules.items()}
            cfa = cfa_by_dwcheck(words[2][len("cfa="):])
            fdes[-1][1].append((begin, cfa, {one: rule for one, rule in rules.items() if rule}))
    return sections


def by_readelf(path):
    """What readelf prints for a file: by the name of each section, a list of its FDEs, each with
    its range, its rows and its CIE's rows. readelf prints a row for each advance of the location;
    of rows with the same address, only the last is returned. For an FDE without instructions
    readelf prints no row; then compare() takes the CIE's."""
    command = ["readelf", "--debug-dump=no-follow-links", "--debug-dump=frames-interp", "--wide", path]
    shown = subprocess.run(command, capture_output=True, text=True, errors="replace").stdout
    sections, fdes, rows, columns, cies = {}, None, None, [], {}
    for line in shown.splitlines():
        if line.startswith("Contents of the "):
            fdes, rows, cies = sections.setdefault(line.split(" ")[3], []), None, {}
        elif RECORD.search(line):
            record, fde = RECORD.search(line), FDE.search(line)
            rows, columns = [], []
            if fde:
                fdes.append(((int(fde[2], 16), int(fde[3], 16)), rows, cies.get(int(fde[1], 16), [])))
            elif record[1]:
                cies[int(record[1], 16)] = rows
        elif line.strip().startswith("LOC"):
            columns = line.split()[2:]
        elif line and rows is not None:
            # If a rule names another register, readelf writes the register's number and then, in
            # parentheses, its name, which is left out here.
            words = [word for word in line.split() if not word.startswith("(")]
            begin = int(words[0], 16)
            rules = {column: rule_by_readelf(rule) for column, rule in zip(columns, words[2:])}
            rules = {"rip" if one == "ra" else one: rule for one, rule in rules.items() if rule}
            if rows and rows[-1][0] == begin:
                rows.pop()
            rows.append((begin, words[1], rules))
    return sections


def compare(path, ours, theirs):
    """Compares the FDEs of a file. Returns the number of rows in FDEs all of whose rows are equal,
    and the number of other FDEs. A section whose FDEs have different ranges in the two outputs
    counts as one FDE. An FDE with an empty range has no rows."""
    equal = differ = 0
    for section, fdes in ours.items():
        others = theirs.get(section, [])
        if [one[0] for one in fdes] != [one[0] for one in others]:
            print(f"{path}: {section}: other FDEs")
            differ += 1
            continue
        for (extent, rows), (_, shown, initial) in zip(fdes, others):
            shown = shown or [(extent[0], *rules) for _, *rules in initial]
            shown = [row for row in shown if extent[0] <= row[0] < extent[1]]
            same = rows == shown
            equal += len(rows) if same else 0
            differ += 0 if same else 1
            if not same:
                first = next((pair for pair in zip(rows, shown) if pair[0] != pair[1]), (len(rows), len(shown)))
                print(f"{path}: {section}: {extent[0]:#x}..{extent[1]:#x}: {first[0]} and {first[1]}")
    return equal, differ


def files(paths):
    for path in paths:
        if os.path.isfile(path):
            yield path
        for folder, folders, names in os.walk(path):
            folders.sort()
            yield from (os.path.join(folder, name) for name in sorted(names))


def is_x86_64(path):
    if os.path.islink(path) or not os.path.isfile(path):
        return False
    with open(path, "rb") as file:
        head = file.read(20)
    return head[:6] == b"\x7fELF\x02\x01" and head[18:20] == b"\x3e\0" and head[16:18] in (b"\2\0", b"\3\0")


def main():
    program, wanted, paths = sys.argv[1], int(sys.argv[2]), sys.argv[3:]
    seen, compared, equal, differ = set(), 0, 0, 0
    for path in files(paths):
        if equal >= wanted:
            break
        if not is_x86_64(path):
            continue
        with open(path, "rb") as file:
            mark = hashlib.sha256(file.read()).digest()
        if mark in seen:
            continue
        seen.add(mark)
        ours = by_dwcheck(program, path)
        if ours:
            same, others = compare(path, ours, by_readelf(path))
            compared, equal, differ = compared + 1, equal + same, differ + others
    print(f"files {compared} rows {equal} equal, FDEs that differ {differ}")
    return 1 if differ else 0


if __name__ == "__main__":
    sys.exit(main())
