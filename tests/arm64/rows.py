#!/usr/bin/env python3
"""Compares the rows of libraries for arm64 with those that readelf prints, and where return addresses are signed.

    tests/arm64/rows.py [--signed] LIBRARY.. -- COMMAND..

COMMAND is tests/arm64/rows.c as a program, with what runs it. It is given a library and, on standard input, the first
address of each of readelf's rows. Prints a line for each library, and for the first rows that differ. The status is
1 if one does, or if a library has fewer than 1000 rows, or with --signed fewer than 1000 in which the return address
is signed.
"""
import re
import subprocess
import sys

READELF = "aarch64-linux-gnu-readelf"
# Registers without a number in their names, by DWARF's numbers.
NAMED = {"ra": 30, "sp": 31, "vg": 46}
SHOWN = 3
LEAST = 1000


def register(name):
    """The DWARF number of a register that readelf names."""
    if name in NAMED:
        return NAMED[name]
    if found := re.fullmatch(r"[xr](\d+)", name):
        return int(found[1])
    if found := re.fullmatch(r"[vdq](\d+)", name):
        return 64 + int(found[1])
    raise ValueError(f"{READELF} names a register {name}")


def cfa_of(text):
    """A CFA as rows.c prints it."""
    found = re.fullmatch(r"([a-z]+\d*)([+-]\d+)", text)
    return f"{register(found[1])}{int(found[2]):+d}" if found else "exp"


def rule_of(text):
    """A register's rule as rows.c prints it."""
    return f"{text[0]}{int(text[1:]):+d}" if re.fullmatch(r"[cv][+-]\d+", text) else text


def rows_of_readelf(library):
    """The rows of .eh_frame: each first address with the CFA and the registers' rules."""
    text = subprocess.run([READELF, "--wide", "--debug-dump=frames-interp", library], capture_output=True, text=True, check=True).stdout
    rows, columns, end, is_inside = {}, [], 0, False
    for line in text.splitlines():
        words = line.split()
        if line.startswith("Contents of the"):
            is_inside = ".eh_frame" in line
        elif found := re.search(r" FDE .*pc=[0-9a-f]+\.\.([0-9a-f]+)", line):
            end, columns = int(found[1], 16), []
        elif " CIE " in line:
            end = 0
        elif words[:1] == ["LOC"]:
            columns = words[2:]
        elif is_inside and words and re.fullmatch("[0-9a-f]{16}", words[0]) and int(words[0], 16) < end:
            # A register is also given by its other name: `r13 (x13)`.
            cells = [word for word in words[2:] if word[0] != "("]
            rules = [(register(column), rule_of(rule)) for column, rule in zip(columns, cells) if rule != "u"]
            rows[int(words[0], 16)] = cfa_of(words[1]), sorted(rules)
    return rows


def signed_by_readelf(library):
    """The first addresses of rows in which the return address is signed, by the instructions of .eh_frame."""
    text = subprocess.run([READELF, "--wide", "--debug-dump=frames", library], capture_output=True, text=True, check=True).stdout
    signed, by_cie, cie, address, is_inside = set(), {}, None, None, False
    is_signed, saved = False, []
    for line in text.splitlines():
        if line.startswith("Contents of the"):
            is_inside = ".eh_frame" in line
        elif found := re.match(r"([0-9a-f]{8}) .* CIE$", line):
            cie, address, is_signed, saved = found[1], None, False, []
        elif found := re.search(r" FDE cie=([0-9a-f]+) pc=([0-9a-f]+)\.\.", line):
            cie, address, is_signed, saved = None, int(found[2], 16), by_cie[found[1]], []
        elif found := re.match(r"  DW_CFA_(?:advance_loc|set_loc)\S*: .*?([0-9a-f]+)$", line):
            address = int(found[1], 16)
        elif line.startswith("  DW_CFA_AARCH64_negate_ra_state"):
            is_signed = not is_signed
        elif line == "  DW_CFA_remember_state":
            saved.append(is_signed)
        elif line == "  DW_CFA_restore_state":
            is_signed = saved.pop()
        if cie is not None:
            by_cie[cie] = is_signed
        elif is_inside and address is not None:
            (signed.add if is_signed else signed.discard)(address)
    return signed


def rows_of_command(command, library, addresses):
    """The same for these addresses, by the program, and where it says that the return address is signed."""
    asked = subprocess.run([*command, library], input="".join(f"{address:x}\n" for address in addresses), capture_output=True,
                           text=True, check=True)
    rows, signed = {}, set()
    for line in asked.stdout.splitlines():
        address, cfa, *rules = line.split()
        if rules[-1:] == ["signed"]:
            signed.add(int(address, 16))
            rules.pop()
        pairs = [rule.split(":") for rule in rules]
        rows[int(address, 16)] = cfa, [(int(number), rule) for number, rule in pairs if rule != "u"]
    return rows, signed


def compare(command, library, least_signed):
    """Prints how many rows of a library are readelf's. Returns whether all are, and there are enough."""
    wanted = rows_of_readelf(library)
    found, signed = rows_of_command(command, library, wanted)
    unlike = sorted(signed ^ (signed_by_readelf(library) & wanted.keys()))
    wrong = [address for address, row in wanted.items() if found.get(address) != row]
    for address in wrong[:SHOWN]:
        print(f"{address:#x}: readelf {wanted[address]}, not {found.get(address)}")
    for address in unlike[:SHOWN]:
        print(f"{address:#x}: {'only here' if address in signed else 'only by readelf'} the return address is signed")
    print(f"{library}: {len(wanted)} rows, {len(wrong)} differ; signed in {len(signed)}, otherwise in {len(unlike)}")
    return not wrong and not unlike and len(wanted) >= LEAST and len(signed) >= least_signed


def main():
    """Compares all libraries."""
    at = sys.argv.index("--")
    libraries, command = sys.argv[1:at], sys.argv[at + 1:]
    least_signed = 0
    if libraries[0] == "--signed":
        least_signed = LEAST
        del libraries[0]
    return int(not all([compare(command, library, least_signed) for library in libraries]))


if __name__ == "__main__":
    sys.exit(main())
