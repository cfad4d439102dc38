#!/usr/bin/env python3
"""Checks that dwcheck's walks agree with perf's, from samples that `perf record --call-graph dwarf`
wrote to DATA. Each sample has the registers and a copy of the top of the stack.

    bench/walk/perf.py DWCHECK SECTION DATA START END [FOLDER]

SECTION is a file with the program's .debug_frame section. The program's own code begins at address
START and ends at END, both in hex. In this range, both walks must find the same frames, as far as
both go. dwcheck may find fewer than perf only if the copy of the stack ends too early. dwcheck's
state files stay in FOLDER; without FOLDER they are deleted.
"""
import collections
import itertools
import re
import subprocess
import sys
import tempfile

from compare import lines_of

# perf's names of the registers, in the order of DWARF's register numbers for x86-64.
NAMES = ["AX", "DX", "CX", "BX", "SI", "DI", "BP", "SP", *(f"R{i}" for i in range(8, 16)), "IP"]
ABI = "".join(f"keep {number}\n" for number in [3, 6, 12, 13, 14, 15]) + "sp 7\n"


def output_of(words):
    return subprocess.run(words, capture_output=True, check=True).stdout.decode("ascii", "replace")


def samples(dump):
    """For each sample in what `perf script -D` writes: the registers by perf's names, and the bytes
    that were copied from the stack."""
    for event in dump.split("raw event: size ")[1:]:
        if copied := re.search(r"ustack: size ([0-9]+), offset (0x[0-9a-f]+)", event):
            held = b"".join(bytes.fromhex(line) for line in re.findall(r"^\.  [0-9a-f]{4,}:  ((?:[0-9a-f]{2} )+)", event, re.MULTILINE))
            begin = int(copied[2], 16) + 8
            registers = dict(re.findall(r"^\.\.\.\. (\w+) +(0x[0-9a-f]+)", event, re.MULTILINE))
            yield {name: int(content, 16) for name, content in registers.items()}, held[begin:begin + int(copied[1])]


def chains(shown):
    """For each sample, the addresses of the frames that perf found, the innermost first, relative
    to where the file is mapped. For a caller, perf gives the return address minus 1."""
    return [[int(line, 16) for line in sample.split()] for sample in shown.strip().split("\n\n")]


def state(registers, held):
    lines = [f"reg {number} {registers[name]:#x}\n" for number, name in enumerate(NAMES)]
    return ABI + "".join(lines) + f"mem {registers['SP']:#x} {held.hex()}\n"


def compare(program, section, path, registers, chain, inside):
    """Compares dwcheck's walk from a sample with perf's. Returns what to add to the counts."""
    *frames, stop = lines_of(program, ["backtrace", section, hex(registers["IP"]), path, "200"])
    walk = [int(line.split()[2], 16) - (i > 0) for i, line in enumerate(frames) if not line.endswith("none")]
    theirs = list(itertools.takewhile(inside, (address - chain[0] + registers["IP"] for address in chain)))
    if not walk:
        return {"samples where no FDE is": 1}
    both = min(len(walk), len(theirs))
    if walk[:both] != theirs[:both] or len(walk) < len(theirs) and stop != "stop return unreadable":
        raise SystemExit("\n".join([path, "perf:", *map(hex, theirs), "dwcheck:", *frames, stop]))
    return {"samples": 1, "frames": len(walk), "of which perf has": both, "more of perf's": len(theirs) - both, stop: 1}


def main():
    if len(sys.argv) not in (6, 7):
        raise SystemExit(__doc__)
    program, section, data = sys.argv[1:4]
    start, end = (int(word, 16) for word in sys.argv[4:6])
    counts = collections.Counter()
    with tempfile.TemporaryDirectory() as made:
        folder = sys.argv[6] if len(sys.argv) == 7 else made
        found = list(samples(output_of(["perf", "script", "-i", data, "-D"])))
        shown = chains(output_of(["perf", "script", "-i", data, "-F", "ip", "--no-inline"]))
        for number, ((registers, held), chain) in enumerate(zip(found, shown, strict=True)):
            if start <= registers["IP"] < end and held:
                path = f"{folder}/{number}.state"
                with open(path, "w", encoding="ascii") as file:
                    file.write(state(registers, held))
                counts.update(compare(program, section, path, registers, chain, lambda address: start <= address < end))
    if not counts["samples"]:
        raise SystemExit("no sample in the program")
    print(", ".join(f"{count:,} {name}" for name, count in counts.items()))


if __name__ == "__main__":
    main()
