#!/usr/bin/env python3
"""Checks that dwcheck's walks up the stack of a stopped program agree with gdb's.

    bench/walk/compare.py DWCHECK SECTION FOLDER [NAME=SECTION]..

The first SECTION is a file with the program's .debug_frame section. FOLDER has the files that
stops.py wrote. For each library that belongs to the program, NAME is its file name and SECTION a
file with its .debug_frame section; then FOLDER also has the file `loads` with the load addresses.

At each stop, dwcheck walks twice. With the whole stack, each frame in the program and its libraries
must have the address and CFA that gdb gives, and no row may cover the first frame outside them. The
registers of frame 0's caller must be gdb's too. With a copy of only the top of the stack, dwcheck
must find the same frames from the innermost on. It may find fewer only if the copy ends too early.
"""
import collections
import glob
import os
import subprocess
import sys


def lines_of(program, words):
    run = subprocess.run([program, *words], capture_output=True, text=True, check=False)
    if run.returncode != 0 or run.stderr:
        raise SystemExit(f"{' '.join(words)}\nended with {run.returncode}: {run.stdout}{run.stderr}")
    return run.stdout.splitlines()


def read(path):
    """Reads gdb's frames (address, CFA, and whether the frame is in the program), and the registers
    of frame 1 by name."""
    with open(path, encoding="ascii") as file:
        lines = [line.split() for line in file]
    frames = [(int(line[0], 16), int(line[1], 16), line[2] == "1") for line in lines if line[0].startswith("0x")]
    return frames, {line[0]: int(line[1], 16) for line in lines if line[0].startswith("r")}


def wanted(frames):
    """The lines that dwcheck must print for the frames in the program, and for the first frame
    outside it if there is one."""
    inside = next((i for i, (_, _, is_inside) in enumerate(frames) if not is_inside), len(frames))
    lines = [f"frame {i} 0x{address:016x} cfa value 0x{cfa:016x}" for i, (address, cfa, _) in enumerate(frames[:inside])]
    return lines + [f"frame {inside} 0x{address:016x} none" for address, _, _ in frames[inside:inside + 1]]


def differ(path, want, got):
    raise SystemExit("\n".join([path, "gdb:", *want, "dwcheck:", *got]))


def options(folder, named):
    """dwcheck's options --load and --module for the program and its libraries. There are none if
    the program has no libraries."""
    if not named:
        return []
    with open(os.path.join(folder, "loads"), encoding="ascii") as file:
        loads = [line.split() for line in file]
    sections = dict(word.split("=", 1) for word in named)
    others = [f"--module={load}={sections[name]}" for name, load in loads[1:]]
    return [f"--load={loads[0][1]}", *others]


def compare(program, section, path, counts, more):
    """Compares both walks from one stop with gdb's frames, which are in the file `path`."""
    stem = path.removesuffix(".frames")
    frames, registers = read(path)
    start, want = hex(frames[0][0]), wanted(frames)
    walk = lines_of(program, ["backtrace", *more, section, start, f"{stem}.state", "1000"])
    if walk != want + ["stop not covered"]:
        differ(path, want, walk)
    counts["frames"] += len(want)
    unwound = lines_of(program, ["unwind", *more, section, start, f"{stem}.state"])
    caller = dict(line.split(" value ") for line in unwound if " value " in line)
    given = {name: int(caller[name], 16) for name in registers if name in caller}
    if given != registers:
        differ(path, [f"{name} value {content:#x}" for name, content in registers.items()], unwound)
    counts["callers' registers"] += len(registers)
    *part, stop = lines_of(program, ["backtrace", *more, section, start, f"{stem}.top", "1000"])
    known = [line for line in part if not line.endswith("cfa unreadable")]
    why = "stop not covered" if part == want else "stop return unreadable"
    if known != want[:len(known)] or len(part) > len(known) + 1 or stop != why:
        differ(f"{stem}.top", want, part + [stop])
    counts["frames of the stack's top"] += len(known)
    counts["walks of the stack's top that end where the copy does"] += part != want


def main():
    if len(sys.argv) < 4:
        raise SystemExit(__doc__)
    counts = collections.Counter()
    more = options(sys.argv[3], sys.argv[4:])
    for path in sorted(glob.glob(os.path.join(sys.argv[3], "*.frames"))):
        compare(sys.argv[1], sys.argv[2], path, counts, more)
        counts["stops"] += 1
    counts["stops that gdb can't walk from"] += len(glob.glob(os.path.join(sys.argv[3], "*.failed")))
    if not counts["stops"]:
        raise SystemExit("no stop was written")
    print(", ".join(f"{counts[name]:,} {name}" for name in ["stops", *(name for name in counts if name != "stops")]))


if __name__ == "__main__":
    main()
