#!/usr/bin/env python3
"""Times `dwcheck check` and gimli on the frame sections of all programs and libraries in folders.

    bench/times/machine.py DWCHECK BESIDE FOLDER ..        some minutes

BESIDE is the program that bench/beside_gimli/run.sh builds; `BESIDE rows SECTION` lets gimli
compute all rows, and checks nothing. Each ELF file for x86-64 in the FOLDERs and the folders below
them is taken once. Its `.eh_frame` section is rewritten as `.debug_frame` (eh_frame.py), and read
by one process of each program. The output is thrown away. The time that a process needs to start
is measured with an empty section, and subtracted.
"""
import eh_frame
import os
import resource
import struct
import subprocess
import sys
import tempfile

RUNS = 3
ELF_64_LITTLE = b"\x7fELF\x02\x01"
X86_64 = b"\x3e\x00"


def programs(folders):
    """The paths of the ELF files for x86-64 in some folders and below. Symbolic links are left
    out."""
    for folder in folders:
        for top, _, names in os.walk(folder):
            for name in sorted(names):
                path = os.path.join(top, name)
                if os.path.islink(path) or not os.path.isfile(path):
                    continue
                with open(path, "rb") as file:
                    head = file.read(20)
                if head.startswith(ELF_64_LITTLE) and head[18:20] == X86_64:
                    yield path


def rewritten(folders, into):
    """Rewrites the `.eh_frame` section of each program that has one. Returns the paths of the
    files with the rewritten sections."""
    for number, path in enumerate(programs(folders)):
        try:
            made = eh_frame.of_program(path)
        except (ValueError, LookupError, struct.error, subprocess.CalledProcessError):
            continue
        if made is not None:
            out = os.path.join(into, f"{number}.frame")
            with open(out, "wb") as file:
                file.write(made)
            yield out


def processor_time(commands):
    """Runs some commands one after another. Returns the seconds of processor time that they take
    in total."""
    begun = resource.getrusage(resource.RUSAGE_CHILDREN)
    for command in commands:
        subprocess.run(command, stdout=subprocess.DEVNULL, stderr=subprocess.DEVNULL)
    ended = resource.getrusage(resource.RUSAGE_CHILDREN)
    return ended.ru_utime + ended.ru_stime - begun.ru_utime - begun.ru_stime


def main():
    if len(sys.argv) < 4:
        sys.exit(__doc__)
    dwcheck, beside = sys.argv[1:3]
    with tempfile.TemporaryDirectory() as into:
        empty = os.path.join(into, "empty")
        open(empty, "wb").close()
        sections = list(rewritten(sys.argv[3:], into))
        size = sum(os.path.getsize(section) for section in sections)
        print(f"{len(sections)} sections, {size:,} bytes")
        ways = {
            "dwcheck": lambda section: [dwcheck, "check", section, empty],
            "gimli": lambda section: [beside, "rows", section],
        }
        least = {}
        for _ in range(RUNS):
            for name, command in ways.items():
                took = processor_time(command(section) for section in sections)
                start = processor_time(command(empty) for _ in sections)
                print(f"{name}: {took:.2f} s, of which {start:.2f} s for the start of the processes")
                least[name] = min(least.get(name, took - start), took - start)
        print(f"without the start: dwcheck {least['dwcheck']:.2f} s, gimli {least['gimli']:.2f} s, "
              f"ratio {least['dwcheck'] / least['gimli']:.2f}")


if __name__ == "__main__":
    main()
