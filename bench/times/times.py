#!/usr/bin/env python3
"""Times dwcheck on generated sections and expressions, and prints tables of the times.

    bench/times/times.py DWCHECK [BESIDE]        15 s without BESIDE

BESIDE is the program that bench/beside_gimli/run.sh builds. If it is given, readelf, llvm-dwarfdump
and gimli read the sections too. Each run is killed after 100 seconds, and may use 8 GB. This needs
GNU time on the PATH, and with BESIDE also as, objcopy, readelf and llvm-dwarfdump.
"""
import os
import subprocess
import sys
import tempfile

from expressions import text
from sections import FRAMES, section

# What is timed: the command of dwcheck, and the shape and the size that sections.py takes.
SECTIONS = [
    ("rows", "ordinary", 10000), ("rows", "ordinary", 60000), ("rows", "descending", 60000), ("rows", "shuffled", 60000),
    ("rows", "empty", 60000), ("rows", "overlap", 60000), ("check", "nested", 60000),
    ("rows", "many_cies", 5000), ("rows", "many_cies", 50000), ("check", "full_cies", 5000), ("check", "full_cies", 50000),
    ("rows", "remember", 50000), ("rows", "remember", 500000),
    ("rows", "remember_full", 50000), ("rows", "remember_full", 500000), ("rows", "remembers", 1000000),
    ("rows", "rows", 10000), ("rows", "rows", 100000), ("rows", "nops", 10000000),
    ("rows", "long_cie", 4000), ("rows", "long_cie", 60000), ("rows", "two_cies", 1000), ("rows", "longest_cie", 4000),
    ("check", "full_cie", 6000), ("check", "full_cie", 60000), ("rows", "full_cie", 6000),
    ("check", "expression", 100000), ("check", "expression", 1000000), ("rows", "expression", 1000000),
    ("check", "cie_expression", 100000), ("check", "cie_expression", 1000000), ("rows", "shown", 1000), ("rows", "shown", 20000),
    ("check", "branches", 20000), ("check", "branches", 200000), ("check", "one_target", 25000), ("check", "one_target", 250000),
    ("check", "targets", 25000), ("check", "targets", 250000), ("check", "expressions", 1000), ("check", "expressions", 20000),
    ("check", "block", 1000000),
    ("check", "lists", 100000), ("check", "lists", 1000000), ("check", "empty_lists", 1000000), ("check", "empty_lists", 6000000),
    ("check", "entries", 100000), ("check", "entries", 1000000), ("check", "tables", 50000), ("check", "tables", 500000),
    ("check", "array", 100000), ("check", "array", 1000000), ("check", "count", 6000000), ("check", "sizes", 600000),
]
EXPRESSIONS = [
    (("sums", 100000), None), (("sums", 1000000), None), (("branches", 20000), None), (("branches", 200000), None),
    (("one_target", 25000), None), (("one_target", 250000), None),
    (("reads", 300000), ("words", 20000)), (("reads", 300000), ("words", 200000)), (("reads", 300000), ("backwards", 200000)),
    (("reads", 300000), ("again", 200000)), (("reads", 300000), ("bytes", 2000000)), (("reads", 300000), ("registers", 200000)),
]


def saved(folder, name, content):
    path = os.path.join(folder, name)
    with open(path, "wb") as file:
        file.write(content)
    return path


def timed(words):
    """Runs a command under GNU time. Returns a text with its seconds and its peak memory, and
    whether it was killed."""
    limited = ["prlimit", f"--as={8 << 30}", "timeout", "100", *words]
    run = subprocess.run(["time", "-f", "%x %e %M", *limited], stdout=subprocess.DEVNULL, stderr=subprocess.PIPE, text=True, check=False)
    status, seconds, kilobytes = run.stderr.split()[-3:]
    ended = "" if int(status) < 100 else " (killed)"
    return f"{seconds} s, {int(kilobytes) / 1024:.1f} MB{ended}"


def others(folder, beside, path, frames):
    """The cells of a table's line with the times and the peak memory of readelf, llvm-dwarfdump and
    gimli for the section in the file `path`."""
    name = ".debug_frame" if frames else ".debug_loclists"
    empty, whole = os.path.join(folder, "empty.o"), os.path.join(folder, "whole.o")
    subprocess.run(["as", "-o", empty, "/dev/null"], check=True)
    subprocess.run(["objcopy", "--add-section", f"{name}={path}", empty, whole], check=True)
    named = saved(folder, "section" if frames else "section.lists", open(path, "rb").read())
    readelf = timed(["readelf", "--debug-dump=frames-interp", whole]) if frames else "needs `.debug_info`"
    dump = timed(["llvm-dwarfdump", "--debug-frame" if frames else "--debug-loclists", whole])
    return f" | {readelf} | {dump} | {timed([beside, 'read', named])}"


def main():
    if len(sys.argv) not in (2, 3):
        raise SystemExit(__doc__)
    with tempfile.TemporaryDirectory() as folder:
        nothing = saved(folder, "nothing", b"")
        for command, shape, n in SECTIONS:
            content, frames = section(shape, n), shape in FRAMES
            path = saved(folder, "made", content)
            files = [path] if command == "rows" else [path, nothing] if frames else [nothing, path]
            line = f"| {command} | {shape} | {n:,} | {len(content):,} | {timed([sys.argv[1], command, *files])}"
            print(line + (others(folder, sys.argv[2], path, frames) if len(sys.argv) == 3 else "") + " |", flush=True)
        for expression, state in EXPRESSIONS:
            words = [sys.argv[1], "eval", "location", saved(folder, "expression", text(*expression))]
            if state:
                words += ["--state", saved(folder, "state", text(*state))]
            print(f"| {expression} | {state or ''} | {timed(words)} |", flush=True)


if __name__ == "__main__":
    main()
