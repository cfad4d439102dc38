#!/usr/bin/env python3
"""Compares what c/include/dwcheck-dl.h says of the stack that walks take with what they take.

    tools/stack_use.py [--aarch64] [--write]

It runs c/tests/dl_stack.c over the libraries in build/ (or those that LIBRARY and DL_LIBRARY name), and
rounds up to tenths of a KB. If the header says something else, it prints that and ends with status 1; or
with --write, it changes the header. With --aarch64, the libraries are those in build/aarch64, and
qemu-user runs the program.
"""
import os
import pathlib
import re
import subprocess
import sys
import tempfile
from typing import NamedTuple

TOP = pathlib.Path(__file__).resolve().parent.parent
HEADER = TOP / "c/include/dwcheck-dl.h"


class Processor(NamedTuple):
    """Where its libraries are, how programs are compiled and run, and the two numbers that the header has."""
    folder: pathlib.Path
    compiler: str
    runner: list
    said: re.Pattern


X86_64 = Processor(TOP / "build", "cc", [], re.compile(
    r"A walk takes (?P<kept>[0-9.]+) KB of stack where all rows are kept, and (?P<first>[0-9.]+) KB where"))
AARCH64 = Processor(TOP / "build/aarch64", "aarch64-linux-gnu-gcc", ["qemu-aarch64", "-cpu", "max", "-L", TOP / "build/arm64-root"],
                    re.compile(r"on aarch64, (?P<kept>[0-9.]+) KB and (?P<first>[0-9.]+) KB where one"))


def measured(processor):
    """How many bytes a walk takes with kept rows, and when each row is looked up."""
    libraries = [os.environ.get("DL_LIBRARY", processor.folder / "libdwcheck-dl.a"), os.environ.get("LIBRARY", processor.folder / "libdwcheck.a")]
    with tempfile.TemporaryDirectory() as folder:
        program = pathlib.Path(folder) / "dl_stack"
        subprocess.run([processor.compiler, "-std=gnu11", "-O2", "-Wl,-z,now", f"-I{TOP}/c/include", TOP / "c/tests/dl_stack.c", *libraries,
                        "-o", program, "-pthread", "-ldl"], check=True)
        text = subprocess.run([*processor.runner, program], check=True, capture_output=True, text=True).stdout
    numbers = dict(re.findall(r"^([a-z ]+) (\d+)$", text, re.MULTILINE))
    return int(numbers["kept"]), int(numbers["looked up"])


def kilobytes(number):
    """A number of bytes in KB, rounded up."""
    tenths = -(-number * 10 // 1024)
    return f"{tenths // 10}.{tenths % 10}"


def main():
    """Compares, or writes."""
    processor = AARCH64 if "--aarch64" in sys.argv[1:] else X86_64
    kept, first = map(kilobytes, measured(processor))
    text = HEADER.read_text(encoding="utf-8")
    said = processor.said.search(text)
    if said and (said["kept"], said["first"]) == (kept, first):
        return 0
    print(f"{HEADER.relative_to(TOP)}: a walk takes {kept} KB of stack, and {first} KB where rows are looked up")
    if not said or "--write" not in sys.argv[1:]:
        return 1
    HEADER.write_text(text[:said.start()] + said[0].replace(said["first"], first).replace(said["kept"], kept)
                      + text[said.end():], encoding="utf-8")
    return 0


if __name__ == "__main__":
    sys.exit(main())
