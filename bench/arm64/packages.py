#!/usr/bin/env python3
"""Compares the rows of all ELF files for arm64 in a folder with those that readelf prints.

    bench/arm64/packages.py FOLDER -- COMMAND..

COMMAND is bench/arm64/rows_beside.c as a program, which reads readelf's output as it comes. Of files with the same contents
only one is compared. Prints a line for each file with rows that differ, with the first of them, and for each that the library
refuses, with the records that it leaves out then, and at the end the numbers of rows and of files. The status is 1 if a row
differs, or if a file can't be compared.
"""
import concurrent.futures
import functools
import hashlib
import pathlib
import re
import subprocess
import sys

READELF = "aarch64-linux-gnu-readelf"
AARCH64 = b"\xb7\0"
WITHOUT_TABLE = 3


def is_of_arm64(path):
    """Whether a file is an ELF file for arm64 of 64 bits, linked."""
    if path.is_symlink() or not path.is_file():
        return False
    with path.open("rb") as file:
        start = file.read(20)
    return start[:5] == b"\x7fELF\x02" and start[18:20] == AARCH64 and start[16] in (2, 3)


def different_files(folder):
    """The files of a folder, the largest first, each contents once: packages have some files by many names."""
    by_contents = {}
    for path in sorted(folder.rglob("*")):
        if is_of_arm64(path):
            with path.open("rb") as file:
                by_contents.setdefault(hashlib.file_digest(file, "sha256").digest(), path)
    return sorted(by_contents.values(), key=lambda path: -path.stat().st_size)


def compared(command, path):
    """Compares one file. Returns what the command prints; None if the file has no rows or no search table."""
    with subprocess.Popen([READELF, "--wide", "--debug-dump=frames-interp", path], stdout=subprocess.PIPE,
                          stderr=subprocess.DEVNULL) as readelf:
        ran = subprocess.run([*command, path], stdin=readelf.stdout, capture_output=True, text=True, check=False)
        readelf.stdout.close()
    if ran.returncode == WITHOUT_TABLE:
        return None
    return ran.stdout if ran.returncode == 0 else f"{ran.stdout}{path}: can't be compared: status {ran.returncode}\n"


def main():
    """Compares all files, as many at once as there are processors."""
    at = sys.argv.index("--")
    files = different_files(pathlib.Path(sys.argv[1]))
    rows = differ = left_out = compared_files = failed = 0
    with concurrent.futures.ThreadPoolExecutor() as pool:
        for path, text in zip(files, pool.map(functools.partial(compared, sys.argv[at + 1:]), files)):
            if text is None:
                continue
            found = re.search(r"^rows (\d+) differ (\d+) left-out (\d+)\n\Z", text, re.MULTILINE)
            counts = [int(count) for count in found.groups()] if found else [0, 0, 0]
            rows, differ, left_out = rows + counts[0], differ + counts[1], left_out + counts[2]
            compared_files += 1
            failed += not found
            if counts[1]:
                print(f"{path}: {counts[1]} of {counts[0]} rows differ")
            print(text[:found.start()] if found else text, end="", flush=True)
    print(f"{rows:,} rows of {compared_files} files: {differ} differ; {left_out} rows more are of records that are left out; "
          f"{failed} files can't be compared, and {len(files) - compared_files} have no rows or no search table")
    return int(differ != 0 or failed != 0 or rows == 0)


if __name__ == "__main__":
    sys.exit(main())
