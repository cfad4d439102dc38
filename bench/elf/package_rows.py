#!/usr/bin/env python3
"""Compares the rows of random Debian packages with gimli's.

    bench/elf/package_rows.py EH_ROWS COUNT SEED [FOLDER]       some 20 minutes for 200 packages

EH_ROWS is the example eh_rows of rust/dwcheck-command. Packages that aren't installed here and have 1.5
to 25 MB are drawn, fetched with `apt-get download`, unpacked in FOLDER, and removed again, until
COUNT of them had `.eh_frame` sections. Prints a line for each of these, what differs or is refused,
and the sums. This needs apt with its lists of packages (`apt-get update`).
"""
import os
import random
import re
import shutil
import subprocess
import sys
import tempfile

SUMS = re.compile(r"(\d+) sections, (\d+) refused, (\d+) rows are gimli's")
SIZES = range(1_500_000, 25_000_000)
LEFT_OUT = ("debug", "doc", "fonts", "kernel")


def fields(paragraph):
    """The fields of a paragraph that apt prints."""
    return dict(line.split(": ", 1) for line in paragraph.split("\n") if ": " in line and not line.startswith(" "))


def candidates():
    """The names of the packages that may be drawn."""
    installed = set(printed("dpkg-query", "-W", "-f", "${Package}\n").split())
    for package in map(fields, printed("apt-cache", "dumpavail").split("\n\n")):
        is_wanted = package.get("Architecture") == "amd64" and package.get("Section", "").split("/")[-1] not in LEFT_OUT
        if is_wanted and package["Package"] not in installed and int(package.get("Size", 0)) in SIZES:
            yield package["Package"]


def printed(*command, **options):
    return subprocess.run(command, capture_output=True, text=True, errors="replace", **options).stdout


def compared(eh_rows, name, folder):
    """What eh_rows prints of the files of a package, and its sums. None if the package can't be fetched or has
    no such section."""
    shutil.rmtree(folder, ignore_errors=True)
    os.makedirs(folder)
    subprocess.run(["apt-get", "download", "-qq", name], cwd=folder, stdout=subprocess.DEVNULL, stderr=subprocess.DEVNULL)
    for package in [file for file in os.listdir(folder) if file.endswith(".deb")]:
        subprocess.run(["dpkg", "-x", package, "."], cwd=folder, stderr=subprocess.DEVNULL)
    files = printed("find", folder, "-type", "f", "-size", "+2k")
    lines = printed(eh_rows, input=files).strip().split("\n")
    sums = SUMS.match(lines[-1])
    if sums is None or sums.group(1) == "0":
        return None
    return lines[:-1], [int(number) for number in sums.groups()]


def main():
    eh_rows, count, seed = os.path.abspath(sys.argv[1]), int(sys.argv[2]), int(sys.argv[3])
    folder = os.path.join(sys.argv[4] if len(sys.argv) > 4 else tempfile.mkdtemp(), "package")
    names = sorted(candidates())
    random.Random(seed).shuffle(names)
    packages, totals = 0, [0, 0, 0]
    for name in names:
        if packages == count:
            break
        found = compared(eh_rows, name, folder)
        if found is None:
            continue
        lines, sums = found
        packages += 1
        totals = [total + number for total, number in zip(totals, sums)]
        print(name, *sums, flush=True)
        for line in lines:
            print("   ", line.replace(folder, ""), flush=True)
    shutil.rmtree(folder, ignore_errors=True)
    print(f"{packages} packages, {totals[0]} sections, {totals[1]} refused, {totals[2]} rows are gimli's")


if __name__ == "__main__":
    main()
