#!/usr/bin/env python3
"""Checks the location lists of Debian's packages of debug information, and prints how many are accepted.

    bench/elf/debug_packages.py DWCHECK_ELF [--jobs N] [--minutes N] [--look-ups LIST_LOOKUPS] PACKAGE..

For example: bench/elf/debug_packages.py build/dwcheck-elf libc6-dbg python3.11-dbg

Each PACKAGE is a name, which `apt-get download` fetches, or a .deb file, or a folder with files. The
packages are read one after another. Their files are written to a temporary folder, at most 1 GB of them
at once, checked by `dwcheck-elf survey --compare --lists`, and deleted. A file that is a copy of an earlier one is
checked once. With --minutes, no package is begun after that time. An interrupt (SIGINT) ends a run, which then
prints what it found until then. Only files with .debug_loc or .debug_loclists count. Each of them is counted once:

    accepted               all of its lists are checked, and accepted
    accepted in part       the same, but the lists have expressions that pass a limit of dwcheck, or whose
                           effect on the stack isn't known
    refused                a list breaks a rule; the lines at the end say which ones
    unread                 a list or .debug_info can't be read, or differs from what gimli reads

LIST_LOOKUPS is the example of rust/dwcheck-command, which `cargo build --release --example list_lookups` makes.
It looks up addresses in each list of the same files, by the library and by gimli.

The exit status is 1 if a file is unread, if a look-up isn't gimli's, or if a run of a program fails.
"""
import argparse
import hashlib
import json
import os
import shutil
import subprocess
import sys
import tarfile
import tempfile
import time
from collections import Counter, defaultdict

SECTIONS = (".debug_loc", ".debug_loclists")
# How many bytes and files are checked at once.
BYTES, FILES = 1 << 30, 400
# How many seconds a check may take.
SECONDS = 1800


def is_whole(hole):
    """Whether an expression with an operation isn't checked at all."""
    return hole in ("call", "long-branch") or hole.startswith("operation-")


class Survey:
    """What was found so far."""

    def __init__(self, program, look_ups, jobs, folder):
        self.program, self.look_ups, self.jobs, self.folder = program, look_ups, jobs, folder
        self.seen = set()
        self.counts, self.holes, self.limits, self.doubtful = Counter(), Counter(), Counter(), Counter()
        self.compared = Counter()
        self.faults = defaultdict(list)
        self.problems = []
        self.waiting = self.bytes = 0

    def add(self, name, take):
        """Adds the bytes of an ELF file that `take` returns, if it isn't a copy."""
        first = take(4)
        if first != b"\x7fELF":
            return
        whole = first + take()
        digest = hashlib.sha256(whole).digest()
        if digest in self.seen:
            return
        self.seen.add(digest)
        path = os.path.join(self.folder, "files", name.lstrip("./").replace("/", "%"))
        with open(path, "wb") as file:
            file.write(whole)
        self.waiting, self.bytes = self.waiting + 1, self.bytes + len(whole)
        if self.bytes > BYTES or self.waiting >= FILES:
            self.check()

    def check(self):
        """Checks the files that wait, and deletes them."""
        folder = os.path.join(self.folder, "files")
        words = [self.program, "survey", "--compare", "--lists", "--all", "--json", "--jobs", str(self.jobs), folder]
        if self.waiting:
            lines = [json.loads(line) for line in self.run(words, b"", (0, 1, 3))]
            if not lines or "totals" not in lines[-1]:
                self.problems.append("a survey without totals")
            for line in lines[:-1]:
                self.count(line)
            if self.look_ups:
                self.compare(folder)
        shutil.rmtree(folder)
        os.mkdir(folder)
        self.waiting = self.bytes = 0

    def run(self, words, text, statuses):
        """Runs a program. Returns the lines that it writes, none of them if it fails."""
        try:
            ran = subprocess.run(words, input=text, capture_output=True, timeout=SECONDS)
        except subprocess.TimeoutExpired:
            self.problems.append(f"{words}: no end after {SECONDS} s")
            return []
        if ran.returncode not in statuses:
            self.problems.append(f"{words}: status {ran.returncode}: {ran.stderr[-300:]!r}")
        return ran.stdout.decode().splitlines()

    def compare(self, folder):
        """Looks up addresses in the lists of the files that wait."""
        paths = [os.path.join(folder, name) for name in os.listdir(folder)]
        *differ, last = self.run([self.look_ups], "\n".join(paths).encode(), (0, 1)) or [""]
        self.problems += differ
        words = last.split()
        self.compared.update({name: int(number) for name, number in zip(words[::2], words[1::2])})

    def count(self, line):
        """Counts a file by what `survey` says of it."""
        name = os.path.basename(line["file"]).replace("%", "/")
        sections = [one for one in line.get("sections", []) if one["section"] in SECTIONS]
        errors = [one["error"] for one in sections if "error" in one] + [line[key] for key in ["error"] if key in line]
        if not sections and not errors:
            return
        self.counts["files"] += 1
        for one in sections:
            self.counts["sections"] += 1
            self.counts["lists that are accepted"] += one.get("lists", 0)
            self.counts["entries"] += one.get("entries", 0)
            self.counts["entries with holes"] += one.get("not_evaluated", 0)
            self.counts["lists not compared to their end"] += one.get("not_compared", 0)
            self.counts["unused bytes"] += one.get("unused", 0)
            self.holes.update(one.get("holes", {}))
            self.limits.update(one.get("limits", {}))
            self.doubtful.update(one.get("doubtful", {}))
            for fault in one.get("faults", []):
                self.faults[name].append(fault)
        is_part = any(one.get("limits") or any(map(is_whole, one.get("holes", {}))) for one in sections)
        if errors:
            self.counts["unread"] += 1
            self.problems += [f"{name}: {error}" for error in errors]
        elif any(not one["accepted"] for one in sections):
            self.counts["refused"] += 1
        else:
            self.counts["accepted in part" if is_part else "accepted"] += 1

    def write(self):
        print(" ".join(f"{name} {number}," for name, number in self.counts.items()).rstrip(","))
        for name, counts in [("not evaluated", self.holes), ("not checked", self.limits), ("doubtful", self.doubtful)]:
            print(f"{name}: " + ", ".join(f"{what} {number}" for what, number in counts.most_common() if number))
        print("looked up: " + ", ".join(f"{name} {number}" for name, number in self.compared.items()))
        for name, faults in sorted(self.faults.items()):
            alike = defaultdict(list)
            for one in faults:
                alike[one["fault"], one["what"]].append(one)
            for (fault, what), those in alike.items():
                where = f"first at {those[0]['offset']:#x}: {those[0].get('function', 'no name')}"
                print(f"refused: {name}: {len(those)} {fault}: {what}; {where}; {those[0]['rule']}")
        print("".join(f"problem: {problem}\n" for problem in self.problems), end="")


def deb(survey, path):
    """Adds the files of a package."""
    with subprocess.Popen(["dpkg-deb", "--fsys-tarfile", path], stdout=subprocess.PIPE) as running:
        with tarfile.open(fileobj=running.stdout, mode="r|") as files:
            for one in files:
                if one.isfile() and one.size > 64:
                    survey.add(one.name, files.extractfile(one).read)


def folder(survey, path):
    """Adds the files of a folder."""
    for top, _, names in os.walk(path):
        for name in sorted(names):
            file = os.path.join(top, name)
            if os.path.isfile(file) and not os.path.islink(file):
                with open(file, "rb") as opened:
                    survey.add(file, opened.read)


def package(survey, name, work):
    """Adds the files of a package by its name or its file, or those of a folder."""
    if os.path.isdir(name):
        return folder(survey, name)
    if os.path.isfile(name):
        return deb(survey, name)
    where = os.path.join(work, "package")
    os.mkdir(where)
    try:
        subprocess.run(["apt-get", "download", "-qq", name], cwd=where, check=True, capture_output=True)
        return deb(survey, os.path.join(where, os.listdir(where)[0]))
    except subprocess.CalledProcessError as error:
        survey.problems.append(f"{name}: {error.stderr.decode().strip()}")
    finally:
        shutil.rmtree(where)


def main():
    words = argparse.ArgumentParser(description=__doc__, formatter_class=argparse.RawDescriptionHelpFormatter)
    words.add_argument("program")
    words.add_argument("packages", nargs="+")
    words.add_argument("--jobs", type=int, default=2)
    words.add_argument("--minutes", type=float, default=float("inf"))
    words.add_argument("--look-ups", metavar="LIST_LOOKUPS")
    words = words.parse_args()
    work = tempfile.mkdtemp()
    os.mkdir(os.path.join(work, "files"))
    look_ups = words.look_ups and os.path.abspath(words.look_ups)
    survey = Survey(os.path.abspath(words.program), look_ups, words.jobs, work)
    end, read = time.monotonic() + 60 * words.minutes, 0
    try:
        for name in words.packages:
            if time.monotonic() > end:
                break
            package(survey, name, work)
            survey.check()
            read += 1
            print(f"{name}: {survey.counts['files']} files so far", file=sys.stderr, flush=True)
    except KeyboardInterrupt:
        survey.problems.append("interrupted")
    finally:
        shutil.rmtree(work)
    print(f"packages {read} of {len(words.packages)}")
    survey.write()
    return 1 if survey.problems else 0


if __name__ == "__main__":
    sys.exit(main())
