#!/usr/bin/env python3
"""Runs dwcheck-elf on ELF files, core files, minidumps and recordings of perf whose bytes were changed at random.

    bench/elf/damage.py DWCHECK_ELF COUNT SEED [--jobs N] [--kinds elf,core,program,minidump,recording]

gcc makes a few ELF files, and gdb core files. From these, COUNT files of each kind are made: bytes
are changed in headers, in sections and anywhere, and some files are cut short. `survey` is run on
folders of 250 ELF files, and `check`, `rows`, `row`, `locs` and `vars` on every 50th file. `stack` is
run on each core file, and, for the kind `program`, with `--vars` on a core file that isn't changed with
its program, which is: its tables, symbols, debug information and .gnu_debugdata. `stack` is run on each
minidump, one of rust/dwcheck-command/tests/minidumps, and `vars` on every 50th. `profile` is run on each recording, which is one of rust/dwcheck-command/tests/recordings, with each format in turn. Each run must end within 60
seconds, in 1 GB of address space, with an exit status that dwcheck-elf documents, and without a
panic. A survey must write a line of JSON for each different file that still begins as an ELF file
does, and one line of totals. This needs gcc, clang, gdb, binutils and xz.
"""
import argparse
import gzip
import json
import os
import random
import shutil
import subprocess
import sys
import tempfile
from collections import Counter
from concurrent.futures import ThreadPoolExecutor

SOURCE = """
#include <stdlib.h>
__attribute__((noinline)) int deep(int n) {
    volatile char *p = __builtin_alloca(n * 16 + 16);
    p[0] = n;
    if (n == 0) abort();
    return deep(n - 1) + p[0];
}
struct point { int x, y; };
static inline int squared(int v) { int w = v * v; return w + v; }
__attribute__((noinline)) double mixed(double d, int n) {
    struct point p = {n, n + 1};
    double sum = 0;
    for (int i = 0; i < n; i++) { int k = squared(i) + p.x; sum += d * k; }
    return sum + p.y;
}
int main(int argc, char **argv) { return mixed(argc, argc) + deep(argc + 3); }
"""
IN_A_FOLDER = 250
RECORDINGS = os.path.join(os.path.dirname(os.path.abspath(__file__)), "../../rust/dwcheck-command/tests/recordings")
MINIDUMPS = os.path.join(RECORDINGS, "../minidumps")
FORMATS = ["script", "folded", "html", "speedscope", "pprof", "top"]
# How many bytes of address space a run may take.
MEMORY = 1 << 30
ODD = [0, 1, 0x7F, 0x80, 0xFF, 0xFE, 0x10, 0x9B, 0x2E, 0x0D]


def run(words, folder, statuses, timeout=60):
    """Runs a command. Returns the finished run, and a text that says what is wrong with how it
    ended, or None. The run is None if it took too long."""
    # By prlimit: a preexec_fn may wait forever for a lock that another thread had when the child was made.
    words = ["prlimit", f"--as={MEMORY}", *words]
    try:
        ran = subprocess.run(words, cwd=folder, capture_output=True, timeout=timeout)
    except subprocess.TimeoutExpired:
        return None, "no end"
    if ran.returncode not in statuses or b"panicked" in ran.stderr:
        return ran, f"status {ran.returncode}: {ran.stderr[-300:]!r}"
    return ran, None


def made(folder):
    """Makes the files from which the changed files are made: ELF files, a core file, and the program of
    another core file."""
    with open(os.path.join(folder, "a.c"), "w") as file:
        file.write(SOURCE)
    lines = [
        "gcc -O2 -g -gdwarf-5 a.c -o linked",
        "gcc -O2 -g -gdwarf-5 -fno-asynchronous-unwind-tables -gz a.c -o compressed",
        "gcc -O2 -g -gdwarf-5 -c a.c -o object.o",
        "gcc -O2 -g -gdwarf-4 a.c -o old",
        # Lists with indexes of addresses.
        "clang -O2 -g -gdwarf-5 -ffunction-sections a.c -o indexed",
        "gcc -O2 -static -Wl,-s a.c -o crash",
        "gdb --batch -ex 'set startup-with-shell off' -ex run -ex 'gcore core' ./crash < /dev/null",
        "gcc -O2 -g -gz a.c -o program",
        # The symbols as distributions pack them, which is whole programs here.
        "xz -k linked && objcopy --add-section .gnu_debugdata=linked.xz program",
        "gdb --batch -ex 'set startup-with-shell off' -ex run -ex 'gcore program.core' ./program < /dev/null",
    ]
    for line in lines:
        subprocess.run(line, shell=True, cwd=folder, check=True, capture_output=True)
    elf = {}
    for name in ["linked", "compressed", "object.o", "old", "indexed"]:
        with open(os.path.join(folder, name), "rb") as file:
            elf[name] = file.read()
    with open(os.path.join(folder, "core"), "rb") as file:
        core = file.read()
    with open(os.path.join(folder, "program"), "rb") as file:
        program = file.read()
    recordings = {}
    for name in sorted(os.listdir(RECORDINGS)):
        # A recording that is a folder isn't changed.
        if name.endswith(".perf") and os.path.isfile(os.path.join(RECORDINGS, name)):
            with open(os.path.join(RECORDINGS, name), "rb") as file:
                recordings[name] = file.read()
    minidumps = {}
    for name in sorted(os.listdir(MINIDUMPS)):
        if name.endswith(".gz"):
            with gzip.open(os.path.join(MINIDUMPS, name)) as file:
                unpacked = file.read()
            if unpacked[:4] == b"MDMP":
                minidumps[name[:-3]] = unpacked
            else:
                # The program, by its name in the minidumps.
                with open(os.path.join(folder, name[:-3]), "wb") as file:
                    file.write(unpacked)
    return {"elf": elf, "core": core, "program": program, "recording": recordings, "minidump": minidumps}


def sections(bytes_of_file):
    """The ranges of an ELF file's bytes that are changed most often: the ELF header, the section
    headers, and each section of less than 20,000 bytes."""
    offset = int.from_bytes(bytes_of_file[40:48], "little")
    count = int.from_bytes(bytes_of_file[60:62], "little")
    found = [(0, 64), (offset, offset + 64 * count)]
    for number in range(count):
        header = bytes_of_file[offset + 64 * number:][:64]
        kind, start, size = (int.from_bytes(header[a:b], "little") for a, b in [(4, 8), (24, 32), (32, 40)])
        if kind != 8 and 0 < size < 20000:
            found.append((start, start + size))
    return found


def changed(numbers, original, ranges):
    """A copy of a file's bytes in which some are changed, mostly in one of the ranges. Now and then
    it is also cut short."""
    copy = bytearray(original)
    for _ in range(numbers.choice([1, 1, 2, 3, 8])):
        begin, end = numbers.choice(ranges) if numbers.random() < 0.9 else (0, len(copy))
        place = numbers.randrange(begin, min(end, len(copy)))
        kind = numbers.randrange(4)
        if kind == 0:
            copy[place] ^= 1 << numbers.randrange(8)
        elif kind == 1:
            copy[place] = numbers.choice(ODD)
        elif kind == 2:
            copy[place] = numbers.randrange(256)
        else:
            number = numbers.choice([0, 1, 0xFFFFFFFF, 1 << 32, (1 << 64) - 1, 0xFFFFFFF0, len(copy), len(copy) - 1])
            copy[place:place + 8] = number.to_bytes(8, "little")
    if numbers.random() < 0.05:
        del copy[numbers.randrange(len(copy)):]
    return bytes(copy)


def elf_files(program, made_elf, work, seed, count):
    """Runs dwcheck-elf on a folder of `count` changed ELF files. Returns counts of the results, and
    the runs that didn't end as they should."""
    numbers = random.Random(seed)
    folder = tempfile.mkdtemp(dir=work)
    all_ranges = {name: sections(original) for name, original in made_elf.items()}
    expected = set()
    for number in range(count):
        name = numbers.choice(sorted(made_elf))
        changed_bytes = changed(numbers, made_elf[name], all_ranges[name])
        with open(os.path.join(folder, f"{number:04}"), "wb") as file:
            file.write(changed_bytes)
        if changed_bytes[:4] == b"\x7fELF":
            expected.add(changed_bytes)
    problems, came = [], Counter()
    ran, wrong = run([program, "survey", "--compare", "--all", "--lists", "--notes", "--json", "--jobs", "1", "."], folder, (0, 1, 3))
    lines = [json.loads(line) for line in ran.stdout.splitlines()] if ran else []
    if wrong or len(lines) != len(expected) + 1:
        problems.append(f"seed {seed}: survey: {wrong or f'{len(lines)} lines of {len(expected) + 1}'}")
    for line in lines[:-1]:
        # A section that can't be read has an error of its own.
        parts = [line, *line.get("sections", [])]
        accepted = [part["accepted"] for part in parts if "accepted" in part]
        came["not judged" if any("error" in part for part in parts) else "refused" if False in accepted else "accepted"] += 1
    for number in range(0, count, 50):
        name = f"{number:04}"
        for words in [["check", "--all", "--notes", name], ["rows", name], ["row", name, "main+4"], ["locs", name, "0xc", "0x0", "deep"],
                      ["vars", "--depth", "3", name, "mixed+20"], ["vars", "--json", name, "deep+8"]]:
            _, wrong = run([program, *words], folder, (0, 1, 2, 3))
            if wrong:
                problems.append(f"seed {seed}: {words}: {wrong}")
    if not problems:
        shutil.rmtree(folder)
    return came, problems


def core_files(program, core, work, seed, count):
    """Runs dwcheck-elf on `count` changed core files, one after another. Returns the same as
    elf_files()."""
    numbers = random.Random(seed)
    header = int.from_bytes(core[32:40], "little")
    table = (header, header + 56 * int.from_bytes(core[56:58], "little"))
    notes = int.from_bytes(core[header + 8:header + 16], "little")
    notes = (notes, notes + int.from_bytes(core[header + 32:header + 40], "little"))
    problems, came = [], Counter()
    path = os.path.join(work, f"core-{seed}")
    for number in range(count):
        with open(path, "wb") as file:
            file.write(changed(numbers, core, [(0, 64), table, notes, notes, notes]))
        ran, wrong = run([program, "stack", "--limit", "100", "crash", path], work, (0, 3))
        if wrong:
            problems.append(f"seed {seed}: core {number}: {wrong}")
            shutil.copy(path, f"{path}-{number}")
        came[f"status {ran.returncode}" if ran else "no end"] += 1
    os.remove(path)
    return came, problems


def streams(dump):
    """The ranges of a minidump's bytes that are changed most often: the header, the directory, and the beginning of each
    stream, with the contexts and names between them."""
    count, offset = (int.from_bytes(dump[at:at + 4], "little") for at in (8, 12))
    found = [(0, 32), (offset, offset + 12 * count), (0, 4096)]
    for entry in range(offset, offset + 12 * count, 12):
        size, begin = (int.from_bytes(dump[entry + at:entry + at + 4], "little") for at in (4, 8))
        found.append((begin, begin + min(size, 512)))
    return [(begin, end) for begin, end in found if begin < end]


def minidumps(program, originals, work, seed, count):
    """Runs dwcheck-elf on `count` changed minidumps, one after another. Returns the same as elf_files()."""
    numbers = random.Random(seed)
    ranges = {name: streams(original) for name, original in originals.items()}
    problems, came = [], Counter()
    # Not in the folder of --path, whose files must not be cut while they are read.
    changed_files = f"{work}-changed"
    os.makedirs(changed_files, exist_ok=True)
    path = os.path.join(changed_files, f"minidump-{seed}")
    for number in range(count):
        name = numbers.choice(sorted(originals))
        with open(path, "wb") as file:
            file.write(changed(numbers, originals[name], ranges[name]))
        ways = [["--limit", "100"], ["--json", "--limit", "100"], ["--scan", "--modules", "--registers", "--limit", "100"]]
        runs = [["stack", "--path", ".", *ways[number % 3], path]]
        if number % 50 == 0:
            runs.append(["vars", "--path", ".", "--core", path])
        for words in runs:
            ran, wrong = run([program, *words], work, (0, 3) if words[0] == "stack" else (0, 2, 3))
            if wrong:
                problems.append(f"seed {seed}: minidump {number}: {wrong}")
                shutil.copy(path, f"{path}-{number}")
            came[f"{words[0]}: status {ran.returncode}" if ran else "no end"] += 1
    os.remove(path)
    return came, problems


def programs(program, original, work, seed, count):
    """Runs dwcheck-elf on a core file with `count` changed programs, one after another. Returns the same
    as elf_files()."""
    numbers = random.Random(seed)
    # The first page, with the headers, tells whether the program is that of the core file.
    ranges = [(max(begin, 4096), end) for begin, end in sections(original) if end > 4096]
    problems, came = [], Counter()
    path = os.path.join(work, f"program-{seed}")
    for number in range(count):
        with open(path, "wb") as file:
            file.write(changed(numbers, original, ranges))
        ran, wrong = run([program, "stack", "--vars", "--limit", "100", path, "program.core"], work, (0, 3))
        if wrong:
            problems.append(f"seed {seed}: program {number}: {wrong}")
            shutil.copy(path, f"{path}-{number}")
        came["names" if ran and b" deep" in ran.stdout else "no names"] += 1
    os.remove(path)
    return came, problems


def recording_files(program, recordings, work, seed, count):
    """Runs dwcheck-elf on `count` changed recordings, one after another. Returns the same as elf_files()."""
    numbers = random.Random(seed)
    problems, came = [], Counter()
    path = os.path.join(work, f"recording-{seed}")
    for number in range(count):
        original = recordings[numbers.choice(sorted(recordings))]
        with open(path, "wb") as file:
            file.write(changed(numbers, original, [(0, 400), (0, len(original)), (len(original) - 3000, len(original))]))
        words = ["profile", "--root", RECORDINGS, "--stops", "--format", FORMATS[number % len(FORMATS)], path]
        ran, wrong = run([program, *words], work, (0, 3))
        if wrong:
            problems.append(f"seed {seed}: recording {number}: {wrong}")
            shutil.copy(path, f"{path}-{number}")
        came[f"status {ran.returncode}" if ran else "no end"] += 1
    os.remove(path)
    return came, problems


def main():
    words = argparse.ArgumentParser()
    words.add_argument("program")
    words.add_argument("count", type=int)
    words.add_argument("seed", type=int)
    words.add_argument("--jobs", type=int, default=1)
    words.add_argument("--kinds", default="elf,core,program,minidump,recording")
    words = words.parse_args()
    program = os.path.abspath(words.program)
    work = tempfile.mkdtemp()
    originals = made(work)
    problems = []
    tasks_of = {"elf": elf_files, "core": core_files, "program": programs, "minidump": minidumps, "recording": recording_files}
    for kind in words.kinds.split(","):
        task, given = tasks_of[kind], originals[kind]
        starts = range(0, words.count, IN_A_FOLDER)
        with ThreadPoolExecutor(words.jobs) as pool:
            tasks = [
                pool.submit(task, program, given, work, words.seed * 1_000_000 + start, min(IN_A_FOLDER, words.count - start))
                for start in starts
            ]
            came = Counter()
            for one in tasks:
                counts, wrong = one.result()
                came.update(counts)
                problems += wrong
        print(f"{kind}: {words.count} files: {dict(came)}")
    print("\n".join(problems[:20]))
    print(f"{len(problems)} problems" + (f", in {work}*" if problems else ""))
    if not problems:
        shutil.rmtree(work)
        shutil.rmtree(f"{work}-changed", ignore_errors=True)
    return 1 if problems else 0


if __name__ == "__main__":
    sys.exit(main())
