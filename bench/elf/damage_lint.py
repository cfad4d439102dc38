#!/usr/bin/env python3
"""Runs `dwcheck-elf lint` on programs and objects whose bytes were changed at random.

    bench/elf/damage_lint.py DWCHECK_ELF COUNT SEED [--jobs N] [FILE..]

The FILEs, or if there are none, programs and objects that gcc makes for x86-64 (and for aarch64, if
aarch64-linux-gnu-gcc is installed), are changed COUNT times: bytes anywhere, in headers, in code and in
.eh_frame, single and in runs; some files are cut short. `lint` reads folders of 250 of them. Each run
must end within 120 seconds, in 2 GB of memory, with a status that it documents, and without a panic. A
case depends on the seed and its number alone. If a run fails, its files are read one at a time, and the
first that fails is kept.
"""
import argparse
import os
import random
import shutil
import subprocess
import sys
import tempfile
from concurrent.futures import ThreadPoolExecutor

SOURCE = """
#include <setjmp.h>
#include <stdio.h>
#include <stdlib.h>
static jmp_buf place;
__attribute__((noinline)) long deep(long n) {
    volatile char *p = __builtin_alloca(n * 16 + 16);
    p[0] = n;
    if (n == 0) longjmp(place, 1);
    return deep(n - 1) + p[0];
}
__attribute__((noinline)) int chosen(int n) {
    _Alignas(64) long held[8] = { n };
    switch (n) {
    case 0: return puts("a");
    case 1: return (int)deep(held[0]);
    case 2: abort();
    case 3: return printf("%d", n);
    case 4: return n * 7;
    default: return (int)held[n & 7];
    }
}
int main(int argc, char **argv) { return setjmp(place) ? 1 : chosen(argc) + argv[0][0]; }
"""
IN_A_FOLDER = 250
ODD = [0, 1, 0x7F, 0x80, 0xFF, 0xFE, 0x0F, 0x48, 0xC3, 0xE8, 0xE9, 0xEB, 0x70, 0x06, 0x1A]
MEMORY = 2 << 30


def made(folder):
    """Programs and objects, by their names."""
    with open(os.path.join(folder, "a.c"), "w") as file:
        file.write(SOURCE)
    lines = ["gcc -O2 a.c -o linked", "gcc -O0 -c a.c -o object.o", "gcc -O2 -g -ffunction-sections -c a.c -o sections.o"]
    if shutil.which("aarch64-linux-gnu-gcc"):
        lines += ["aarch64-linux-gnu-gcc -O2 a.c -o other", "aarch64-linux-gnu-gcc -O1 -c a.c -o other.o"]
    for line in lines:
        subprocess.run(line, shell=True, cwd=folder, check=True, capture_output=True)
    return [os.path.join(folder, line.split()[-1]) for line in lines]


def ranges(content):
    """The ranges of bytes that are changed most often: the header, the section headers, code and frames."""
    offset, count = int.from_bytes(content[40:48], "little"), int.from_bytes(content[60:62], "little")
    found = [(0, 64), (offset, offset + 64 * count), (0, len(content))]
    for header in range(offset, offset + 64 * count, 64):
        kind, flags = (int.from_bytes(content[at : at + 4], "little") for at in (header + 4, header + 8))
        begin, size = (int.from_bytes(content[at : at + 8], "little") for at in (header + 24, header + 32))
        if kind != 8 and flags & 2 and size:
            found.append((begin, begin + size))
    return found


def changed(content, places, chance):
    """A file with changed bytes."""
    content = bytearray(content)
    for _ in range(chance.choice([1, 1, 2, 5, 20, 80])):
        begin, end = chance.choice(places)
        at = chance.randrange(begin, max(min(end, len(content)), begin + 1))
        for place in range(at, min(at + chance.choice([1, 1, 1, 2, 4, 8]), len(content))):
            content[place] = chance.choice([chance.randrange(256), chance.choice(ODD), content[place] ^ 1 << chance.randrange(8)])
    return bytes(content[: chance.randrange(len(content))] if chance.randrange(40) == 0 else content)


def failure(program, path):
    """What is wrong with how a run ended, or None."""
    # By prlimit: a preexec_fn may wait forever for a lock that another thread had when the child was made.
    words = ["prlimit", f"--as={MEMORY}", program, "lint", "--jobs", "1", "--private", path]
    try:
        ran = subprocess.run(words, capture_output=True, timeout=120)
    except subprocess.TimeoutExpired:
        return "no end"
    if ran.returncode not in (0, 1, 3) or b"panicked" in ran.stderr:
        return f"status {ran.returncode}: {ran.stderr[-300:]!r}"
    return None


def batch(program, sources, seed, first, count, folder):
    """Reads some changed files. Returns what is wrong, or None."""
    path = os.path.join(folder, str(first))
    os.mkdir(path)
    for number in range(first, first + count):
        chance = random.Random(f"{seed} {number}")
        name, content, places = chance.choice(sources)
        with open(os.path.join(path, f"{number}.{name}"), "wb") as file:
            file.write(changed(content, places, chance))
    wrong = failure(program, path)
    if wrong:
        for name in sorted(os.listdir(path)):
            alone = failure(program, os.path.join(path, name))
            if alone:
                shutil.copy(os.path.join(path, name), name)
                wrong = f"{name} (kept here): {alone}"
                break
    shutil.rmtree(path)
    return wrong


def main():
    parser = argparse.ArgumentParser(description=__doc__.splitlines()[0])
    parser.add_argument("program", type=os.path.abspath)
    parser.add_argument("count", type=int)
    parser.add_argument("seed")
    parser.add_argument("files", nargs="*")
    parser.add_argument("--jobs", type=int, default=1)
    words = parser.parse_intermixed_args()
    with tempfile.TemporaryDirectory() as folder:
        sources = []
        for path in words.files or made(folder):
            with open(path, "rb") as file:
                content = file.read()
            sources.append((os.path.basename(path), content, ranges(content)))
        with ThreadPoolExecutor(words.jobs) as pool:
            firsts = range(0, words.count, IN_A_FOLDER)
            run = lambda first: batch(words.program, sources, words.seed, first, min(IN_A_FOLDER, words.count - first), folder)
            wrong = [found for found in pool.map(run, firsts) if found]
    for found in wrong[:5]:
        print(found)
    print(f"{words.count} changed files of {len(sources)}, {len(wrong)} folders with a failure")
    sys.exit(bool(wrong))


if __name__ == "__main__":
    main()
