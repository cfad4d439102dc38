#!/usr/bin/env python3
"""Compares the stacks that dwcheck-elf and LLDB show of minidumps, and times both.

    bench/elf/minidumps.py DWCHECK_ELF compare DUMP.. [--path FOLDER]..
    bench/elf/minidumps.py DWCHECK_ELF time [--threads N] [--runs N]

`compare` reads each DUMP by both programs. LLDB looks for libraries where this machine has them
(`target.exec-search-paths`). For each thread of each dump it says whether the addresses of the frames are
the same, or dwcheck-elf has more frames than LLDB, which has the first of them, or they differ; those that differ are
shown. `time` has LLDB write a minidump of a stripped program with N threads (200), each of which waits in a C library's
function that calls one of the program's, and prints how long both take, beyond the start of LLDB, and the memory of
dwcheck-elf: all of it, what it has allocated and written to, and pages of files, which are its own code, its libraries,
the dump and the dump's modules. This needs gcc and lldb-19.
"""
import argparse
import os
import re
import subprocess
import sys
import tempfile
import time

LIBRARIES = {"x86-64": "/lib/x86_64-linux-gnu", "i386": "/lib32"}
SOURCE = """
#include <pthread.h>
#include <stdlib.h>
#include <unistd.h>
static int order(const void *x, const void *y) { for (;;) pause(); return *(const int *)x - *(const int *)y; }
__attribute__((noinline)) static int deep(int n) {
    int values[] = {3, 1, 2};
    if (n == 0) qsort(values, 3, sizeof *values, order);
    volatile int kept = n;
    return deep(n - 1) + kept;
}
static void *waits(void *n) { return (void *)(long)deep(20 + (int)(long)n % 7); }
int main(int count, char **words) {
    pthread_t thread;
    for (long n = 0; n < atoi(words[1]); n++) if (pthread_create(&thread, NULL, waits, (void *)n) != 0) return 1;
    sleep(1);
    abort();
}
"""


def threads(text, is_lldb):
    """The addresses of the frames of each thread: by its number or id, in the order in which they are shown."""
    found, frames = [], None
    # LLDB shows the function into which another one is inlined as a frame of its own, after that one.
    is_outer = False
    for line in text.splitlines():
        if re.match(r"[* ] thread #" if is_lldb else r"thread \d+", line):
            frames = []
            found.append(frames)
        shown = re.match(r"[* ]+frame #\d+: (0x[0-9a-f]+)", line) if is_lldb else re.match(r"#\d+ (0x[0-9a-f]+)", line)
        if shown and frames is not None:
            # Functions that ended with a jump are frames here if call sites prove them.
            is_counted = not is_outer if is_lldb else " inlined" not in line and not line.endswith(" tail call")
            is_outer = is_lldb and " [inlined] " in line
            if is_counted:
                frames.append(int(shown[1], 16))
    return found


def by_lldb(dump):
    with open(dump, "rb") as file:
        machine = "i386" if is_i386(file.read()) else "x86-64"
    words = ["lldb-19", "-b", "-o", f"settings set target.exec-search-paths {LIBRARIES[machine]}",
             "-o", f"target create --core {dump}", "-o", "bt all"]
    return threads(subprocess.run(words, capture_output=True, text=True, timeout=300).stdout, True)


def is_i386(dump):
    """Whether the system information says so."""
    count, offset = (int.from_bytes(dump[at:at + 4], "little") for at in (8, 12))
    for entry in range(offset, offset + 12 * count, 12):
        if dump[entry:entry + 4] == b"\x07\0\0\0":
            place = int.from_bytes(dump[entry + 8:entry + 12], "little")
            return dump[place:place + 2] == b"\0\0"
    return False


def compare(program, dumps, paths):
    given = [word for path in paths for word in ("--path", path)]
    problems = 0
    for dump in dumps:
        ran = subprocess.run([program, "stack", *given, dump], capture_output=True, text=True, timeout=300)
        ours, theirs = threads(ran.stdout, False), by_lldb(dump)
        # The thread that crashed is the first one of ours; LLDB has the order of the file.
        ours, theirs = sorted(ours), sorted(theirs)
        same = sum(1 for one in ours if one in theirs)
        left = [one for one in ours if one not in theirs]
        unmatched = [one for one in theirs if one not in ours]
        longer = []
        for one in list(left):
            first = next((other for other in unmatched if one[:len(other)] == other), None)
            if first is not None:
                unmatched.remove(first)
                left.remove(one)
                longer.append((len(first), len(one)))
        print(f"{os.path.basename(dump)}: same {same} longer {len(longer)} {longer} different {len(left)}")
        for one in left:
            print("    dwcheck-elf:", " ".join(map(hex, one)))
        for one in unmatched:
            print("    LLDB:       ", " ".join(map(hex, one)))
        problems += len(left) + len(unmatched)
    return problems


def seconds(words, runs):
    """The shortest of several runs, and the most memory that a run of them took, in KB."""
    best = float("inf")
    for _ in range(runs):
        begun = time.monotonic()
        subprocess.run(words, stdout=subprocess.DEVNULL, stderr=subprocess.DEVNULL, check=True)
        best = min(best, time.monotonic() - begun)
    return best


def memory(words):
    """The most memory that a run takes, in KB: all of it, what is its own, and what is pages of files. What `getrusage`
    says counts this script's memory, too."""
    process = subprocess.Popen(words, stdout=subprocess.DEVNULL)
    most = {"VmHWM": 0, "RssAnon": 0, "RssFile": 0}
    while process.poll() is None:
        try:
            with open(f"/proc/{process.pid}/status", encoding="ascii") as status:
                found = dict(re.findall(r"^(\w+):\s+(\d+) kB$", status.read(), re.MULTILINE))
        except OSError:
            break
        most = {name: max(kept, int(found.get(name, 0))) for name, kept in most.items()}
        time.sleep(0.0005)
    process.wait()
    return most.values()


def times(program, count, runs):
    with tempfile.TemporaryDirectory() as folder:
        with open(f"{folder}/threads.c", "w") as file:
            file.write(SOURCE)
        subprocess.run(["gcc", "-O1", "-s", "-pthread", "threads.c", "-o", "threads"], cwd=folder, check=True)
        dump = f"{folder}/threads.dmp"
        subprocess.run(["lldb-19", "-b", "-o", "run", "-k", f"process save-core --plugin-name=minidump --style=stack {dump}", "-k", "kill",
                        "--", f"{folder}/threads", str(count)], stdout=subprocess.DEVNULL, stderr=subprocess.DEVNULL, check=True)
        start = seconds(["lldb-19", "-b", "-o", "settings show target.exec-search-paths"], runs)
        theirs = seconds(["lldb-19", "-b", "-o", "bt all", "-c", dump], runs)
        ours = seconds([program, "stack", dump], runs)
        size = os.path.getsize(dump)
        print(f"threads {count + 1} bytes {size} dwcheck-elf {ours:.3f} s, LLDB {theirs:.3f} s, its start {start:.3f} s")
        print(f"ratio {ours / max(theirs - start, 1e-9):.3f}")
        whole, own, of_files = memory([program, "stack", dump])
        # It ends so soon that not each run of it is seen.
        least = max(max(memory([program, "--help"])) for _ in range(20))
        print(f"memory {whole} KB, {whole * 1024 / size:.2f} times the dump: at most {own} KB of its own and {of_files} KB of "
              f"files; --help takes {least} KB", flush=True)
        return compare(program, [dump], [])


def main():
    words = argparse.ArgumentParser()
    words.add_argument("program")
    words.add_argument("what", choices=["compare", "time"])
    words.add_argument("dumps", nargs="*")
    words.add_argument("--path", action="append", default=[])
    words.add_argument("--threads", type=int, default=200)
    words.add_argument("--runs", type=int, default=3)
    words = words.parse_args()
    program = os.path.abspath(words.program)
    if words.what == "time":
        return 1 if times(program, words.threads, words.runs) else 0
    return 1 if compare(program, words.dumps, words.path) else 0


if __name__ == "__main__":
    sys.exit(main())
