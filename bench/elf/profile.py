#!/usr/bin/env python3
"""Times `dwcheck-elf profile` beside `perf script` on recordings, and compares their stacks.

    bench/elf/profile.py DWCHECK_ELF RECORDING.. [--inline] [--runs N]

A RECORDING is what `perf record --call-graph dwarf` wrote. For each, `perf script --no-inline` and
`dwcheck-elf profile --format script` (with inlined functions, on one processor and on all, and without
them) run in turn, N times. The medians are shown of the time on the clock, the time of all processors,
each also by that of `perf script --no-inline`, and the most memory. With --inline, perf's names of
inlined functions are timed too, once; that takes minutes.

Then the frames of programs are compared, sample by sample. Stacks that differ are counted by how: perf
ends its last frame at an address in no mapping, perf has fewer frames, dwcheck has fewer, or other
frames. For each kind, a line says of the frames that only one of them has, and whose file has the code, how many
follow a call instruction, as frames that made a call do (x86-64 only). With --compare, nothing is timed.
"""
import argparse
import collections
import os
import re
import statistics
import subprocess
import time

LINE = re.compile(r"^\s+([0-9a-f]+) (.*) \((.*)\)$")
HEAD = re.compile(r"^(.*?)\s+(\d+)\s+(\d+\.\d+):")


def timed(words):
    """Runs a command. Returns its seconds on the clock and of all processors, and its most memory in MB."""
    start = time.monotonic()
    pid = os.fork()
    if pid == 0:
        nowhere = os.open("/dev/null", os.O_WRONLY)
        os.dup2(nowhere, 1)
        os.dup2(nowhere, 2)
        os.execvp(words[0], words)
    _, status, usage = os.wait4(pid, 0)
    if status != 0:
        raise SystemExit(f"{words} ended with {status}")
    return time.monotonic() - start, usage.ru_utime + usage.ru_stime, usage.ru_maxrss / 1024


def stacks(words):
    """The frames of programs by sample, each an address and a file."""
    found = collections.defaultdict(list)
    ran = subprocess.run(words, capture_output=True, text=True, errors="replace")
    for line in ran.stdout.splitlines():
        frame = LINE.match(line)
        if frame is None:
            if (head := HEAD.match(line)) and not line.startswith("\t"):
                frames = []
                found[(head[2], head[3])].append(frames)
        elif not frame[3].startswith("[kernel"):
            frames.append((int(frame[1], 16), frame[3]))
    return found


def is_call(code):
    """Whether 7 bytes of code of x86-64 end with a call."""
    def length(modrm):
        sib = (modrm & 7) == 4 and modrm >> 6 != 3
        return 2 + sib + {0: 4 if modrm & 7 == 5 else 0, 1: 1, 2: 4, 3: 0}[modrm >> 6]
    return code[2] == 0xE8 or any(
        code[7 - size] == 0xFF and code[8 - size] >> 3 & 7 == 2 and length(code[8 - size]) == size for size in (2, 3, 4, 6, 7))


def follows_call(frames, files):
    """How many frames of a file follow a call, and how many don't. Their addresses are offsets in the file,
    of the byte before the return address."""
    yes, no = 0, 0
    for address, file in frames:
        if file not in files:
            try:
                with open(file, "rb") as opened:
                    files[file] = opened.read()
            except OSError:
                files[file] = b""
        code = files[file][address - 6:address + 1]
        if len(code) == 7:
            yes, no = yes + is_call(code), no + (not is_call(code))
    return yes, no


def kind_of(perf, ours):
    """How two stacks differ."""
    if len(perf) == len(ours) + 1 and perf[:-1] == ours and perf[-1][1] == "[unknown]":
        return "perf ends in no mapping"
    shorter = min(len(perf), len(ours))
    if perf[:shorter] == ours[:shorter]:
        return "perf has fewer" if len(perf) < len(ours) else "dwcheck has fewer"
    return "others"


def compare(recording, program):
    perf = stacks(["perf", "script", "--no-inline", "-F", "comm,tid,time,ip,sym,dso", "-i", recording])
    ours = stacks([program, "profile", "-q", "--format", "script", "--no-inline", "--max-stack", "127", recording])
    counts, files, calls = collections.Counter(), {}, collections.Counter()
    for key, of_perf in perf.items():
        for one, other in zip(of_perf, ours.get(key, [])):
            if one == other:
                counts["equal"] += 1
                continue
            kind = kind_of(one, other)
            counts[kind] += 1
            same = 0
            while same < min(len(one), len(other)) and one[same] == other[same]:
                same += 1
            for who, frames in ("perf", one), ("dwcheck", other):
                yes, no = follows_call(frames[max(same, 1):], files)
                calls[kind, who, True] += yes
                calls[kind, who, False] += no
    missing = sum(map(len, perf.values())) - sum(counts.values())
    print(f"  stacks: {dict(counts)}; missing {missing}")
    for kind in counts:
        of = {who: (calls[kind, who, True], calls[kind, who, False]) for who in ("perf", "dwcheck")}
        if any(yes + no for yes, no in of.values()):
            shown = ", ".join(f"{yes} of {yes + no} of {who}" for who, (yes, no) in of.items())
            print(f"  {kind}: follow a call: {shown}")


def time_all(recording, words):
    ours = [words.program, "profile", "-q", "--format", "script", recording]
    commands = {
        "perf script --no-inline": ["perf", "script", "--no-inline", "-i", recording],
        "dwcheck, one processor": ["taskset", "-c", "0", *ours],
        "dwcheck": ours,
        "dwcheck --no-inline": [*ours, "--no-inline"],
    }
    results = collections.defaultdict(list)
    for _ in range(words.runs):
        for name, command in commands.items():
            results[name].append(timed(command))
    if words.inline:
        results["perf script"].append(timed(["perf", "script", "-i", recording]))
    medians = {name: [statistics.median(values) for values in zip(*runs)] for name, runs in results.items()}
    clock, processors, _ = medians["perf script --no-inline"]
    for name, (seconds, of_all, memory) in medians.items():
        print(f"  {name:26} {seconds:7.3f} s {seconds / clock:6.2f}   {of_all:7.3f} s {of_all / processors:6.2f}   {memory:6.0f} MB", flush=True)


def main():
    parser = argparse.ArgumentParser(description=__doc__.split("\n\n", maxsplit=1)[0])
    parser.add_argument("program")
    parser.add_argument("recordings", nargs="+")
    parser.add_argument("--inline", action="store_true")
    parser.add_argument("--runs", type=int, default=5)
    parser.add_argument("--compare", action="store_true")
    words = parser.parse_args()
    for recording in words.recordings:
        print(f"{os.path.basename(recording)}: {os.path.getsize(recording) / 1e6:.0f} MB", flush=True)
        if not words.compare:
            time_all(recording, words)
        compare(recording, words.program)


if __name__ == "__main__":
    main()
