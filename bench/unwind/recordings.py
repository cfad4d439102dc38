#!/usr/bin/env python3
"""Times `perf script --no-inline` with libunwind and with ours in its place, and compares the stacks, sample by sample.

    bench/unwind/recordings.py FOLDER RECORDING.. [--profile DWCHECK_ELF] [--runs N]

FOLDER has our libunwind.so.8 (build/unwind). A RECORDING is what `perf record --call-graph dwarf` wrote. For each, both run in
turn, N times, and the medians are shown: the time of a processor and that on the clock, and ours by libunwind's. Then stacks
that differ are counted by how, and one of each kind is shown: libunwind ends its last frame at an address in no mapping, one
of the two has fewer frames, or other frames. With --profile, the stacks of `dwcheck-elf profile` are compared with ours, too.
The status is 1 if ours has fewer frames than libunwind, or others, in any sample.
"""
import argparse
import collections
import importlib.util
import os
import pathlib
import statistics
import sys

HERE = pathlib.Path(__file__).resolve().parent


def bench_of_profiles():
    """bench/elf/profile.py, which times commands and reads stacks."""
    spec = importlib.util.spec_from_file_location("bench_of_profiles", HERE.parent / "elf/profile.py")
    module = importlib.util.module_from_spec(spec)
    spec.loader.exec_module(module)
    return module


PROFILES = bench_of_profiles()
NAMES = {"perf ends in no mapping": "the first ends in no mapping", "perf has fewer": "the first has fewer", "dwcheck has fewer": "the second has fewer"}


def perf(folder, *words):
    """The words of perf's command, with our libraries if a folder is given."""
    return ["env", *([f"LD_LIBRARY_PATH={folder}"] if folder else ["-u", "LD_LIBRARY_PATH"]), "perf", "script", "--no-inline", *words]


def time_both(folder, recording, runs):
    """Prints the medians of both."""
    times = collections.defaultdict(list)
    for _ in range(runs):
        for who, where in ("libunwind", None), ("ours", folder):
            times[who].append(PROFILES.timed(perf(where, "-i", recording)))
    medians = {who: [statistics.median(values) for values in zip(*of)] for who, of in times.items()}
    for number, what in enumerate(("on the clock", "of a processor")):
        theirs, ours = medians["libunwind"][number], medians["ours"][number]
        print(f"  seconds {what}: libunwind {theirs:.2f}, ours {ours:.2f}: {ours / theirs:.2f}", flush=True)


def compare(names, first, second):
    """Counts how samples differ, shows one of each kind, and returns the counts."""
    counts, frames, shown = collections.Counter(), 0, {}
    for key, of_first in first.items():
        for one, other in zip(of_first, second.get(key, [])):
            kind = "equal" if one == other else PROFILES.kind_of(one, other)
            counts[NAMES.get(kind, kind)] += 1
            frames += len(one)
            if one != other:
                shown.setdefault(NAMES.get(kind, kind), (key, one, other))
    missing = sum(map(len, first.values())) - sum(counts.values())
    print(f"  {names[0]}, {names[1]}: {frames} frames of samples: {dict(counts)}; missing {missing}")
    for kind, (key, one, other) in shown.items():
        same = next((i for i, pair in enumerate(zip(one, other)) if pair[0] != pair[1]), min(len(one), len(other)))
        print(f"    {kind}: sample {key[1]}, from frame {same} on: {show(one[same:])} | {show(other[same:])}")
    return counts


def show(frames):
    """The first frames as text."""
    return " ".join(f"{address:#x}({os.path.basename(file)})" for address, file in frames[:3]) or "none"


def main():
    parser = argparse.ArgumentParser(description=__doc__.split("\n\n", maxsplit=1)[0])
    parser.add_argument("folder", type=pathlib.Path)
    parser.add_argument("recordings", nargs="+")
    parser.add_argument("--profile")
    parser.add_argument("--runs", type=int, default=5)
    words = parser.parse_args()
    folder, fewer = words.folder.resolve(), 0
    fields = ["-F", "comm,tid,time,ip,sym,dso", "-i"]
    for recording in words.recordings:
        print(f"{os.path.basename(recording)}: {os.path.getsize(recording) / 1e6:.0f} MB", flush=True)
        if words.runs:
            time_both(folder, recording, words.runs)
        theirs, ours = (PROFILES.stacks(perf(where, *fields, recording)) for where in (None, folder))
        counts = compare(("libunwind", "ours"), theirs, ours)
        fewer += counts["the second has fewer"] + counts["others"] + (len(ours) != len(theirs))
        if words.profile:
            profile = [words.profile, "profile", "-q", "--format", "script", "--no-inline", "--max-stack", "127", recording]
            compare(("ours", "dwcheck-elf profile"), ours, PROFILES.stacks(profile))
    sys.exit(1 if fewer else 0)


if __name__ == "__main__":
    main()
