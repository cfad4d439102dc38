#!/usr/bin/env python3
"""Times how long the location lists of files take: checked by dwcheck-elf, and printed by other programs.

    bench/elf/lists_times.py DWCHECK_ELF [--runs N] FILE..

For example: bench/elf/lists_times.py build/dwcheck-elf /usr/lib/debug/.build-id/*/*.debug

Each FILE has debug information. `dwcheck-elf check` checks all of its lists, compares each with gimli's, and checks
its frame sections if it has any. `readelf --debug-dump=loc` and `llvm-dwarfdump --debug-loc --debug-loclists` print
the lists, to /dev/null. The programs run in turn, RUNS times. For each of them a line has the least and the greatest
time of a processor in seconds, the least time's ratio to readelf's, the memory, and the exit status. A program that
runs longer than SECONDS on the clock is ended. This needs binutils; llvm is left out if it isn't there.
"""
import argparse
import os
import resource
import shutil
import subprocess

SECONDS = 300


def run(words):
    """Runs a program. Returns the time of a processor in seconds, the memory in megabytes, and how it ended."""
    limit = lambda: resource.setrlimit(resource.RLIMIT_CPU, (SECONDS, SECONDS))
    process = subprocess.Popen(words, stdout=subprocess.DEVNULL, stderr=subprocess.DEVNULL, preexec_fn=limit)
    _, status, used = os.wait4(process.pid, 0)
    process.returncode = os.waitstatus_to_exitcode(status)
    return used.ru_utime + used.ru_stime, used.ru_maxrss / 1024, process.returncode


def main():
    words = argparse.ArgumentParser(description=__doc__, formatter_class=argparse.RawDescriptionHelpFormatter)
    words.add_argument("program")
    words.add_argument("files", nargs="+")
    words.add_argument("--runs", type=int, default=3)
    words = words.parse_args()
    commands = {
        "readelf": ["readelf", "--debug-dump=loc"],
        "dwcheck-elf": [words.program, "check"],
        "llvm-dwarfdump": ["llvm-dwarfdump", "--debug-loc", "--debug-loclists"],
    }
    commands = {name: command for name, command in commands.items() if shutil.which(command[0])}
    for file in words.files:
        runs = {name: [] for name in commands}
        for _ in range(words.runs):
            for name, command in commands.items():
                runs[name].append(run([*command, file]))
        print(f"{os.path.basename(file)}, {os.path.getsize(file)} bytes")
        least = {name: min(time for time, _, _ in all) for name, all in runs.items()}
        for name, all in runs.items():
            most, memory = max(time for time, _, _ in all), max(memory for _, memory, _ in all)
            statuses = " ".join(sorted({str(status) for _, _, status in all}))
            ratio = least[name] / max(least["readelf"], 0.001)
            print(f"    {name}: {least[name]:.2f} to {most:.2f} s, {ratio:.2f} of readelf's, {memory:.0f} MB, status {statuses}")


if __name__ == "__main__":
    main()
