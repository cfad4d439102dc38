#!/usr/bin/env python3
"""Measures runs with a store: how long a second run takes, what several workers take, and what is left of workers that
are killed.

    bench/elf/stores.py DWCHECK_ELF PATH [--command survey] [--workers 4] [--shards-of-each 1 16] [--kills 100]

The second run takes what the store has. N workers take shards in turn, with one thread, and a store for each shard, as
examples/archive does: as many shards as there are workers, and then 16 times as many. The stores are then joined, and
have to give the export of one whole run. Then workers on one store are killed at random moments, and after a last run
that isn't killed, its export has to be the same, too. Seconds of processors don't depend on what else the machine does,
as those of the clock do.
"""
import argparse
import os
import pathlib
import random
import subprocess
import sys
import tempfile
import threading
import time
from multiprocessing.pool import ThreadPool


class Run:
    """A process that runs, and what it took: seconds of the clock and of processors, and its largest memory."""

    def __init__(self, words):
        self.begun = time.monotonic()
        self.process = subprocess.Popen(words, stdout=subprocess.DEVNULL, stderr=subprocess.DEVNULL)

    def end(self):
        _, status, used = os.wait4(self.process.pid, 0)
        self.process.returncode = os.waitstatus_to_exitcode(status)
        self.clock = time.monotonic() - self.begun
        self.processors = used.ru_utime + used.ru_stime
        self.megabytes = used.ru_maxrss / 1024
        return self


def export(program, store):
    """What a store has, in an order of its own."""
    return subprocess.run([program, "store", "export", store], check=True, capture_output=True).stdout


def second_run(words, store):
    """The first run and the second one."""
    runs = [Run([*words, "--store", store]).end() for _ in range(2)]
    for name, run in zip(("first", "second"), runs):
        print(f"{name}: {run.clock:.2f} s, {run.processors:.2f} s of processors, {run.megabytes:.0f} MB")
    print(f"second / first: {runs[1].clock / runs[0].clock:.4f} by the clock, "
          f"{runs[1].processors / runs[0].processors:.4f} of processors", flush=True)


def shards(program, words, folder, workers, count):
    """Runs some workers at a time, which take the shards in turn. Returns the seconds of the clock and of processors,
    and the store of all of them."""
    parts = [str(folder / f"{workers}-{number}-of-{count}") for number in range(1, count + 1)]

    busy = {}

    def take(numbered):
        number, part = numbered
        run = Run([*words, "--jobs", "1", "--store", part, "--shard", f"{number}/{count}"]).end()
        busy[threading.get_ident()] = busy.get(threading.get_ident(), 0) + run.processors
        return run

    begun = time.monotonic()
    with ThreadPool(workers) as pool:
        runs = pool.map(take, enumerate(parts, 1), chunksize=1)
    clock = time.monotonic() - begun
    processors = sum(run.processors for run in runs)
    print(f"{workers} workers, {count} shards: {clock:.2f} s, {processors:.2f} s of processors, a shard "
          f"{min(run.clock for run in runs):.2f} to {max(run.clock for run in runs):.2f} s and at most "
          f"{max(run.megabytes for run in runs):.0f} MB; the busiest worker has "
          f"{max(busy.values()) * workers / processors:.2f} of an equal part", flush=True)
    joined = str(folder / f"{workers}-of-{count}-joined")
    subprocess.run([program, "store", "merge", joined, *parts], check=True)
    return clock, processors, joined


def killed(program, words, store, kills, longest):
    """Kills workers of one store, and lets the last one end."""
    ended = 0
    for _ in range(kills):
        run = Run([*words, "--store", store])
        time.sleep(random.uniform(0, longest))
        run.process.kill()
        ended += run.end().process.returncode >= 0
    Run([*words, "--store", store]).end()
    print(f"{kills} workers killed, of which {ended} had ended before", flush=True)
    check = subprocess.run(["sqlite3", store, "PRAGMA integrity_check; PRAGMA foreign_key_check"], capture_output=True, text=True)
    return export(program, store), check.stdout.strip()


def main():
    parser = argparse.ArgumentParser(description=__doc__, formatter_class=argparse.RawDescriptionHelpFormatter)
    parser.add_argument("program")
    parser.add_argument("path")
    parser.add_argument("--command", default="lint")
    parser.add_argument("--workers", type=int, default=os.cpu_count())
    parser.add_argument("--shards-of-each", type=int, nargs="+", default=[1, 16])
    parser.add_argument("--kills", type=int, default=100)
    arguments = parser.parse_args()
    program, words = arguments.program, [arguments.program, arguments.command, arguments.path]
    wrong = []
    with tempfile.TemporaryDirectory() as name:
        folder = pathlib.Path(name)
        whole = str(folder / "whole")
        second_run(words, whole)
        expected = export(program, whole)
        print(f"export: {len(expected)} bytes, {len(expected.splitlines())} answers", flush=True)
        one, one_processors, joined = shards(program, words, folder, 1, 1)
        wrong += ["one worker's export"] * (export(program, joined) != expected)
        for each in arguments.shards_of_each if arguments.workers > 1 else []:
            many, many_processors, joined = shards(program, words, folder, arguments.workers, arguments.workers * each)
            wrong += ["the workers' export"] * (export(program, joined) != expected)
            print(f"rate of {arguments.workers} workers with {each} shards for each: {one / many:.2f} of one's by the clock; "
                  f"{arguments.workers * one_processors / many_processors:.2f} if each had a processor of its own", flush=True)
        if arguments.kills:
            found, check = killed(program, words, str(folder / "killed"), arguments.kills, one / arguments.kills * 2)
            wrong += ["the export after the kills"] * (found != expected) + [f"the store: {check}"] * (check != "ok")
    print("FAILED: " + ", ".join(wrong) if wrong else "all exports are the same")
    return 1 if wrong else 0


if __name__ == "__main__":
    sys.exit(main())
