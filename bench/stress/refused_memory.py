#!/usr/bin/env python3
"""Lets each request for memory fail in turn, in tests and in dwcheck, and checks that every run
ends as it should.

    bench/stress/refused_memory.py TESTS DWCHECK

TESTS is the test program that `rt test` makes: crates/dw_tests/out/dw_tests_tests. This needs cc
and glibc.

A library that is loaded before the C library lets the Nth call of malloc or realloc fail. N goes
from 1 up to the number of calls.

For every N, each test of the module `refused_memory` must pass: either the call that asked for that
memory reports that memory ran out, and gives its answer when it is made again; or it manages without
that memory and its answer is right. For example, the check of lists and `certify` manage without it
if a fast path lacks memory, because then the general path does all the work. Each call that these
tests make, but `certify`, must run out of memory at least once. Two of the tests make the same calls,
and one of them also looks up what these made: both must make as many requests.

For every N, each run of dwcheck must end as usual, or with status 3, the line "out of memory" and
the first part of its usual output, which may be empty. It must be empty if the usual output says
that the input is refused.

Each line of output says how many requests there were, and how many of them weren't needed; for a call
of the tests, how many times it ran out of memory.
"""
import os
import re
import subprocess
import sys
import tempfile

REFUSE = r"""
#include <stddef.h>
#include <stdlib.h>
#include <unistd.h>
extern void *__libc_malloc(size_t);
extern void *__libc_realloc(void *, size_t);
static long left = -1;
__attribute__((constructor)) static void start(void) { left = atol(getenv("REFUSED")); }
static int refuses(void) { return left > 0 && --left == 0 && write(atoi(getenv("REFUSED_TO")), "!", 1) == 1; }
void *malloc(size_t size) { return refuses() ? NULL : __libc_malloc(size); }
void *realloc(void *old, size_t size) { return refuses() ? NULL : __libc_realloc(old, size); }
"""
CIE = "14000000 ffffffff 04 00 08 00 01 78 10 0c0708 9001 00000000 "
HEAD = "1c000000 00000000 0010000000000000 2000000000000000 "
FILES = {
    "frame": CIE + HEAD + "41 0e10 8602 43 0d06",
    "expressions": CIE + HEAD + "10 06 02 2308 16 07 00",
    "bad": CIE + HEAD + "61 00000000000000",
    "lists": "12000000 0500 08 00 00000000 04 00 10 01 50 05 02 309f 00",
    "sum": "32 33 22",
    "pieces": "50 9304 9304",
    "state": "reg 6 0x7f00\nmem 0x7f00 0080000000000000\nmem 0x7f08 3412000000000000\n",
    "round": "keep 6\nreg 6 0x7f00\nmem 0x7f00 007f000000000000\nmem 0x7f08 1010000000000000\n",
}
RUNS = [
    "rows --hex frame", "rows --hex expressions", "rows --hex bad", "row --hex frame 0x1010", "check --hex frame lists",
    "check --hex expressions lists", "check --hex bad lists", "locs --hex lists 0xc 0x1000 0x1005", "eval --hex location sum",
    "eval --hex location pieces --state state", "unwind --hex frame 0x1010 state",
    "backtrace --hex frame 0x1010 round 20", "rows frame", "check frame lists", "eval foo sum", "rows",
]
# The calls that run out of memory in the tests.
CALLS = [
    "Operations", "Recheck", "CheckCie", "CheckFde", "CheckFrame", "CheckLists", "Check", "Compile", "CompileMany",
    "Backtrace", "BacktraceBySection", "BacktraceByTable", "ProcessAdd", "ProcessShare", "CheckEhFrame", "SignalFrames",
    "ProcessAddEhFrame", "ProcessAddBoth", "Report", "ReportWithoutLists", "Request", "Run", "Load", "checks",
]
WANT = "dwcheck: out of memory\n"
WITHOUT = "done without"


def run(library, words, number, folder):
    """Runs a command in which request `number` for memory fails. Returns its standard output, its
    standard error, its exit status, and whether there was such a request."""
    reading, writing = os.pipe()
    surroundings = {**os.environ, "LD_PRELOAD": library, "REFUSED": str(number), "REFUSED_TO": str(writing)}
    ended = subprocess.run(words, cwd=folder, env=surroundings, pass_fds=[writing], capture_output=True, check=False)
    os.close(writing)
    with os.fdopen(reading, "rb") as refused:
        return ended.stdout, ended.stderr, ended.returncode, refused.read() != b""


def each(library, words, folder, judge):
    """Runs a command again and again; in each run the next request for memory fails. judge() checks
    how a run ended. Returns the number of requests, and how many of them weren't needed."""
    number, without = 1, 0
    while True:
        *ended, refused = run(library, words, number, folder)
        if not refused:
            return number - 1, without
        said = judge(*ended)
        if said not in (None, WITHOUT):
            raise SystemExit(f"{' '.join(words[1:])}, request {number}: {said}\n{ended}")
        without += said == WITHOUT
        number += 1


def judge_test(refusals):
    """Judges runs of a test, and counts in `refusals` which calls ran out of memory."""

    def judge(out, err, status):
        if status != 0 or b"test result: ok" not in out:
            return "the test fails"
        calls = re.findall(rb"refused: (\w+)", out)
        for call in calls:
            refusals[call.decode()] = refusals.get(call.decode(), 0) + 1
        return None if calls else WITHOUT

    return judge


def judge_program(whole):
    wanted, text, ample = whole

    def judge(out, err, status):
        if (out, err, status) == (wanted, text, ample):
            return WITHOUT
        if status != 3 or err.decode() != WANT:
            return "another end"
        return None if wanted.startswith(out) and (not out or not out.startswith(b"refused")) else "another text"

    return judge


def done(without):
    return f", {without} of them done without" if without else ""


def refuse_in_tests(library, tests, folder):
    """Lets each request of the tests fail. Prints how often each call ran out of memory."""
    listed = subprocess.run([tests, "--list"], capture_output=True, text=True, check=True).stdout
    counts, refusals = {}, dict.fromkeys(CALLS, 0)
    for name in re.findall(r"^(refused_memory::\w+): test$", listed, re.MULTILINE):
        counts[name], without = each(library, [tests, name], folder, judge_test(refusals))
        print(f"{counts[name]:6} {name}{done(without)}")
    for call, count in refusals.items():
        print(f"{count:6} {call} ran out of memory")
    if wrong := [call for call, count in refusals.items() if count == 0 or call not in CALLS]:
        raise SystemExit(f"never out of memory, or unknown here: {' '.join(wrong)}")
    if counts["refused_memory::look_ups_take_no_memory"] != counts["refused_memory::checks_alone"]:
        raise SystemExit("look-ups take memory")


def main():
    if len(sys.argv) != 3:
        raise SystemExit(__doc__)
    tests, program = map(os.path.abspath, sys.argv[1:])
    with tempfile.TemporaryDirectory() as folder:
        library = f"{folder}/refuse.so"
        subprocess.run(["cc", "-O2", "-shared", "-fPIC", "-x", "c", "-o", library, "-"], input=REFUSE.encode(), check=True)
        for name, content in FILES.items():
            with open(f"{folder}/{name}", "w", encoding="ascii") as file:
                file.write(content)
        refuse_in_tests(library, tests, folder)
        for words in RUNS:
            *whole, _ = run(library, [program, *words.split()], 0, folder)
            count, without = each(library, [program, *words.split()], folder, judge_program(whole))
            print(f"{count:6} {words}{done(without)}")


main()
