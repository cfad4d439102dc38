#!/usr/bin/env python3
"""Checks `.eh_frame` sections with the library, and compares its answers with what the model
bench/models/eh_frame_model.py gives: whether a section is accepted, or its first fault; what it
contains; all rows, and the row of an address; and which FDEs are signal frames.

    cd rust/dwcheck && ../cargo.sh build --release --example eh_frame_answers
    bench/comparisons/compare_eh_frame.py ANSWERS COUNT SEED [--jobs N] [--pieces N] [FILE ..]

ANSWERS is the program that is built by the first line, target/release/examples/eh_frame_answers. COUNT
sections are made at random, for both byte orders and address sizes. Of each FILE, an ELF program, the
whole section is read, and a number of small pieces of it are damaged in each of some 3,000 ways.
1,000 cases take some 2 s of a processor.
"""
import argparse
import collections
import functools
import multiprocessing
import random
import subprocess
import sys

import with_models  # noqa: F401
from comparing import refusal
from eh_frame_damage import damaged, pieces, whole
from eh_frame_maker import EhFrameMaker
from eh_frame_model import answer

IN_A_BATCH = 500


def line_of(case):
    """The line that the program reads."""
    known = [case.bases.section, case.bases.text or 0, case.bases.data or 0, case.lookup]
    words = ["big" if case.big else "little", str(case.size), "aarch64" if case.is_aarch64 else "other"]
    return " ".join([*words, *(f"{number:x}" for number in known), case.section.hex() or "-"])


def wanted(case):
    return answer(case.section, case.bases, case.lookup, case.big, case.size, case.is_aarch64)


def written(program, cases):
    """What the program writes for each case. It may write less, if it fails."""
    lines = "".join(line_of(case) + "\n" for case in cases)
    run = subprocess.run([program], input=lines, capture_output=True, text=True, check=False)
    texts = run.stdout.split("\n.\n")
    return [text + "\n" for text in texts[:-1]], run.stderr


def kind_of(text):
    if refusal(text):
        return refusal(text)
    has_copies = text.count("fde 0x") > int(text.split()[4])
    return "accepted" + has_copies * ", with copies" + ("signal frames" in text) * ", with signal frames"


def compared(program, cases):
    """Compares a batch. Returns how many cases there are of each kind, and the problems."""
    counts, problems = collections.Counter(), []
    texts, errors = written(program, cases)
    if len(texts) < len(cases):
        problems.append(f"no answer to {line_of(cases[len(texts)])}\n{errors}")
    for case, text in zip(cases, texts):
        right = wanted(case)
        counts[kind_of(right)] += 1
        if text != right:
            problems.append(f"{line_of(case)}\nwanted {right}written {text}")
    return counts, problems


def made(program, seed, number):
    """A batch of random sections."""
    maker, cases = EhFrameMaker(f"{seed} {number}"), []
    for _ in range(IN_A_BATCH):
        maker.start()
        cases.append(maker.case())
    return compared(program, cases)


def of_file(program, seed, path, which):
    """A batch of the file's whole section, or of a damaged piece of it."""
    if which is None:
        case = whole(path)
        return compared(program, [case] if case else [])
    numbers = random.Random(f"{seed} {path}")
    piece = list(pieces(path, numbers, which + 1))[which:]
    return compared(program, [case for one in piece for case in damaged(one, numbers)])


def run_task(task):
    return task()


def main():
    words = argparse.ArgumentParser()
    words.add_argument("program")
    words.add_argument("count", type=int)
    words.add_argument("seed", type=int)
    words.add_argument("files", nargs="*")
    words.add_argument("--jobs", type=int, default=1)
    words.add_argument("--pieces", type=int, default=10)
    words = words.parse_intermixed_args()
    tasks = [functools.partial(made, words.program, words.seed, i) for i in range(-(-words.count // IN_A_BATCH))]
    for path in words.files:
        tasks += [functools.partial(of_file, words.program, words.seed, path, i) for i in [None, *range(words.pieces)]]
    counts, problems = collections.Counter(), []
    with multiprocessing.Pool(words.jobs) as pool:
        for some, wrong in pool.imap_unordered(run_task, tasks):
            counts.update(some)
            problems += wrong
    for kind in sorted(counts):
        print(f"{counts[kind]:8} {kind}")
    print("\n".join(problems[:20]))
    print(f"{sum(counts.values())} cases, {len(problems)} problems")
    return 1 if problems else 0


if __name__ == "__main__":
    sys.exit(main())
