#!/usr/bin/env python3
"""Runs `dwcheck backtrace` and `dwcheck unwind` on random frame sections and state files, and
compares the output and the exit status with what the model bench/models/walk_model.py gives.

    bench/comparisons/walks.py DWCHECK COUNT [SEED] [--jobs N] [--first N]        50,000 walks take some four minutes with --jobs 4

Each case is a section, an address, a state file and a limit. The cases don't depend on the number
of jobs. The first case that differs is shown with its number; --first N starts with case N. `eval`
and `locs` are run on some of the state files too, because they also check all lines. At the end
come counts: how the walks ended, how long they were, and what kinds of CFAs their frames had.
"""
import argparse
import collections
import concurrent.futures
import subprocess
import tempfile

import with_models  # noqa: F401
from expression_model import Fault
from expression_model import answer as expression_text
from frame_model import checked
from pair_model import refused_text, state_of, unwind_text
from walk_maker import WalkMaker
from walk_model import limit_of, rows_in, walk, walk_text

# To choose a limit near the length of a walk, the model first walks at most this many frames.
FAR = 60
BAD_LIMITS = ["65536", "99999", "000001", "0x1", "", " 1", "1 ", "+1", "1_0", "\u0661"]
BAD_ADDRESSES = ["0x", "1000", "0X1000", "0x00000000000001000", "0x1g", ""]
# Expressions to evaluate as the rule of a CFA: two that need a register of the state file, and one
# that is refused.
EXPRESSIONS = [bytes.fromhex("7708"), bytes.fromhex("720806"), bytes.fromhex("12")]


def limit_word(maker, length):
    """The word LIMIT for a walk of `length` frames, mostly near that length or far above it."""
    if maker.chance(0.01):
        return maker.random.choice(BAD_LIMITS)
    if maker.chance(0.0015):
        return "65535"
    limit = maker.random.choice([0, 1, 2, length - 1, length, length + 1, length + 1, 41, 100, 200, maker.random.randrange(300)])
    return f"{max(limit, 0):0{maker.random.choice([1, 1, 1, 1, 2, 5])}}"


def address_word(maker, address):
    if maker.chance(0.005):
        return maker.random.choice([*BAD_ADDRESSES, hex(maker.top + 1)])
    return f"{address:#0{maker.random.choice([3, 3, 18])}x}"


def is_address(word, top):
    digits = word[2:]
    return word[:2] == "0x" and 1 <= len(digits) <= 16 and set(digits) <= set("0123456789abcdefABCDEF") and int(digits, 16) <= top


def made(maker):
    """Makes a case: a section, the FDEs that the model found in it, the section's fault, the words
    ADDRESS and LIMIT, and a state file. Either the FDEs or the fault are None."""
    maker.start()
    section = maker.section()
    try:
        _, found, _ = checked(section, maker.big, maker.size)
    except Fault as fault:
        return section, None, fault, "0x1000", "9", maker.state_file({}, {})
    address, contents, memory = maker.dream([row[:2] for *_, rows in found for row in rows], rows_in(found))
    content = maker.state_file(contents, memory)
    state = state_of(content, maker.size)
    length = 0 if isinstance(state, int) else len(walk(rows_in(found), address, state, FAR, maker.big, maker.size)[0])
    return section, found, None, address_word(maker, address), limit_word(maker, length), content


def wanted(maker, case):
    """How `backtrace` and `unwind` must end: for each its standard output, its standard error and
    its exit status."""
    section, found, fault, address, limit, content = case
    bad, target = ("", "dwcheck: bad argument\n", 2), (maker.big, maker.size)
    if not is_address(address, maker.top):
        return bad, bad
    state = state_of(content, maker.size)
    if isinstance(state, int):
        line = ("", f"dwcheck: state line {state}\n", 2)
        return bad if limit_of(limit) is None else line, line
    if fault is not None:
        refused = (refused_text(fault, "frame"), "", 1)
        return bad if limit_of(limit) is None else refused, refused
    unwound = (unwind_text(section, int(address, 16), state, *target), "", 0)
    if limit_of(limit) is None:
        return bad, unwound
    return (walk_text(*walk(rows_in(found), int(address, 16), state, limit_of(limit), *target)), "", 0), unwound


def others(maker, expression, content):
    """How `eval` of an expression and `locs` of an empty section must end with the state file, in
    the same form as wanted() gives it."""
    state = state_of(content, maker.size)
    if isinstance(state, int):
        return (("", f"dwcheck: state line {state}\n", 2),) * 2
    text = expression_text(expression, "cfa", maker.big, maker.size, state)
    return (text, "", int(text.startswith("refused"))), ("no list\n", "", 0)


def ended(program, words):
    run = subprocess.run([program, *words], capture_output=True, check=False)
    return run.stdout.decode(), run.stderr.decode(), run.returncode


def differs(said, words, want, got):
    names = ["written", "errors", "status"]
    shown = "".join(f"\n{name} wanted:\n{a}\n{name} given:\n{b}" for name, a, b in zip(names, want, got) if a != b)
    return f"{said}\n{' '.join(words)}{shown}"


def kinds_of(text, errors):
    """The kinds under which a walk is counted: why it ended, its length, and for each frame
    whether its CFA has a value."""
    if errors:
        return [errors.rstrip("\n0123456789 ")]
    if text.startswith("refused"):
        return ["refused"]
    *frames, stop = text.splitlines()
    answers = ["none" if line.endswith("none") else line.split("cfa ")[1].split(" 0x")[0] for line in frames]
    whole = [stop, f"walks of {length_of(len(frames))} frames"]
    return whole + ["frames in all"] * len(frames) + [f"frames, {answer}" for answer in answers]


def length_of(count):
    lengths = [(0, "0"), (1, "1"), (4, "2 to 4"), (10, "5 to 10"), (40, "11 to 40"), (300, "41 to 300"), (65535, "301 to 65535")]
    return next(name for most, name in lengths if count <= most)


def compared(program, seed, number, folder):
    """Makes and runs a case. Returns the kinds under which it is counted, or a text that says how
    dwcheck's output differs."""
    maker = WalkMaker(f"{seed} {number}")
    case = made(maker)
    section, _, _, address, limit, content = case
    expression = maker.random.choice(EXPRESSIONS)
    for name, held in [("f", section), ("s", content), ("e", expression), ("l", b"")]:
        with open(f"{folder}/{name}", "wb") as file:
            file.write(held)
    flags = ["--big"] * maker.big + ["--addr4"] * (maker.size == 4)
    walked, unwound = wanted(maker, case)
    runs = [
        (walked, ["backtrace", *flags, f"{folder}/f", address, f"{folder}/s", limit]),
        (unwound, ["unwind", *flags, f"{folder}/f", address, f"{folder}/s"]),
    ]
    if maker.chance(0.1):
        outcome, located = others(maker, expression, content)
        runs.append((outcome, ["eval", *flags, "cfa", f"{folder}/e", "--state", f"{folder}/s"]))
        runs.append((located, ["locs", *flags, f"{folder}/l", "0x0", "0x0", "0x0", "--state", f"{folder}/s"]))
    for want, words in runs:
        got = ended(program, words)
        if got != want:
            return differs(f"case {number}: section {section.hex()}\nstate\n{content.decode()}", words, want, got)
    return kinds_of(*walked[:2])


def compare(program, seed, first, count, step):
    """Runs every `step`-th of the `count` cases from number `first` on, up to the first that
    differs. Returns counts, and a text that shows the case that differs, or None."""
    counts = collections.Counter()
    with tempfile.TemporaryDirectory() as folder:
        for number in range(first, first + count, step):
            kinds = compared(program, seed, number, folder)
            if isinstance(kinds, str):
                return counts, kinds
            counts.update(kinds)
    return counts, None


def main():
    words = argparse.ArgumentParser(description=__doc__, formatter_class=argparse.RawDescriptionHelpFormatter)
    words.add_argument("dwcheck")
    words.add_argument("count", type=int)
    words.add_argument("seed", nargs="?", default="0")
    words.add_argument("--jobs", type=int, default=1)
    words.add_argument("--first", type=int, default=0)
    given = words.parse_args()
    counts, different = collections.Counter(), []
    with concurrent.futures.ProcessPoolExecutor(given.jobs) as pool:
        parts = [pool.submit(compare, given.dwcheck, given.seed, given.first + i, given.count - i, given.jobs) for i in range(given.jobs)]
        for part in parts:
            counted, shown = part.result()
            counts += counted
            different += [shown] * (shown is not None)
    for kind in sorted(counts):
        print(f"{counts[kind]:9} {kind}")
    if different:
        raise SystemExit(different[0])


if __name__ == "__main__":
    main()
