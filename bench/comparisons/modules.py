#!/usr/bin/env python3
"""Runs dwcheck's `backtrace`, `unwind` and `row` on random processes of one to five modules, and
compares the output with what the model bench/models/module_model.py gives.

    bench/comparisons/modules.py DWCHECK COUNT [SEED] [--jobs N] [--first N]               50,000 walks take some four minutes with --jobs 4
    bench/comparisons/modules.py DWCHECK COUNT [SEED] [--jobs N] [--first N] --reference   the model alone, beside a program without --load and --module

Each case is a process (frame sections with load addresses), an address, a state file and a limit.
The cases don't depend on the number of jobs. Each case that differs is shown with its number, and
then the exit status is 1. --first N with a COUNT of 1 runs case N again.

With --reference, the model of modules is checked instead. For FRAME alone at load address 0, it
must give what the model of one section gives. If joined.py can join the sections of all modules
into one section, dwcheck must give for this section what the model gives for the modules.

At the end come counts of what the cases contained.
"""
import argparse
import collections
import concurrent.futures
import os
import sys
import tempfile

import with_models  # noqa: F401
import walk_model
from expression_model import Fault
from joined import joined
from module_maker import ModuleMaker
from module_model import backtrace_text, judged, module_of, row_text, rows_in_modules, unwind_text
from pair_model import refused_text, state_of
from pair_model import unwind_text as unwind_alone
from walk_model import limit_of, walk
from walks import FAR, address_word, ended, is_address, kinds_of, limit_word

BAD = ("", "dwcheck: bad argument\n", 2)
# How dwcheck ends if a load address is malformed. It may write either of two messages, so None
# stands for any message.
BAD_LOAD = ("", None, 2)


class Case:
    """A process with a state file and the words ADDRESS and LIMIT. `found` has each module's FDEs,
    or the fault of the first section that is refused; `state` has what the state file says."""

    def __init__(self, maker):
        self.big, self.size, self.top = maker.big, maker.size, maker.top
        self.process = process = maker.process()
        self.found = judged([module.section for module in process], self.big, self.size)
        self.modules = None if isinstance(self.found, Fault) else list(zip(self.found, (module.load for module in process)))
        start, contents, memory = (0x1000, {}, {}) if self.modules is None else maker.dream_in(self.modules)
        self.content = maker.state_file(contents, memory)
        self.state = state_of(self.content, self.size)
        length = 0
        if self.modules and isinstance(self.state, dict):
            length = len(walk(rows_in_modules(self.modules, self.size), start, self.state, FAR, self.big, self.size)[0])
        self.address, self.limit = address_word(maker, start), limit_word(maker, length)
        maker.dress(process)

    def said(self):
        sections = "\n".join(f"module at {module.load_word}, {module.name} {module.written.hex()}" for module in self.process)
        return f"big {self.big}, {self.size} bytes\n{sections}\nstate\n{self.content.decode()}"

    def wanted(self, command):
        """How dwcheck must end: its standard output, its standard error and its exit status."""
        is_good = all(module.is_good_load for module in (self.process if command != "row" else self.process[:1]))
        if not is_good:
            return BAD_LOAD
        if not is_address(self.address, self.top) or command == "backtrace" and limit_of(self.limit) is None:
            return BAD
        return self.row() if command == "row" else self.files_refused() or self.answer(command)

    def files_refused(self):
        """How dwcheck must end because of a bad file, or None if there is none. It reports the
        first that it finds of these, in this order: a file that can't be read, a section that isn't
        hex text, and a malformed state file."""
        missing = [module for module in self.process if module.is_missing]
        if missing:
            return "", f"dwcheck: cannot read {missing[0].name}\n", 3
        spoilt = [module for module in self.process if module.is_spoilt]
        if spoilt:
            return "", f"dwcheck: not hex: {spoilt[0].name}\n", 3
        return ("", f"dwcheck: state line {self.state}\n", 2) if isinstance(self.state, int) else None

    def answer(self, command):
        if self.modules is None:
            return refused_text(self.found, "frame"), "", 1
        asked = self.modules, int(self.address, 16), self.state
        if command == "unwind":
            return unwind_text(*asked, self.big, self.size), "", 0
        return backtrace_text(*asked, limit_of(self.limit), self.big, self.size), "", 0

    def row(self):
        first = self.process[0]
        if first.is_missing:
            return "", f"dwcheck: cannot read {first.name}\n", 3
        if first.is_spoilt:
            return "", f"dwcheck: not hex: {first.name}\n", 3
        found = judged([first.section], self.big, self.size)
        if isinstance(found, Fault):
            return refused_text(found, "frame"), "", 1
        return row_text((found[0], first.load), int(self.address, 16), self.size), "", 0


def written(case, folder):
    """Empties the folder, writes the files of a case into it, and puts the folder before the names
    of the modules' files."""
    for entry in os.scandir(folder):
        os.remove(entry)
    for module in case.process:
        module.name = f"{folder}/{module.name}"
        if not module.is_missing:
            with open(module.name, "wb") as file:
                file.write(module.written)
    with open(f"{folder}/s", "wb") as file:
        file.write(case.content)


def option(maker, name, value):
    """An option with its value, as two words or as one word with `=`."""
    return [name, value] if maker.chance(0.7) else [f"{name}={value}"]


def words_of(maker, case, command, folder):
    """The words of a command line. Options are put at random places; the options --module keep
    their order."""
    first, *others = case.process
    positional = [first.name, case.address] + [f"{folder}/s"] * (command != "row") + [case.limit] * (command == "backtrace")
    options = [["--big"]] * case.big + [["--addr4"]] * (case.size == 4) + [["--hex"]] * first.is_hex
    options += [option(maker, "--load", first.load_word)] * (first.load_word != "0x0" or maker.chance(0.5))
    maker.random.shuffle(options)
    named = [option(maker, "--module", f"{module.load_word}={module.name}") for module in others] if command != "row" else []
    words = [[word] for word in positional]
    for held in options:
        words.insert(maker.random.randrange(len(words) + 1), held)
    places = sorted(maker.random.randrange(len(words) + 1) for _ in named)
    for place, held in reversed(list(zip(places, named))):
        words.insert(place, held)
    return [command, *(word for group in words for word in group)]


def differs(number, case, words, want, got):
    names = ["written", "errors", "status"]
    shown = "".join(f"\n{name} wanted:\n{a}\n{name} given:\n{b}" for name, a, b in zip(names, want, got) if a != b)
    return f"case {number}: {case.said()}\n{' '.join(words)}{shown}"


def is_same(want, got):
    return got[0] == want[0] and got[2] == want[2] and (got[1] != "" if want[1] is None else got[1] == want[1])


def beside_program(program, number, maker, case, folder):
    """How dwcheck ends otherwise than it must, or None if it doesn't."""
    written(case, folder)
    for command in ["backtrace", "unwind"] + ["row"] * maker.chance(0.2):
        words, want = words_of(maker, case, command, folder), case.wanted(command)
        got = ended(program, words)
        if not is_same(want, got):
            return differs(number, case, words, want, got)
    return None


# The output that the models give.

def texts_alone(case):
    """The texts of `backtrace` and `unwind` for FRAME alone, twice: by the models of one section,
    and by the model of modules, with FRAME as the only module at load address 0."""
    section, address = case.process[0].section, int(case.address, 16)
    target = case.big, case.size
    found = judged([section], *target)
    refused = refused_text(found, "frame") if isinstance(found, Fault) else None
    modules = None if refused else [(found[0], 0)]
    limit = limit_of(case.limit)
    alone = walk_model.backtrace_text(section, address, case.state, limit, *target), unwind_alone(section, address, case.state, *target)
    among = [refused or backtrace_text(modules, address, case.state, limit, *target)]
    return alone, (*among, refused or unwind_text(modules, address, case.state, *target))


def beside_reference(program, number, case, folder):
    """Compares the model of modules with the models of one section, and, if the modules' sections
    can be joined into one section, with dwcheck on that section. Returns how they differ, or None,
    and what was compared."""
    if not is_address(case.address, case.top) or isinstance(case.state, int) or limit_of(case.limit) is None:
        return None, []
    alone, among = texts_alone(case)
    if alone != among:
        return f"case {number}: {case.said()}\nalone: {alone}\nas a module: {among}", []
    section = None
    if case.modules is not None:
        section = joined([module.section for module in case.process], [module.load for module in case.process], case.big, case.size)
    if section is None:
        return None, ["compared with the model of one section"]
    for name, held in [("f", section), ("s", case.content)]:
        with open(f"{folder}/{name}", "wb") as file:
            file.write(held)
    flags = ["--big"] * case.big + ["--addr4"] * (case.size == 4)
    for command, more in [("backtrace", [case.limit]), ("unwind", [])]:
        words, want = [command, *flags, f"{folder}/f", case.address, f"{folder}/s", *more], case.answer(command)
        got = ended(program, words)
        if got != want:
            return differs(number, case, words, want, got) + f"\none section {section.hex()}", []
    return None, ["compared with the model of one section", f"compared with the program over one section of {len(case.process)} modules"]


# What occurred in the cases.

def look_ups(text):
    """The address at which each frame of a walk is looked up: for frame 0 its address, for the
    others their address minus 1."""
    addresses = [int(line.split()[2], 16) for line in text.splitlines() if line.startswith("frame")]
    return [address - (number > 0) for number, address in enumerate(addresses)]


def kinds_of_walk(case, text):
    """The kinds under which a walk through modules is counted. The list has a kind once for each
    time that it occurs in the walk."""
    hits = [module_of(case.modules, address, case.size) if address >= 0 else None for address in look_ups(text)]
    numbers = [hit[0] for hit in hits if hit]
    kinds = ["frames in a module that isn't FRAME's" for number in numbers if number > 0]
    kinds += ["steps from one module to another" for one, other in zip(numbers, numbers[1:]) if one != other]
    for address, hit in zip(look_ups(text), hits):
        if address < 0:
            kinds += ["frames at 0 after frame 0"]
            kinds += ["frames at 0 whose module has the top address"] * (module_of(case.modules, case.top, case.size) is not None)
        elif hit:
            covering = sum(module_of([module], address, case.size) is not None for module in case.modules)
            kinds += ["frames that several modules cover"] * (covering > 1)
            kinds += ["frames where the load address is above the address"] * (case.modules[hit[0]][1] > address)
    return kinds


def kinds_of_case(case):
    text, errors, _ = case.wanted("backtrace")
    if errors is None:
        return ["bad load address"]
    if errors.startswith("dwcheck: cannot") or errors.startswith("dwcheck: not hex"):
        return [errors.rsplit(" ", 1)[0]]
    kinds = [f"of {len(case.process)} modules", *kinds_of(text, errors)]
    if not errors and case.modules is not None:
        kinds += kinds_of_walk(case, text)
        kinds += ["modules with no FDE" for found, _ in case.modules if not found]
        kinds += ["files named twice"] * (len({module.name for module in case.process}) < len(case.process))
    return kinds


def compare(given, first, count, step):
    """Runs every `step`-th of the `count` cases from number `first` on. Returns counts, and texts
    that show the cases that differ."""
    counts, different = collections.Counter(), []
    with tempfile.TemporaryDirectory() as folder:
        for number in range(first, first + count, step):
            maker = ModuleMaker(f"{given.seed} {number}")
            maker.start()
            case = Case(maker)
            kinds = []
            if given.reference:
                shown, kinds = beside_reference(given.dwcheck, number, case, folder)
            else:
                shown = beside_program(given.dwcheck, number, maker, case, folder)
            counts.update(kinds_of_case(case) + kinds)
            different += [shown] * (shown is not None)
    return counts, different


def main():
    words = argparse.ArgumentParser(description=__doc__, formatter_class=argparse.RawDescriptionHelpFormatter)
    words.add_argument("dwcheck")
    words.add_argument("count", type=int)
    words.add_argument("seed", nargs="?", default="0")
    words.add_argument("--jobs", type=int, default=1)
    words.add_argument("--first", type=int, default=0)
    words.add_argument("--reference", action="store_true")
    given = words.parse_args()
    counts, different = collections.Counter(), []
    with concurrent.futures.ProcessPoolExecutor(given.jobs) as pool:
        parts = [pool.submit(compare, given, given.first + i, given.count - i, given.jobs) for i in range(given.jobs)]
        for part in parts:
            counted, shown = part.result()
            counts += counted
            different += shown
    for kind in sorted(counts):
        print(f"{counts[kind]:9} {kind}")
    for shown in different:
        print(shown, file=sys.stderr)
    if different:
        raise SystemExit(f"{len(different)} cases differ")


if __name__ == "__main__":
    main()
