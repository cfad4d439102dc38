#!/usr/bin/env python3
"""Runs dwcheck on random pairs of a frame section and a section of location lists, and compares its
output with what the models in bench/models give. Addresses and state files are random too.

    bench/comparisons/compare_pairs.py DWCHECK COUNT [SEED]        1,000 cases take at most 40 s

`check` is run on each pair, `unwind` and `row` on its frame section, and `locs` on its lists. Most
sections pass the check, and have rules that are expressions. Others are made with mistakes, or have
bytes changed, or are cut short. A few state files have a malformed line.
"""
import re

import with_models  # noqa: F401
from compare_lists import ListMaker
from compare_sections import SectionMaker
from comparing import Case, Run, compare
from frame_model import answers
from list_model import answer
from pair_model import check_text, state_of, unwind_text

# Expressions, in hex, for the rule of a CFA and for the rule of a register: sums, words of memory,
# and divisions by zero. With the registers and memory of state_file(), they often have a value.
ANSWERED = {
    "cfa": ["7708", "7508", "7310", "7600", "7006", "75109404237f", "71081206", "720806", "8f08", "7408300622", "7130301b", "7430301d",
            "720873003f1a3b2a332422"],
    "register": ["", "2308", "381c", "06", "230806", "381c06", "7308", "721022", "1f", "120622", "9401", "31", "301b", "301d", "8e00"],
}
REGISTERS = [*range(12), 15, 16, 30, 31, 63, 64, 127, 300, 65535]
BAD_LINES = [
    "reg 65536 0x1", "reg 000001 0x1", "reg 1  0x1", "reg 1 0x", "reg 1 1", "reg 1 0X1", "reg 0x1 0x1", "reg 1 0x1 ", "reg 1 0x1\r",
    "Reg 1 0x1", " ", "mem 0x10 abc", "mem 0x10 ", "mem 0x10", "mem 0x10 0g", "mem 0x10 00 00", "mem 10 00", "cfa",
    "cfa 0x00000000000000001", "object 1", "keep 65536", "keep 0x6", "keep", "keep 6 ", "sp 000007", "sp 7 0x7f00", "sp",
]


class PairMaker(SectionMaker):
    """Makes frame sections, and sections of location lists with the same byte order and address
    size."""

    def __init__(self, seed):
        super().__init__(seed)
        self.lists = ListMaker(seed)
        self.lists.random = self.random

    def start(self):
        super().start()
        self.lists.start((self.big, self.size))
        self.is_good = self.chance(0.6)
        self.slip = 0 if self.is_good else self.slip
        self.near = self.random.choice([0x7f00, 0x7f00, 0, self.top - 0x40, self.top - 0x10])

    def changed(self, section):
        return section if self.is_good else super().changed(section)

    def factors(self):
        return (1, self.random.choice([-8, -8, -4, 1])) if self.chance(0.8) else super().factors()

    def register(self):
        return self.unsigned(self.random.randrange(6)) if self.chance(0.6) else super().register()

    def rule(self):
        if self.chance(0.5):
            return bytes([0x80 + self.random.randrange(6)]) + self.factored(self.data, False)
        return super().rule()

    def cfa_rule(self):
        if self.chance(0.8):
            return super().cfa_rule()
        self.cfa = "expression"
        return b"\x0f" + self.block("cfa")

    def block(self, kind):
        if self.chance(0.4):
            return super().block(kind)
        held = bytes.fromhex(self.random.choice(ANSWERED[kind]))
        return self.unsigned(len(held)) + held

    def beside(self, low, high):
        """The address self.near plus a random number from `low` to `high` - 1, modulo 2^w. Most
        registers contain addresses near self.near."""
        return (self.near + self.random.randrange(low, high)) % (self.top + 1)

    def memory(self):
        """A line of a state file that gives some bytes of memory. If the bytes run past the highest
        address, a second line gives the rest, which begins at address 0."""
        about, most = self.random.choice([(0x200, 0x400), (0x200, 0x400), (0x80, 0x100), (0x20, 0x20), (8, 8)])
        address = self.beside(-about, about // 4)
        held = self.random.randbytes(self.random.randrange(most // 2, most))
        room = self.top + 1 - address
        return [f"mem {address:#x} {held[:room].hex()}"] + [f"mem 0x0 {held[room:].hex()}"] * (len(held) > room)

    def odd(self):
        """An unusual line of a state file, mostly a malformed one."""
        past = [f"{name} {self.top + 1:#x}" for name in ["reg 7", "cfa", "frame", "object"]] + [f"mem {self.top:#x} 0102"]
        odd_but_good = ["", "mem 0x7F00 AbCd", "reg 00007 0x0000000000007f08", f"mem {self.top:#x} 7f"]
        return self.random.choice([*BAD_LINES, *past, *odd_but_good * 3])

    def state_file(self):
        """A state file with registers that contain addresses near self.near, memory there, and now
        and then the lines of ListMaker's state() too."""
        lines = [f"reg {register} {self.beside(0, 0x40):#x}" for register in REGISTERS if self.chance(0.8)]
        for _ in range(self.random.choice([0, 1, 2, 3, 3])):
            lines += self.memory()
        if self.chance(0.3):
            lines += self.lists.state()[1].split("\n")
        self.random.shuffle(lines)
        if self.chance(0.08):
            lines.insert(self.random.randrange(len(lines) + 1), self.odd())
        return ("\n".join(lines) + "\n" * self.random.randrange(2)).encode()


def kinds_of(command, text):
    """The kinds under which the output of a command is counted. For `unwind` there is one for each
    value of the caller; for the others one that says how the output begins."""
    lines = [line.split(" 0x")[0] for line in text.splitlines()]
    if lines[0].startswith("dwcheck: state line"):
        return [f"{command}: state line"]
    if lines[0].startswith("refused") and command != "check":
        return [f"{command}: refused"]
    if command == "unwind":
        return ["unwind: " + re.sub("^r[0-9]+", "register", line) for line in lines]
    return [f"{command}: {lines[0]}" + ", with expressions in rules" * ("expr frame" in lines)]


def case(maker):
    target = maker.big, maker.size
    frame, lists, content = maker.section(), maker.lists.section(), maker.state_file()
    address, query = maker.address(), maker.lists.query()
    state = state_of(content, maker.size)
    if isinstance(state, int):
        caller = located = f"dwcheck: state line {state}\n"
    else:
        caller = unwind_text(frame, address, state, *target)
        located = answer(lists, *query, *target, state)
    wanted = [
        (["check", "f", "l"], check_text(frame, lists, *target)),
        (["unwind", "f", hex(address), "s"], caller),
        (["row", "f", hex(address)], answers(frame, [address], *target)[1][0]),
        (["locs", "l", *map(hex, query), "--state", "s"], located),
    ]
    said = f"frame {frame.hex()}\nlists {lists.hex()}\nstate {content!r}\nbig {maker.big}, {maker.size} bytes"
    runs = [Run(f"{said}\n{' '.join(words)}", words, text) for words, text in wanted]
    kinds = [kind for words, text in wanted for kind in kinds_of(words[0], text)]
    return Case({"f": frame, "l": lists, "s": content}, runs, kinds)


if __name__ == "__main__":
    compare(__doc__, PairMaker, case)
