#!/usr/bin/env python3
"""A model of how dwcheck walks through a process of several modules, in Python. Nothing in it was
taken from dwcheck's code.

A module is a frame section and a load address. The first module is FRAME with the load address of
--load; then come those of --module in their order. The module of an address is the first with an
FDE that covers the address minus the load address, modulo 2^w. ADDRESS, the addresses of frames,
CFAs and contents of registers are as loaded. What an expression pushes by DW_OP_addr is as linked,
and so are the addresses that `row` prints. Frame 0 is looked up at its address, and each later
frame at its address minus 1; a later frame at address 0 has no row. The other models do the rest.

Run as a program, the model takes these words of `dwcheck` and writes what `dwcheck` must write, so
bench/walk/modules.sh can compare it with gdb. A walk takes seconds.

    bench/models/module_model.py backtrace FRAME ADDRESS STATE LIMIT [--load 0xL] [--module 0xL=FILE].. [--big] [--addr4]
    bench/models/module_model.py unwind FRAME ADDRESS STATE [..]
    bench/models/module_model.py row FRAME ADDRESS [..]
"""
import argparse
import sys

from expression_model import Fault
from frame_model import checked, one_text, row_at
from pair_model import caller_text, refused_text, state_of
from walk_model import walk, walk_text


def as_linked(address, load, size):
    return (address - load) % (1 << 8 * size)


def module_of(modules, address, size):
    """The number (from 0) of the first module that has a row for `address`, and a pair of the CIE
    and the row; or None if no module has a row."""
    for number, (found, load) in enumerate(modules):
        place = row_at(found, as_linked(address, load, size))
        if place is not None:
            return number, place
    return None


def rows_in_modules(modules, size):
    """A function that returns the CIE and the row of an address in the first module that has a row
    for it, or None. A module is a pair: the FDEs that checked() of frame_model.py returns, and a
    load address."""
    def find(address):
        hit = module_of(modules, address, size) if address >= 0 else None
        return hit and hit[1]
    return find


def backtrace_text(modules, address, state, limit, big, size):
    return walk_text(*walk(rows_in_modules(modules, size), address, state, limit, big, size))


def unwind_text(modules, address, state, big, size):
    return caller_text(rows_in_modules(modules, size)(address), state, big, size)


def row_text(module, address, size):
    found, load = module
    return one_text(found, as_linked(address, load, size), size)


def judged(sections, big, size):
    """Checks the sections. Returns a list of each section's FDEs, or the fault of the first section
    that is refused."""
    try:
        return [checked(section, big, size)[1] for section in sections]
    except Fault as fault:
        return fault


# The command line.

def content_of(path):
    with open(path, "rb") as file:
        return file.read()


def answer(given, size):
    loads, paths = [int(given.load, 16)], [given.frame]
    for word in given.module:
        load, _, path = word.partition("=")
        loads.append(int(load, 16))
        paths.append(path)
    found = judged([content_of(path) for path in paths], given.big, size)
    if isinstance(found, Fault):
        return refused_text(found, "frame")
    modules, address = list(zip(found, loads)), int(given.address, 16)
    if given.command == "row":
        return row_text(modules[0], address, size)
    state = state_of(content_of(given.state), size)
    if given.command == "unwind":
        return unwind_text(modules, address, state, given.big, size)
    return backtrace_text(modules, address, state, int(given.limit), given.big, size)


def main():
    words = argparse.ArgumentParser(description=__doc__, formatter_class=argparse.RawDescriptionHelpFormatter)
    commands = words.add_subparsers(dest="command", required=True)
    for name, positional in [("backtrace", ["state", "limit"]), ("unwind", ["state"]), ("row", [])]:
        command = commands.add_parser(name)
        for word in ["frame", "address", *positional]:
            command.add_argument(word)
        command.add_argument("--load", default="0x0")
        command.add_argument("--module", action="append", default=[])
        command.add_argument("--big", action="store_true")
        command.add_argument("--addr4", action="store_true")
    given = words.parse_args()
    text = answer(given, 4 if given.addr4 else 8)
    sys.stdout.write(text)
    raise SystemExit(text.startswith("refused"))


if __name__ == "__main__":
    main()
