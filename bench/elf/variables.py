#!/usr/bin/env python3
"""Compares the variables that `dwcheck-elf vars` shows with those of gdb, at random instructions of a program.

    bench/elf/variables.py [--only WORD] [--keep FOLDER] DWCHECK_ELF STOPS SEED PROGRAM [ARGUMENT]..

gdb runs the program, which has debug information, and stops at up to STOPS instructions that are drawn at
random: of functions whose name in the symbol table contains WORD, if it is given, such as those of one crate
of a program in Rust. At each stop it writes a state file with the registers, the stack and the program's own data, and the
values of the variables that it has in scope, in the function and in those that are inlined there. `vars` gets
the state file, which stays in FOLDER if it is given. The file `times` there names all of them, for the example
variables_times of rust/dwcheck-command. Each variable is counted in one of these lines; all but the first two have examples:

    equal                    both have the same value
    neither                  neither of the two has a value
    not evaluated: WHY       gdb has a value, and vars says why it has none
    zeros                    gdb shows 0 for the rest of a variable of which the expression has only some pieces
    implicit pointer         vars says to which variable without an address it points, and not that one's value
    only dwcheck-elf         gdb says that the variable is optimized out, or can't read it
    only gdb                 vars doesn't show the variable, of which gdb has a value
    not in gdb               gdb doesn't list the variable, such as one without a name
    DIFFERENT                both have a value, and not the same

The exit status is 1 if a variable is DIFFERENT or `only gdb` has it. This needs gdb and binutils,
and a machine that lets gdb run programs; it is for x86-64. Texts that pointers lead to aren't compared.
"""
import argparse
import collections
import json
import os
import random
import re
import shutil
import struct
import subprocess
import sys
import tempfile

try:
    import gdb
except ImportError:
    gdb = None

# DWARF's numbers of the registers of x86-64.
REGISTERS = ["rax", "rdx", "rcx", "rbx", "rsi", "rdi", "rbp", "rsp", "r8", "r9", "r10", "r11", "r12", "r13", "r14", "r15"]
# How much of the stack a state file has, in bytes.
STACK = 65536
# How many bytes of these are below the stack pointer, where a function has its variables before it makes room.
BELOW = 4096
# Breakpoints that are set at once, and how often the program is run at most. Breakpoints that a run doesn't
# reach are dropped, and the next run has others.
AT_ONCE, RUNS = 300, 40


def plain(value, depth=1):
    """A value of gdb as `vars --json` writes it. None if it has none."""
    kind = value.type.strip_typedefs()
    if kind.code in (gdb.TYPE_CODE_REF, gdb.TYPE_CODE_RVALUE_REF):
        target = value.referenced_value()
        return {"address": hex(int(target.address)), "value": part(target, depth)}
    if value.is_optimized_out:
        return None
    if kind.code == gdb.TYPE_CODE_PTR:
        # gdb 13.1 ends with an internal error for such pointers in arrays.
        if depth > 0 and "<synthetic pointer>" in value.format_string():
            return {"points_to": plain(value.dereference(), depth)}
        return hex(int(value) & (1 << 8 * kind.sizeof) - 1)
    if kind.code == gdb.TYPE_CODE_FLT:
        return single(float(value)) if kind.sizeof == 4 else repr(float(value))
    if kind.code == gdb.TYPE_CODE_ENUM:
        # gdb writes numbers without a name of their own as flags: (A | B), (unknown: 0x73)
        text = str(value)
        return str(int(value)) if text.startswith("(") else text.split("::")[-1]
    if kind.code == gdb.TYPE_CODE_BOOL:
        return {0: "false", 1: "true"}.get(int(value), str(int(value)))
    if kind.code in (gdb.TYPE_CODE_INT, gdb.TYPE_CODE_CHAR):
        return str(int(value))
    if kind.code in (gdb.TYPE_CODE_STRUCT, gdb.TYPE_CODE_UNION):
        return {field.name or "": part(value[field], depth) for field in kind.fields() if hasattr(field, "bitpos")}
    if kind.code == gdb.TYPE_CODE_ARRAY:
        low, high = kind.range()
        if kind.target().strip_typedefs().code == gdb.TYPE_CODE_ARRAY:
            return "?"
        return [part(value[place], depth) for place in range(low, min(high, low + 199) + 1)]
    return "?"


def single(number):
    """The shortest text of a number of 4 bytes, which vars writes."""
    texts = ("%.*g" % (digits, number) for digits in range(1, 10))
    return next((text for text in texts if struct.pack("<f", float(text)) == struct.pack("<f", number)), repr(number))


def part(value, depth):
    """A member or an element, "?" if it is deeper than `vars` shows."""
    kind = value.type.strip_typedefs().code
    if depth == 0 or kind in (gdb.TYPE_CODE_STRUCT, gdb.TYPE_CODE_UNION, gdb.TYPE_CODE_ARRAY):
        return "?"
    try:
        return plain(value, depth - 1)
    except gdb.error:
        return None


def variables(frame, depth, value_of=plain):
    """The variables of a frame by gdb: the number of the function, the name and the value."""
    found = []
    try:
        block = frame.block()
    except RuntimeError:
        return found
    while block is not None and not block.is_global and not block.is_static:
        for symbol in block:
            if not (symbol.is_argument or symbol.is_variable) or symbol.addr_class == gdb.SYMBOL_LOC_TYPEDEF:
                continue
            try:
                value = value_of(symbol.value(frame))
            except (gdb.error, OverflowError, TypeError, ValueError):
                value = None
            found.append([depth, symbol.name, value])
        if block.function is not None:
            break
        block = block.superblock
    return found


def write_state(path, frame, own):
    """Writes the registers, a part of the stack, and the program's own data."""
    process = gdb.selected_inferior()
    pointer = int(frame.read_register("rsp"))
    with open(path, "w") as state:
        for number, name in enumerate(REGISTERS):
            state.write("reg %d %#x\n" % (number, int(frame.read_register(name)) & (1 << 64) - 1))
        for number in range(16):
            low = int(frame.read_register("xmm%d" % number)["v2_int64"][0]) & (1 << 64) - 1
            state.write("reg %d %#x\n" % (17 + number, low))
        state.write("".join("keep %d\n" % number for number in (3, 6, 12, 13, 14, 15)) + "sp 7\n")
        end = next((end for begin, end in mapped() if begin <= pointer < end), pointer)
        memory = bytes(process.read_memory(pointer - BELOW, min(STACK, end - pointer + BELOW)))
        state.write("mem %#x %s\n" % (pointer - BELOW, memory.hex()))
        for begin, end in own:
            state.write("mem %#x %s\n" % (begin, bytes(process.read_memory(begin, end - begin)).hex()))


def mapped():
    """The ranges of addresses that the process has mapped."""
    for line in open("/proc/%d/maps" % gdb.selected_inferior().pid):
        yield tuple(int(word, 16) for word in line.split()[0].split("-"))


def own_data(program):
    """Where the program's writable data is, and its load address."""
    lines = open("/proc/%d/maps" % gdb.selected_inferior().pid).read().splitlines()
    parts = [line.split() for line in lines if line.endswith(os.path.realpath(program))]
    ranges = [(tuple(int(word, 16) for word in words[0].split("-")), words[1], int(words[2], 16)) for words in parts]
    load = min(begin - offset for (begin, _), _, offset in ranges)
    return [bounds for bounds, rights, _ in ranges if "w" in rights], load


def in_gdb(stop):
    """Stops the program at instructions, and writes what `stop` says of each of them."""
    with open(os.environ["VARIABLES_PY"]) as file:
        asked = json.load(file)
    asked["drawn"] = set(asked["places"])
    for line in ("pagination off", "confirm off", "width 0", "disable-randomization on", "startup-with-shell off"):
        gdb.execute("set " + line)
    stops, runs = [], 0
    while asked["places"] and len(stops) < asked["stops"] and runs < RUNS:
        run(asked, stops, stop)
        runs += 1
    with open(os.path.join(asked["folder"], "stops"), "w") as file:
        json.dump(stops, file)


def run(asked, stops, stop):
    """Runs the program once, and adds what `stop` says where it stops."""
    gdb.execute("starti " + " ".join(asked["arguments"]), to_string=True)
    load = own_data(asked["program"])[1] if asked["pie"] else 0
    waiting = []
    while (asked["places"] or waiting) and len(stops) < asked["stops"]:
        while asked["places"] and len(waiting) < AT_ONCE:
            waiting.append(gdb.Breakpoint("*%#x" % (asked["places"].pop() + load), temporary=True, internal=True))
        try:
            gdb.execute("continue", to_string=True)
        except gdb.error:
            break
        if not gdb.selected_inferior().pid:
            break
        waiting = [point for point in waiting if point.is_valid()]
        # A signal can stop the program elsewhere.
        if gdb.newest_frame().pc() - load in asked["drawn"]:
            stops.append(stop(asked, load, len(stops)))
    for point in waiting:
        if point.is_valid():
            point.delete()
    if gdb.selected_inferior().pid:
        gdb.execute("kill", to_string=True)


def frames_there():
    """The frames where the program is: of functions that are inlined there, and of the one that has them."""
    frames = [gdb.newest_frame()]
    while frames[-1].type() == gdb.INLINE_FRAME:
        frames.append(frames[-1].older())
    return frames


def values_there(asked, load, number):
    """What gdb knows where the program is, with a state file."""
    frames = frames_there()
    frame = frames[0]
    path = os.path.join(asked["folder"], "state%d" % number)
    write_state(path, frame, own_data(asked["program"])[0])
    found = [one for place, each in enumerate(reversed(frames)) for one in variables(each, place)]
    return {"address": frame.pc(), "load": load, "state": path, "variables": found}


def same(one, other):
    """Whether a value of gdb and one of vars are the same, as far as they can be compared."""
    if isinstance(other, dict) and "address" in other and "text" in other:
        # A text of Rust or Go is a structure whose first member is the address.
        other, one = other["address"], next(iter(one.values()), None) if isinstance(one, dict) else one
    if isinstance(one, dict) and isinstance(other, dict) and "points_to" in one and "points_to" in other:
        # gdb shows what is there as the pointer's type says, and vars the variable that is there.
        one, other = one["points_to"], other["value"]
        other = other[0] if isinstance(other, list) and other and not isinstance(one, list) else other
        if isinstance(one, str) and isinstance(other, str) and other.startswith('"'):
            other = str(ord(other[1]))
    if one == "?" or one == other:
        return True
    if isinstance(one, dict) and isinstance(other, dict):
        if "" in one:  # gdb lists the discriminant and all variants, and vars the variant that is there
            return all(name in one and same(one[name], value) for name, value in other.items())
        return all(same(value, other.get(name)) for name, value in one.items())
    if isinstance(one, list) and isinstance(other, list):
        return len(one) == len(other) and all(map(same, one, other))
    if isinstance(one, list) and isinstance(other, str) and other.startswith('"'):
        return True
    if isinstance(one, str) and isinstance(other, str):
        if other.split(" ")[0] == one:
            return True
        try:
            return one.lower() == other.lower() or float(one) == float(other)
        except ValueError:
            return False
    return False


def zeros(value, one):
    """Whether gdb has the pieces of a variable that vars has, and 0 for those that aren't there."""
    of_gdb, ours = value, one["value"]
    if one["location"] != "pieces" or type(of_gdb) is not type(ours) or not isinstance(ours, (dict, list)):
        return False
    pairs = [(of_gdb.get(name), ours[name]) for name in ours] if isinstance(ours, dict) else list(zip(of_gdb, ours))
    return all(same(left, right) or right is None and left in ("0", "0x0", "false") for left, right in pairs)


def pairs(theirs, ours):
    """Pairs gdb's values of the variables of one name with those of vars: first those that are the same, then the
    rest in gdb's order, which is that from the innermost block outward. gdb lists some variables of inlined functions
    twice, once without a value: values that it doesn't have, or that can't be compared, come last. Without a partner,
    a value has None."""
    theirs = sorted(theirs, key=lambda value: 2 if value is None else value == "?")
    left, found, rest = list(reversed(ours)), [], []
    for value in theirs:
        one = next((one for one in left if value is not None and same(value, one["value"])), None)
        if one is None:
            rest.append(value)
        else:
            found.append((value, one))
            left.remove(one)
    missing = [None] * (len(rest) - len(left))
    return found + list(zip(rest, left + missing)), left[len(rest):]


def classify(value, one):
    """The line in which a variable is counted that gdb lists, by gdb's value and by what vars says of it."""
    if one is None:
        return "neither" if value is None else "only gdb"
    if value is None:
        return "neither" if one["value"] is None else "only dwcheck-elf"
    if one["value"] is None:
        return f"not evaluated: {one['missing']}"
    if isinstance(one["value"], str) and one["value"].startswith("points to "):
        return "implicit pointer"
    if isinstance(value, dict) and value.get("points_to", "") is None:
        return "only dwcheck-elf"
    return "equal" if same(value, one["value"]) else "zeros" if zeros(value, one) else "DIFFERENT"


def compare(stop, shown, count):
    """Counts the variables of a stop by what gdb and vars say."""
    ours, theirs = collections.defaultdict(list), collections.defaultdict(list)
    for depth, function in enumerate(reversed(shown["functions"])):
        for variable in function["variables"]:
            ours[depth, variable["name"]].append(variable)
    for depth, name, value in stop["variables"]:
        theirs[depth, name].append(value)
    for key in {**theirs, **ours}:
        found, left = pairs(theirs[key], ours[key])
        where = f"{stop['address']:#x} {key[1]}"
        for value, one in found:
            count(classify(value, one), f"{where}: {value}, {one}")
        for one in left:
            count("neither" if one["value"] is None else "not in gdb", f"{where}: {one}")


def instructions(program, word):
    """The addresses of the instructions of the program's own functions whose names contain a word."""
    # -w keeps each instruction on one line: the rest of a long one would look like an instruction.
    words = ["objdump", "-d", "-w", "-j", ".text", program]
    shown = subprocess.run(words, capture_output=True, text=True, check=True).stdout
    functions = re.split(r"^[0-9a-f]+ <(.*)>:$", shown, flags=re.M)
    own = [text for name, text in zip(functions[1::2], functions[2::2]) if word in name]
    return [int(found, 16) for text in own for found in re.findall(r"^ +([0-9a-f]+):\t", text, re.M)]


def keep(stops, folder):
    """Copies the state files to a folder, with a list of them."""
    os.makedirs(folder, exist_ok=True)
    with open(os.path.join(folder, "times"), "w") as times:
        for stop in stops:
            path = shutil.copy(stop["state"], os.path.abspath(folder))
            times.write(f"{stop['address']:#x} {stop['load']:#x} {path}\n")


def main():
    words = argparse.ArgumentParser(description=__doc__, formatter_class=argparse.RawDescriptionHelpFormatter)
    words.add_argument("--only", metavar="WORD", default="")
    words.add_argument("--keep", metavar="FOLDER")
    for name in ("dwcheck_elf", "stops", "seed", "program"):
        words.add_argument(name)
    words.add_argument("arguments", nargs=argparse.REMAINDER)
    words = words.parse_args()
    dwcheck_elf, stops, seed, program, arguments = words.dwcheck_elf, words.stops, words.seed, words.program, words.arguments
    header = subprocess.run(["readelf", "-h", program], capture_output=True, text=True, check=True).stdout
    numbers = random.Random(int(seed))
    places = instructions(program, words.only)
    numbers.shuffle(places)
    counts, examples = collections.Counter(), collections.defaultdict(list)

    def count(what, example):
        what = re.sub(r"memory at 0x[0-9a-f]+", "memory", what)
        counts[what] += 1
        if len(examples[what]) < 3:
            examples[what].append(example)

    with tempfile.TemporaryDirectory() as folder:
        asked = {"program": program, "arguments": arguments, "places": places, "stops": int(stops), "folder": folder,
                 "pie": "DYN (" in header}
        # A file, since the places of a large program are too long for the environment.
        environment = dict(os.environ, VARIABLES_PY=os.path.join(folder, "asked"))
        with open(environment["VARIABLES_PY"], "w") as file:
            json.dump(asked, file)
        line = ["gdb", "--batch", "-nx", "-x", os.path.abspath(__file__), program]
        subprocess.run(line, env=environment, capture_output=True, stdin=subprocess.DEVNULL, check=True)
        with open(os.path.join(folder, "stops")) as file:
            found = json.load(file)
        for stop in found:
            line = [dwcheck_elf, "vars", "--json", "--load", hex(stop["load"]), "--state", stop["state"], program,
                    hex(stop["address"])]
            ran = subprocess.run(line, capture_output=True, text=True, check=True)
            compare(stop, json.loads(ran.stdout), count)
        if words.keep:
            keep(found, words.keep)
    print(f"stops {len(found)} variables {sum(counts.values())}")
    for what, number in counts.most_common():
        print(f"{number} {what}")
        if what not in ("equal", "neither"):
            print("".join(f"    {example}\n" for example in examples[what]), end="")
    sys.exit(1 if counts["DIFFERENT"] or counts["only gdb"] else 0)


if __name__ == "__main__":
    if gdb:
        in_gdb(values_there)
    else:
        main()
