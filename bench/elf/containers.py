#!/usr/bin/env python3
"""Compares what `dwcheck-elf vars` shows of containers with what debuggers show, at random instructions.

    bench/elf/containers.py [--libcxx FOLDER] [--only WORD] DWCHECK_ELF STOPS SEED

Ten programs in C++, Rust and Go are built: by gcc and clang, with libstdc++ and libc++, with and without optimization.
gdb runs each of them, and stops it at STOPS instructions that are drawn at random among those of its own functions. At
each of them the variables are compared with what gdb's pretty-printers say (those of libstdc++, of rust-gdb and of Go),
or for libc++, of which gdb has none, LLDB's formatters on a core file. Each variable is counted in one of these lines:

    equal contents           both show the same elements, texts, keys, owners
    equal                    both show the same value, which isn't a container
    equal, but not all is read   the debugger couldn't read a part, such as of a container that isn't made yet
    plain structure          vars shows the members of a container, since its values aren't those of one
    implicit pointer         vars says to which variable without an address it points; debuggers have other numbers
    neither                  neither of the two has a value
    not evaluated: WHY       the debugger has a value, and vars says why it has none
    only dwcheck-elf         the debugger has no value
    not in the debugger      the debugger doesn't list the variable
    DIFFERENT                both have a value, and not the same

The exit status is 1 if a variable is DIFFERENT. This needs gdb, g++, clang++, rustc, go, LLDB 14 with its module for
python3, and libc++; FOLDER is where Debian's package libc++-14-dev was unpacked, if it isn't installed.
"""
import argparse
import collections
import json
import os
import random
import subprocess
import sys
import tempfile

HERE = os.path.dirname(os.path.abspath(__file__))
sys.path[:0] = [HERE, os.path.join(HERE, "containers")]
import judge  # noqa: E402
import variables  # noqa: E402

# The name, the source, how it is built, and a word in the names of the program's own functions.
PROGRAMS = [
    ("gcc", "words.cc", "g++ -std=c++20 -O0", "example"),
    ("gcc-shop", "shop.cc", "g++ -std=c++17 -O0", "example"),
    ("gcc-optimized", "words.cc", "g++ -std=c++20 -O2", "example"),
    ("clang", "words.cc", "clang++ -std=c++17 -O0 -fstandalone-debug", "example"),
    ("clang-shop-optimized", "shop.cc", "clang++ -std=c++20 -O1", "example"),
    ("libcxx", "words.cc", "clang++ -std=c++20 -O0 LIBCXX", "example"),
    ("libcxx-shop", "shop.cc", "clang++ -std=c++17 -O0 LIBCXX", "example"),
    ("rust", "words.rs", "rustc -g", "words"),
    ("rust-optimized", "words.rs", "rustc -g -C opt-level=1", "words"),
    ("go", "words.go", "go build -gcflags=all=-N", "main."),
]

# Where LLDB finds its module, and what this needs.
LLDB_MODULE = "/usr/lib/llvm-14/lib/python3.11/dist-packages:/usr/lib/python3/dist-packages"


def build(folder, program, libcxx):
    """Builds a program, and returns its path."""
    name, source, command, _ = program
    path = os.path.join(folder, name)
    flags = "-stdlib=libc++"
    if libcxx:
        flags = f"-nostdinc++ -isystem {libcxx}/usr/lib/llvm-14/include/c++/v1 -nostdlib++"
    words = command.replace("LIBCXX", flags).split()
    words += ["-g"] if words[0].endswith("++") else []
    words += ["-o", path, os.path.join(HERE, "containers", source)]
    words += ["-l:libc++.so.1", "-l:libc++abi.so.1"] if libcxx and "LIBCXX" in command else []
    subprocess.run(words, check=True, cwd=folder)
    return path


def stops_of(dwcheck_elf, program, word, stops, seed, cores, folder):
    """What gdb, or LLDB, and vars say at random instructions."""
    header = subprocess.run(["readelf", "-h", program], capture_output=True, text=True, check=True).stdout
    places = variables.instructions(program, word)
    random.Random(seed).shuffle(places)
    asked = {"program": program, "arguments": [], "places": places, "stops": stops, "folder": folder, "cores": cores,
             "pie": "DYN (" in header, "dwcheck_elf": os.path.abspath(dwcheck_elf)}
    sysroot = subprocess.run(["rustc", "--print", "sysroot"], capture_output=True, text=True).stdout.strip()
    printers = os.path.join(sysroot, "lib/rustlib/etc")
    environment = dict(os.environ, VARIABLES_PY=os.path.join(folder, "asked"), PYTHONPATH=printers)
    with open(environment["VARIABLES_PY"], "w") as file:
        json.dump(asked, file)
    line = ["gdb", "--batch", "-nx", "-iex", "add-auto-load-safe-path /", "-d", printers,
            "-x", os.path.join(HERE, "containers", "by_gdb.py"), program]
    ran = subprocess.run(line, env=environment, capture_output=True, text=True, stdin=subprocess.DEVNULL)
    if not os.path.exists(os.path.join(folder, "stops")):
        sys.exit(f"{program}: {ran.stderr}")
    with open(os.path.join(folder, "stops")) as file:
        found = json.load(file)
    if cores:
        read_cores(program, found)
    return found


def read_cores(program, stops):
    """Replaces gdb's values by those of LLDB."""
    files, output = [program] + [stop["core"] for stop in stops], program + ".values"
    environment = dict(os.environ, LLDB_FILES=json.dumps(files), LLDB_OUTPUT=output, PYTHONPATH=LLDB_MODULE)
    line = ["lldb-14", "--batch", "-o", "command script import " + os.path.join(HERE, "containers", "by_lldb.py")]
    subprocess.run(line, env=environment, capture_output=True, check=True)
    with open(output) as file:
        lines = file.read().splitlines()
    for stop, read in zip(stops, lines):
        functions = list(reversed(json.loads(read)))
        stop["variables"] = [[place, name, value] for place, each in enumerate(functions) for name, value in each]
        os.remove(stop["core"])


def compare(stop, count):
    """Counts the variables of a stop. Of those with one name, the debugger's value has to be that of one of them."""
    ours = collections.defaultdict(list)
    for depth, function in enumerate(reversed(json.loads(stop["ours"])["functions"])):
        for variable in function["variables"]:
            ours[depth, variable["name"]].append(variable)
    theirs = collections.defaultdict(list)
    for depth, name, value in stop["variables"]:
        theirs[depth, name].append(value)
    for key, variables_there in ours.items():
        values = theirs.get(key, [])
        for one in variables_there:
            kinds = [judge.classify(value, one) for value in values] or ["not in the debugger"]
            best = next((kind for kind in kinds if kind.startswith("equal")), kinds[-1])
            count(best, f"{stop['address']:#x} {key[1]}: {values}, {one}")


def main():
    words = argparse.ArgumentParser(description=__doc__, formatter_class=argparse.RawDescriptionHelpFormatter)
    words.add_argument("--libcxx", metavar="FOLDER")
    words.add_argument("--only", metavar="WORD", default="")
    words.add_argument("dwcheck_elf")
    words.add_argument("stops", type=int)
    words.add_argument("seed", type=int)
    words = words.parse_args()
    counts, examples, stops = collections.Counter(), collections.defaultdict(list), 0

    def count(what, example):
        counts[what] += 1
        if len(examples[what]) < (20 if what == "DIFFERENT" else 3):
            examples[what].append(example[:2000])

    for program in (program for program in PROGRAMS if words.only in program[0]):
        with tempfile.TemporaryDirectory() as folder:
            path = build(folder, program, words.libcxx)
            before = collections.Counter(counts)
            found = stops_of(words.dwcheck_elf, path, program[3], words.stops, words.seed, "LIBCXX" in program[2], folder)
            for stop in found:
                compare(stop, lambda what, example: count(what, f"{program[0]} {example}"))
        stops += len(found)
        print(program[0], len(found), dict(counts - before), flush=True)
    print(f"stops {stops} variables {sum(counts.values())}")
    for what, number in counts.most_common():
        print(f"{number} {what}")
        if not what.startswith("equal") and what != "neither":
            print("".join(f"    {example}\n" for example in examples[what]), end="")
    sys.exit(1 if counts["DIFFERENT"] else 0)


if __name__ == "__main__":
    main()
