#!/usr/bin/env python3
"""Runs a program with `dwcheck-elf trace`, and asks gdb about each finding, in a run of its own.

    bench/elf/confirm_trace.py DWCHECK_ELF -- PROGRAM ARGUMENTS

gdb notes, where the function of a finding begins, where the return address is, what it is, and the callee-saved
registers. At the first wrong instruction it says which frame called: a finding is `confirmed` if gdb's caller isn't
at that return address, or doesn't have that stack pointer or those registers, and `refuted` if all of this is right.
`not reached` means that the second run didn't come there by a call of the function.

The program has to run alike each time. Needed is gdb. The status is 1 if a finding was refuted.
"""
import collections
import json
import os
import subprocess
import sys
import tempfile

# Run by gdb's Python. FINDINGS and WORDS are set before it.
INSIDE = r"""
import bisect, gdb, json, os
KEPT = ["rbx", "rbp", "r12", "r13", "r14", "r15"]
gdb.execute("set pagination off")
gdb.execute("set confirm off")
gdb.execute("set startup-with-shell off")
gdb.execute("set stop-on-solib-events 1")
gdb.execute("set backtrace past-main on")
verdicts = {}


def number(text):
    return int(gdb.parse_and_eval("(unsigned long)(%s)" % text))


def bases():
    # Where the first byte of each file is mapped.
    found = {}
    for line in gdb.execute("info proc mappings", to_string=True).splitlines():
        words = line.split()
        if len(words) >= 5 and words[0].startswith("0x") and words[-1].startswith("/"):
            offset = int([word for word in words if word.startswith("0x")][3], 16)
            if offset == 0:
                found.setdefault(os.path.realpath(words[-1]), int(words[0], 16))
    return found


class Entry(gdb.Breakpoint):
    def __init__(self, address):
        super().__init__("*%#x" % address, internal=True)
        self.silent = True
        self.frames = []

    def stop(self):
        stack = number("$rsp")
        self.frames = [frame for frame in self.frames if frame[0] > stack]
        caller = number("*(unsigned long *)$rsp")
        self.frames.append((stack, caller, {name: number("$" + name) for name in KEPT}))
        return False


class Place(gdb.Breakpoint):
    def __init__(self, key, address, entry):
        super().__init__("*%#x" % address, internal=True)
        self.silent = True
        self.key, self.entry = key, entry

    def stop(self):
        stack = number("$rsp")
        live = [frame for frame in self.entry.frames if frame[0] >= stack]
        slot, caller, kept = live[-1] if live else (None, None, None)
        if live and number("*(unsigned long *)%#x" % slot) == caller:
            verdicts[self.key] = self.compared(slot, caller, kept)
            self.enabled = self.entry.enabled = False
        return False

    def compared(self, slot, caller, kept):
        older = gdb.newest_frame().older()
        if older is None:
            return "confirmed: gdb finds no caller"
        if older.pc() != caller:
            return "confirmed: gdb's caller is at %#x, in place of %#x" % (older.pc(), caller)
        if int(older.read_register("rsp")) & (1 << 64) - 1 != slot + 8:
            return "confirmed: gdb's caller has another stack pointer"
        names = [name for name in KEPT if int(older.read_register(name)) & (1 << 64) - 1 != kept[name]]
        return "confirmed: gdb's caller has another " + ", ".join(names) if names else "REFUTED: gdb's caller is right"


gdb.execute("file " + WORDS[0])
gdb.execute("set args " + " ".join(WORDS[1:]))
gdb.execute("run", to_string=True)
set_up = set()
while True:
    try:
        there = bases()
    except gdb.error:
        break
    for key, (path, begin, address) in FINDINGS.items():
        base = there.get(os.path.realpath(path))
        if key in set_up or base is None:
            continue
        set_up.add(key)
        shift = base - LOWEST[path]
        Place(key, address + shift, Entry(begin + shift))
    if len(set_up) == len(FINDINGS):
        gdb.execute("set stop-on-solib-events 0")
    try:
        gdb.execute("continue", to_string=True)
    except gdb.error:
        break
print("\nVERDICTS " + json.dumps(verdicts))
"""


def findings_of(elf, words, folder):
    path = os.path.join(folder, "trace.json")
    subprocess.run([elf, "trace", "--json", "--output", path, "--", *words], stdout=subprocess.DEVNULL,
                   stderr=subprocess.DEVNULL, check=False)
    with open(path) as file:
        return [one for one in map(json.loads, file) if "kind" in one]


def lowest_address(path):
    """The address in the file of the segment that has its first byte."""
    text = subprocess.run(["readelf", "-lW", path], capture_output=True, text=True, check=True).stdout
    loads = [line.split() for line in text.splitlines() if line.split()[:1] == ["LOAD"]]
    return next((int(words[2], 16) for words in loads if int(words[1], 16) == 0), 0)


def main():
    split = sys.argv.index("--") if "--" in sys.argv else 0
    if split != 2 or len(sys.argv) < 4:
        sys.exit(__doc__)
    elf, words = os.path.abspath(sys.argv[1]), sys.argv[split + 1:]
    program = subprocess.run(["which", words[0]], capture_output=True, text=True, check=True).stdout.strip()
    with tempfile.TemporaryDirectory() as folder:
        findings = findings_of(elf, words, folder)
        asked = {str(at): (one["file"], one["fde"], one["address"]) for at, one in enumerate(findings)}
        lowest = {path: lowest_address(path) for path, _, _ in asked.values()}
        script = os.path.join(folder, "inside.py")
        with open(script, "w") as file:
            file.write(f"FINDINGS = {asked!r}\nLOWEST = {lowest!r}\nWORDS = {[program, *words[1:]]!r}\n{INSIDE}")
        done = subprocess.run(["gdb", "-q", "-nx", "-batch", "-x", script], capture_output=True, text=True, check=False)
        line = next((line for line in done.stdout.splitlines() if line.startswith("VERDICTS ")), None)
        if line is None:
            sys.exit(done.stdout[-2000:] + done.stderr[-2000:])
        verdicts = json.loads(line.split(" ", 1)[1])
    counts = collections.Counter()
    for at, one in enumerate(findings):
        verdict = verdicts.get(str(at), "not reached")
        counts[verdict.split(":")[0]] += 1
        name = one.get("function", hex(one["address"]))
        print(f"{os.path.basename(one['file'])} {name}: {one['kind']}, {one['severity']}: {verdict}")
    print(dict(counts))
    return counts["REFUTED"] > 0


if __name__ == "__main__":
    sys.exit(main())
