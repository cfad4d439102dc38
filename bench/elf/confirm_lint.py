#!/usr/bin/env python3
"""Draws findings of `dwcheck-elf lint` at random, and confirms each by a run, or by reading.

    bench/elf/confirm_lint.py FINDINGS [--count 200] [--seed 1] [--per-file 40] [--control]

FINDINGS has the output of `dwcheck-elf lint --json PATH..`. Only findings in programs and libraries for
x86-64 are drawn, no private ones, and of each file at most 40 take part, so that no file outweighs all
others. Needed are gdb, objdump and readelf.

By a run: the kernel maps the file as a program, and the function is run alone, step by step, from its
first instruction to the place of the finding, on the shortest way. Each register that a function has to
give back begins with a value of its own, and the return address is another. Calls are passed over, and
overwrite what they may; jumps on the way are taken as the way goes; an instruction that faults is passed
over. At the place, gdb is asked where the frame is, and what the caller's registers are. If the frame's
address, the return address and all registers are right, the finding is refuted. At a `ret`, gdb doesn't
ask the table, so a `nop` is written over it first.

By reading, if no way is seen from the first instruction, or the function is a part of another: the rows
before and at the place are read by readelf, and the instruction between them by objdump. If it moves the
stack pointer, and the rows don't say so, the finding is confirmed.

With --control, the run ends one instruction before the place, where the lint finds nothing. So this says
whether the runs themselves are right: what is `REFUTED` there is as it has to be, and what is `confirmed`
is an error of this script, or a second finding in the same function.

Each line of the output is a finding, and how it was confirmed, or why it wasn't. The status is 1 if a
finding was refuted. 200 findings take some ten minutes.
"""
import argparse
import bisect
import collections
import ctypes
import json
import os
import random
import re
import shutil
import signal
import subprocess
import sys
import tempfile

# What the registers and the return address are at a function's first instruction. rbp is an address above the
# frame, because a row may find a register by the caller's rbp.
TRUTH = {name: 0x1111111111110000 + at for at, name in enumerate(["rbx", "rbp", "r12", "r13", "r14", "r15"])}
ABOVE = 0x800
RETURNS = 0x2222222222220000
NOP = b"\x90"
OVERWRITTEN = ["rax", "rcx", "rdx", "rsi", "rdi", "r8", "r9", "r10", "r11"]
JUMP = re.compile(r"^(?:bnd |notrack )?j\w+\s+(?:0x)?([0-9a-f]+)\b")
ENDS = ("ret", "repz ret", "bnd ret", "ud2", "hlt", "jmp", "bnd jmp", "notrack jmp", "int3")
LONGEST_WAY = 4000


def output(*words):
    return subprocess.run(words, stdout=subprocess.PIPE, stderr=subprocess.DEVNULL, text=True, errors="replace").stdout


def drawn(path, count, seed, per_file):
    """Some findings, and how many there are."""
    chance, files, taking_part = random.Random(seed), collections.defaultdict(list), []
    with open(path) as lines:
        for one in map(json.loads, lines):
            if "kind" in one and usable(one):
                files[one["file"]].append(one)
    for _, here in sorted(files.items()):
        taking_part += chance.sample(here, min(per_file, len(here)))
    chosen = chance.sample(taking_part, min(count, len(taking_part)))
    return sorted(chosen, key=lambda one: (one["file"], one["address"])), sum(map(len, files.values()))


def usable(finding):
    if finding["kind"] == "private" or "section" in finding:
        return False
    with open(finding["file"], "rb") as content:
        head = content.read(20)
    return head[18] == 62


class Code:
    """The FDEs of a file with their rows, and the instructions of some of them."""

    def __init__(self, file):
        self.file = file
        self.ranges = []
        for line in output("readelf", "--debug-dump=frames", "-W", file).splitlines():
            match = re.search(r"FDE .*pc=([0-9a-f]+)\.\.([0-9a-f]+)", line)
            if match:
                self.ranges.append(tuple(int(part, 16) for part in match.groups()))
        self.ranges.sort()

    def fde(self, address):
        index = bisect.bisect_right(self.ranges, (address, 1 << 64)) - 1
        begin, end = self.ranges[index] if index >= 0 else (0, 0)
        return (begin, end) if begin <= address < end else None

    def instructions(self, begin, end):
        """The text of each instruction, and the address after it."""
        words = ["objdump", "-dw", "--no-show-raw-insn", f"--start-address={begin:#x}", f"--stop-address={end:#x}", self.file]
        found = re.findall(r"^\s+([0-9a-f]+):\t(.*)$", output(*words), re.M)
        places = [int(address, 16) for address, _ in found]
        return {place: (text.strip(), after) for place, (_, text), after in zip(places, found, places[1:] + [end])}


def following(code, place):
    """The places to which an instruction leads that are seen."""
    text, after = code[place]
    match = JUMP.match(text)
    places = [int(match[1], 16)] if match else []
    return places if text.startswith(ENDS) else places + [after]


def way(code, begin, end):
    """The shortest way between two places."""
    before, work = {begin: None}, collections.deque([begin])
    while work and end not in before:
        place = work.popleft()
        for other in following(code, place) if place in code else []:
            if other not in before:
                before[other] = place
                work.append(other)
    if end not in before:
        return None
    places = [end]
    while before[places[-1]] is not None:
        places.append(before[places[-1]])
    return places[::-1]


def task(code, finding):
    """What gdb has to run for a finding, or why it can't."""
    address, last = finding["address"], finding.get("before-address", finding["address"])
    fde = code.fde(last)
    if fde is None or fde[1] - fde[0] > 1 << 20:
        return "no FDE, or a long one"
    instructions = code.instructions(*fde)
    places = way(instructions, fde[0], last)
    if places is None:
        return "no way is seen to it"
    if last != address:
        places.append(address)
    if len(places) > LONGEST_WAY:
        return "the way is long"
    texts = [instructions.get(place, ("",))[0] for place in places]
    return {"places": places, "texts": texts}


class Registers(ctypes.Structure):
    """The kernel's `user_regs_struct`."""

    _fields_ = [(name, ctypes.c_ulong) for name in (
        "r15 r14 r13 r12 rbp rbx r11 r10 r9 r8 rax rcx rdx rsi rdi orig_rax rip cs eflags rsp ss fs_base gs_base ds es fs gs"
    ).split()]


LIBC = ctypes.CDLL(None, use_errno=True)
LIBC.ptrace.argtypes = [ctypes.c_long, ctypes.c_long, ctypes.c_void_p, ctypes.c_void_p]
TRACE_ME, STEP, GET, SET, DETACH = 0, 9, 12, 13, 17
WITHOUT_RANDOM_ADDRESSES = 0x0040000


class Process:
    """A process in which a file is mapped, and nothing of it has run."""

    def __init__(self, path):
        self.pid = os.fork()
        if self.pid == 0:
            LIBC.ptrace(TRACE_ME, 0, None, None)
            LIBC.personality(WITHOUT_RANDOM_ADDRESSES)
            try:
                os.execv(path, [path])
            finally:
                os._exit(1)
        if not os.WIFSTOPPED(os.waitpid(self.pid, 0)[1]):
            raise OSError("the kernel doesn't map it")
        self.memory = open(f"/proc/{self.pid}/mem", "r+b", buffering=0)
        with open(f"/proc/{self.pid}/maps") as maps:
            self.first = next(int(line.split("-")[0], 16) for line in maps if line.rstrip().endswith(path))

    def registers(self):
        registers = Registers()
        LIBC.ptrace(GET, self.pid, None, ctypes.byref(registers))
        return registers

    def set(self, registers):
        LIBC.ptrace(SET, self.pid, None, ctypes.byref(registers))

    def step(self):
        LIBC.ptrace(STEP, self.pid, None, None)
        if not os.WIFSTOPPED(os.waitpid(self.pid, 0)[1]):
            raise OSError("the process has ended")

    def write(self, address, content):
        self.memory.seek(address)
        self.memory.write(content)

    def end(self):
        self.memory.close()
        try:
            os.kill(self.pid, signal.SIGKILL)
            os.waitpid(self.pid, 0)
        except (ProcessLookupError, ChildProcessError):
            pass


def walk(process, bias, task):
    """Runs a function on the way of a task. Returns the CFA, what the registers were, and how many instructions
    didn't run."""
    registers, faults = process.registers(), 0
    cfa = (registers.rsp - 0x10000) & ~0xFFF
    process.write(cfa - 0x8000, bytes(0x9000))
    process.write(cfa - 8, RETURNS.to_bytes(8, "little"))
    for name in OVERWRITTEN:
        setattr(registers, name, cfa - 0x20000)
    truth = dict(TRUTH, rbp=cfa + ABOVE)
    for name, value in truth.items():
        setattr(registers, name, value)
    registers.rsp, registers.orig_rax = cfa - 8, 2**64 - 1
    for place, text, following in zip(task["places"], task["texts"], task["places"][1:]):
        words = text.replace("bnd ", "").replace("notrack ", "")
        if words.startswith("call"):
            for name in OVERWRITTEN:
                setattr(registers, name, 0x3333333333330000)
        elif not words.startswith(("rep", "syscall", "j")):
            registers.rip = bias + place
            process.set(registers)
            process.step()
            registers = process.registers()
            faults += registers.rip == bias + place
        registers.rip = bias + following
    process.set(registers)
    return cfa, truth, faults


# What gdb runs at the place: it prints where the frame is, the return address and the caller's registers.
IN_GDB = r"""
import gdb, json, re, sys
try:
    frame = gdb.execute("info frame", to_string=True)
except gdb.error as error:
    print("SAYS " + json.dumps({"cannot": str(error)}))
    gdb.execute("kill")
    sys.exit()
at, said = re.search(r"frame at (0x[0-9a-f]+):", frame), re.search(r"saved rip = (0x[0-9a-f]+)", frame)
saved = dict(re.findall(r"(\w+) at (0x[0-9a-f]+)", frame.partition("Saved registers:")[2]))
def caller(name):
    if name not in saved:
        return int(gdb.parse_and_eval("(unsigned long)$" + name))
    try:
        return int.from_bytes(gdb.selected_inferior().read_memory(int(saved[name], 16), 8), "little")
    except gdb.MemoryError:
        return None
print("SAYS " + json.dumps({"cfa": at and int(at[1], 16), "rip": said and int(said[1], 16),
    "registers": {name: caller(name) for name in ["rbx", "rbp", "r12", "r13", "r14", "r15"]}}))
gdb.execute("kill")
"""


def by_gdb(process, folder):
    """What gdb says of the frame in which a process is. The process ends."""
    script = os.path.join(folder, "in_gdb.py")
    with open(script, "w") as out:
        out.write(IN_GDB)
    LIBC.ptrace(DETACH, process.pid, None, signal.SIGSTOP)
    words = ["gdb", "-nx", "-q", "-batch", "-iex", "set auto-load off", "-iex", "set debuginfod enabled off", "-p"]
    ran = subprocess.run(words + [str(process.pid), "-x", script], stdin=subprocess.DEVNULL, capture_output=True, text=True, timeout=300)
    said = re.search(r"^SAYS (.*)$", ran.stdout, re.M)
    if not said:
        raise OSError("gdb doesn't say where the frame is")
    return json.loads(said[1])


def differences(says, cfa, truth):
    """What gdb says that isn't so."""
    if "cannot" in says:
        return [f"the frame isn't found: {says['cannot']}"]
    wrong = [f"{name} is wrong" for name, value in truth.items() if says["registers"][name] != value]
    if says["cfa"] != cfa:
        wrong.insert(0, f"the frame is off by {'?' if says['cfa'] is None else says['cfa'] - cfa}")
    elif says["rip"] != RETURNS:
        wrong.insert(0, "the return address is wrong")
    return wrong


def run(path, linked, task, folder):
    """Whether a finding is true by a run, and how that was seen."""
    process = Process(path)
    try:
        cfa, truth, faults = walk(process, process.first - linked, task)
        if task["texts"][-1] in ("ret", "retq"):
            process.write(process.registers().rip, NOP)
        says = by_gdb(process, folder)
    finally:
        process.end()
    wrong = differences(says, cfa, truth)
    how = f"run of {len(task['places']) - 1} steps, {faults} faults, by gdb: "
    return bool(wrong), how + (", ".join(wrong) or "all is right")


def moved(text):
    """By how much an instruction moves the stack pointer. None if that isn't read."""
    match = re.match(r"(add|sub)q?\s+\$(-?)0x([0-9a-f]+),%rsp$", text)
    if match:
        number = int(match[3], 16) * (-1 if match[2] else 1)
        number -= 1 << 64 if number >= 1 << 63 else 0
        return number if match[1] == "add" else -number
    match = re.match(r"leaq?\s+(-?)0x([0-9a-f]+)\(%rsp\),%rsp$", text)
    if match:
        return int(match[2], 16) * (-1 if match[1] else 1)
    if re.match(r"push[fq]*\b", text):
        return -8
    return 8 if re.match(r"pop[fq]*\b", text) else None


def read(code, finding):
    """Confirms a finding by the rows around an instruction that moves the stack pointer. The row before it, the
    row at the place, and the instruction, as a text, or None."""
    last = finding.get("before-address")
    fde = code.fde(finding["address"])
    if last is None or fde is None or not fde[0] <= last < fde[1]:
        return None
    text, after = code.instructions(*fde).get(last, ("", 0))
    rows = [(place, cfa) for place, cfa in rows_of(code.file, fde[0]) if place <= finding["address"]]
    before = [cfa for place, cfa in rows if place <= last]
    by = moved(text)
    if not before or by is None or after != finding["address"]:
        return None
    old, new = (re.match(r"rsp\+(\d+)$", cfa) for cfa in (before[-1], rows[-1][1]))
    if old and new and int(new[1]) != int(old[1]) - by:
        return f"cfa={before[-1]} before {text!r}, and cfa={rows[-1][1]} after it"
    return None


def rows_of(file, begin):
    """The places and CFAs of the rows of an FDE, as readelf shows them."""
    text = output("readelf", "--debug-dump=frames-interp", "-W", file)
    part = re.search(rf"FDE .*pc=0*{begin:x}\.\..*\n((?:.+\n)*)", text)
    return [(int(place, 16), cfa) for place, cfa in re.findall(r"^([0-9a-f]{16}) (\S+)", part[1] if part else "", re.M)]


def confirmed(code, finding, path, linked, folder):
    """Whether a finding is true (True), refuted (False) or neither (None), and how that was seen."""
    work = task(code, finding)
    try:
        if isinstance(work, dict):
            return run(path, linked, work, folder)
        why = work
    except (OSError, StopIteration, subprocess.TimeoutExpired) as error:
        why = str(error) or "no answer"
    by_reading = read(code, finding)
    return (True, "reading: " + by_reading) if by_reading else (None, why)


def main():
    parser = argparse.ArgumentParser(description=__doc__.splitlines()[0])
    parser.add_argument("findings")
    parser.add_argument("--count", type=int, default=200)
    parser.add_argument("--seed", default="1")
    parser.add_argument("--per-file", type=int, default=40)
    parser.add_argument("--control", action="store_true")
    words = parser.parse_args()
    findings, all_of_them = drawn(words.findings, words.count, words.seed, words.per_file)
    if words.control:
        findings = [dict(one, address=one["before-address"]) for one in findings if "before-address" in one]
    counts = collections.Counter()
    with tempfile.TemporaryDirectory() as folder:
        for file in sorted({finding["file"] for finding in findings}):
            code, copy = Code(file), os.path.join(folder, "mapped-" + os.path.basename(file))
            shutil.copyfile(file, copy)
            os.chmod(copy, 0o755)
            load = re.search(r"LOAD\s+0x\w+ 0x(\w+)", output("readelf", "-lW", file))
            linked = int(load[1], 16) & ~0xFFF if load else 0
            for finding in findings:
                if finding["file"] != file:
                    continue
                is_true, how = confirmed(code, finding, copy, linked, folder)
                word = {True: "confirmed", False: "REFUTED", None: "unconfirmed"}[is_true]
                counts[word] += 1
                counts[how.split()[0].strip(":")] += is_true is True
                print(f"{word} {file} {finding['address']:#x} {finding['kind']}: {how}", flush=True)
            os.remove(copy)
    print(f"{len(findings)} of {all_of_them} findings: {counts['confirmed']} confirmed ({counts['run']} by a run, "
          f"{counts['reading']} by reading), {counts['unconfirmed']} unconfirmed, {counts['REFUTED']} refuted")
    sys.exit(counts["REFUTED"] > 0)


if __name__ == "__main__":
    main()
