#!/usr/bin/env python3
"""A script for gdb that writes the state file of a stopped thread, for `dwcheck unwind` and
`dwcheck backtrace`. The state is that of the thread's newest frame (frame 0), whatever frame is
selected.

    gdb -batch -x STOP -x tools/gdb_state.py -ex 'dwcheck-state state' PROGRAM

STOP is a gdb script that stops the program. In an interactive session of gdb,
`source tools/gdb_state.py` adds the command:

    dwcheck-state FILE [BYTES]

It writes to FILE the lines `keep` and `sp` of the target (from tools/abi), the registers by DWARF's
numbers, and the stack: 128 bytes below the stack pointer (the red zone), and BYTES from the stack
pointer on. If BYTES isn't given, it writes 256 KiB in all. It writes less if gdb can't read that
much. Then it prints the commands to run next: for each module that has a .debug_frame section, the
target's objcopy, which copies the section to a file; `dwcheck backtrace` for these modules; and
`dwcheck-elf backtrace` for all modules. The commands contain the modules' load addresses.

Targets: x86-64, x32, i386, aarch64, arm, powerpc, powerpc64, s390x, riscv, mips. For a program of
another machine use gdb-multiarch, for example with `qemu-aarch64 -g 1234 PROGRAM`. This script
isn't proved. --help prints this text.
"""
import os
import re
import shlex
import struct
import sys

try:
    import gdb
except ImportError:
    print(__doc__, end="")
    sys.exit(0 if sys.argv[1:] in ([], ["--help"], ["-h"]) else 2)

ABI_FOLDER = os.path.join(os.path.dirname(os.path.abspath(__file__)), "abi")
# How many bytes below the stack pointer are written too. x86-64 has its red zone there, and a
# function of any target may still use what it has popped from the stack.
RED_ZONE = 128
MOST_STACK = 1 << 18
PAGE = 4096
BYTES_IN_LINE = 1024

# gdb's names of registers, in groups of consecutive DWARF numbers. A group is a pair: the DWARF
# number of its first register, and the names of its registers in order.
X86_64 = [(0, "rax rdx rcx rbx rsi rdi rbp rsp r8 r9 r10 r11 r12 r13 r14 r15 rip".split())]
POWERPC = [(0, [f"r{i}" for i in range(32)]), (65, ["lr"])]
MIPS_TEMPORARIES = {4: "t0 t1 t2 t3 t4 t5 t6 t7", 8: "a4 a5 a6 a7 t0 t1 t2 t3"}


def mips(size):
    """gdb's names of the registers of mips. Those of registers 8 to 15 depend on the ABI, which
    depends on the size of an address."""
    names = f"zero at v0 v1 a0 a1 a2 a3 {MIPS_TEMPORARIES[size]} s0 s1 s2 s3 s4 s5 s6 s7 t8 t9 k0 k1 gp sp s8 ra"
    return [(0, names.split())]


class Target:
    """A target: the name of its file in tools/abi, gdb's names of its registers, gdb's name of the
    stack pointer, and Debian's name for the target, with which the names of its binutils begin."""

    def __init__(self, abi, registers, pointer, debian):
        self.abi, self.registers, self.pointer, self.debian = abi, registers, pointer, debian

    def objcopy(self):
        """The name of an objcopy that reads the target's files. This is the machine's own objcopy
        if that can read them."""
        cpu, machine = self.debian.split("-")[0], os.uname().machine
        is_own = cpu == machine or (cpu, machine) == ("i686", "x86_64")
        return "objcopy" if is_own else f"{self.debian}-objcopy"


def target_of(architecture, size, is_big):
    """The target that gdb calls `architecture`. `size` is the number of bytes of an address, and
    `is_big` says whether the byte order is big-endian."""
    name, wide = architecture.lower(), "64" if size == 8 else ""
    if name.startswith(("i386:x86-64", "i386:x64-32")):
        return Target("x86-64", X86_64, "rsp", "x86_64-linux-gnu")
    if name.startswith("i386"):
        return Target("i386", [(0, "eax ecx edx ebx esp ebp esi edi eip".split())], "esp", "i686-linux-gnu")
    if name.startswith("aarch64"):
        return Target("aarch64", [(0, [f"x{i}" for i in range(31)] + ["sp", "pc"])], "sp", "aarch64-linux-gnu")
    if name.startswith("arm"):
        return Target("arm", [(0, [f"r{i}" for i in range(13)] + ["sp", "lr", "pc"])], "sp", "arm-linux-gnueabihf")
    if name.startswith(("powerpc", "rs6000")):
        return Target("powerpc", POWERPC, "r1", f"powerpc{wide if is_big else '64le'}-linux-gnu")
    if name.startswith("s390"):
        return Target("s390x", [(0, [f"r{i}" for i in range(16)])], "r15", "s390x-linux-gnu")
    if name.startswith("riscv"):
        return Target("riscv", [(0, [f"x{i}" for i in range(32)])], "x2", "riscv64-linux-gnu")
    if name.startswith("mips"):
        debian = f"mips{wide}{'' if is_big else 'el'}-linux-gnu{'abi64' if wide else ''}"
        return Target("mips", mips(size), "sp", debian)
    raise gdb.GdbError(f"no ABI is known for {architecture}: write the lines keep and sp yourself")


def word_of(value, size):
    """The content of a register, taken modulo 2^w, where w is 8 * `size`."""
    return int(value) & ((1 << 8 * size) - 1)


def address_size():
    """The number of bytes of a pointer in the program. On x32 pointers are shorter than registers.
    The language is set to C for this, because not every language has `void *`."""
    said = gdb.execute("with language c -- output sizeof(void *)", to_string=True)
    return int(re.match(r"\d+", said)[0])


def read_stack(start, most):
    """The bytes from the address `start` up to the first that can't be read, at most `most`. They
    are read a page at a time."""
    held = b""
    while len(held) < most:
        at = start + len(held)
        count = min(PAGE - at % PAGE, most - len(held))
        try:
            held += bytes(gdb.selected_inferior().read_memory(at, count))
        except gdb.MemoryError:
            break
    return held


def register_lines(frame, target, size):
    """The `reg` line of each register whose content gdb knows."""
    for first, names in target.registers:
        for number, name in enumerate(names, first):
            try:
                value = frame.read_register(name)
                yield f"reg {number} {word_of(value, size):#x}"
            except (ValueError, gdb.error):
                pass


def memory_lines(start, held):
    """The `mem` lines for the bytes `held`, which begin at the address `start`."""
    for at in range(0, len(held), BYTES_IN_LINE):
        yield f"mem {start + at:#x} {held[at:at + BYTES_IN_LINE].hex()}"


class ElfFile:
    """What is needed of an ELF file: its entry point, and the address of each section by name."""

    def __init__(self, path):
        with open(path, "rb") as file:
            data = file.read()
        if data[:4] != b"\x7fELF":
            raise ValueError("not an ELF file")
        self.order = "<" if data[5] == 1 else ">"
        self.is_wide = data[4] == 2
        header = self.order + ("HHIQQQIHHHHHH" if self.is_wide else "HHIIIIIHHHHHH")
        fields = struct.unpack_from(header, data, 16)
        self.entry, table, size, count, names = fields[3], fields[5], fields[10], fields[11], fields[12]
        sections = [self.section(data, table + i * size) for i in range(count)]
        text = sections[names][2] if sections else 0
        self.addresses = {self.name(data, text + name): address for name, address, _ in sections}

    def section(self, data, at):
        """Reads a section header at offset `at` of the file. Returns the offset of the section's
        name in the string table, the section's address, and its offset in the file."""
        if self.is_wide:
            name, _, _, address, offset = struct.unpack_from(self.order + "IIQQQ", data, at)
        else:
            name, _, _, address, offset = struct.unpack_from(self.order + "IIIII", data, at)
        return name, address, offset

    @staticmethod
    def name(data, at):
        return data[at:data.index(b"\0", at)].decode("ascii", "replace")


def program_load(elf):
    """The load address of the executable: its entry point as loaded, from the auxiliary vector,
    minus its entry point as linked. 0 if gdb doesn't show the auxiliary vector."""
    found = re.search(r"^9 +AT_ENTRY .*?(0x[0-9a-f]+|\d+)$", gdb.execute("info auxv", to_string=True), re.MULTILINE)
    return int(found[1], 0) - elf.entry if found else 0


def library_loads():
    """For each shared library: its path, and the address of its .text section as loaded."""
    lines = gdb.execute("info sharedlibrary", to_string=True).splitlines()
    for found in (re.match(r"(0x[0-9a-f]+) +0x[0-9a-f]+ +(?:Yes|No)(?: \(\*\))? +(.+)$", line) for line in lines):
        if found:
            yield found[2], int(found[1], 16)


class Module:
    """An ELF file of the process: its load address, whether it has a .debug_frame section, its path
    and the name of the file for that section, both quoted for a shell."""

    def __init__(self, path, elf, load):
        self.load, self.has_frame = load, ".debug_frame" in elf.addresses
        self.file = shlex.quote(min(path, os.path.relpath(path), key=len))
        self.frame = shlex.quote(os.path.basename(path) + ".frame")


def modules():
    """The modules of the process: the executable, and then each shared library whose file can be
    read."""
    program = gdb.current_progspace().filename
    elf = ElfFile(program)
    yield Module(program, elf, program_load(elf))
    for path, text in library_loads():
        try:
            elf = ElfFile(path)
            yield Module(path, elf, text - elf.addresses[".text"])
        except (OSError, ValueError, KeyError):
            continue


def walk(program, flags, files, state, address):
    """The command that walks from `address`. `files` has a pair for each module: the module, and
    the file that the command names for it."""
    words = [program, "backtrace", *flags]
    for number, (module, file) in enumerate(files):
        if number > 0:
            words += ["--module", f"{module.load:#x}={file}"]
        elif module.load > 0:
            words += ["--load", f"{module.load:#x}"]
    return " ".join([*words, files[0][1], f"{address:#x}", shlex.quote(state), "64"])


def next_commands(state, address, size, is_big, objcopy):
    """The commands to run next: those that copy the sections to files, the one that walks with
    these files, and the one that walks with the ELF files."""
    flags = ["--big"] * is_big + ["--addr4"] * (size == 4)
    found = list(modules())
    framed = [module for module in found if module.has_frame]
    for module in framed:
        yield f"{objcopy} --dump-section .debug_frame={module.frame} {module.file} /dev/null"
    if framed:
        yield walk("dwcheck", flags, [(module, module.frame) for module in framed], state, address)
    yield walk("dwcheck-elf", [], [(module, module.file) for module in found], state, address)


def newest_frame():
    """The newest frame of the selected thread. An older frame continues at a return address, so its
    address isn't one to look up."""
    thread = gdb.selected_thread()
    if thread is None:
        raise gdb.GdbError("the program isn't running: run it to a breakpoint first")
    if thread.is_running():
        raise gdb.GdbError("the program is running: stop it first")
    return gdb.newest_frame()


class WriteState(gdb.Command):
    """Write the registers and the stack of the selected thread as a state file of dwcheck.

    dwcheck-state FILE [BYTES]

    The registers are those of the thread's newest frame (frame 0), whatever frame is selected.
    BYTES is how much of the stack is written from the stack pointer on; about 256 KiB if not given.
    Then the commands that walk from the newest frame are printed."""

    def __init__(self):
        super().__init__("dwcheck-state", gdb.COMMAND_DATA, gdb.COMPLETE_FILENAME)

    def invoke(self, argument, from_tty):
        words = gdb.string_to_argv(argument)
        if not 1 <= len(words) <= 2 or not all(word.isdigit() for word in words[1:]):
            raise gdb.GdbError("usage: dwcheck-state FILE [BYTES]")
        frame, size = newest_frame(), address_size()
        is_big = "big endian" in gdb.execute("show endian", to_string=True)
        target = target_of(frame.architecture().name(), size, is_big)
        pointer = word_of(frame.read_register(target.pointer), size)
        below = min(RED_ZONE, pointer)
        most = int(words[1]) + below if len(words) > 1 else MOST_STACK
        held = read_stack(pointer - below, most)
        with open(os.path.join(ABI_FOLDER, target.abi + ".state"), encoding="ascii") as file:
            lines = file.read().splitlines()
        lines += [*register_lines(frame, target, size), *memory_lines(pointer - below, held)]
        with open(words[0], "w", encoding="ascii") as file:
            file.write("\n".join(lines) + "\n")
        for line in next_commands(words[0], frame.pc(), size, is_big, target.objcopy()):
            print(line)


WriteState()
