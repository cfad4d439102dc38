#!/usr/bin/env python3
"""Compares where the return addresses of frames are signed with what gdb says of core files.

    tests/arm64/signed_frames.py PROGRAM ROOT.. -- COMMAND..

PROGRAM is tests/arm64/signed_frames.c. In each root, a folder with the C library for arm64, qemu runs it once for each of
CHAINS, and it dies. gdb prints [PAC] at a frame if it had to take a signature off the address where the frame continues.
That address is the return address of the frame that was called from there, so gdb's mark at each frame is compared with
what the rows say of the one below. COMMAND is tests/arm64/rows.c as a program. It is given a file, `all` and, on standard
input, the addresses at which the frames of all stacks are looked up. Prints a line for each root, and for each frame that
differs. The status is 1 if one does, if a stack lacks a link of its chain, or if a root's frames have fewer than LEAST
places at which the return address is signed, or at which it isn't.

A core file of the kernel says in the note NT_ARM_PAC_MASK which bits of an address are its signature. Without it gdb goes
no further than the first frame. qemu doesn't write it, so it is added here.
"""
import functools
import pathlib
import re
import resource
import struct
import subprocess
import sys
import tempfile

# The last word of each is how the program dies.
CHAINS = [chain.split() for chain in (
    "plain is_signed plain by_key_b when_entered",
    "by_qsort with_frame_pointer when_signed",
    "is_signed by_bsearch plain when_saved",
    "after_a_return by_once when_loaded",
    "by_exit by_stream plain when_authenticated",
    "by_handler when_entered plain by_handler when_signed by_qsort by_handler when_saved by_handler when_loaded "
    "by_handler when_authenticated by_abort",
    "by_handler plain_when_entered is_signed by_handler plain_when_saved by_handler plain_when_loaded by_unwinder by_abort",
    "plain by_libraries by_qsort by_key_b in_leaf",
    "is_signed by_thread after_a_return by_bsearch in_signed_leaf",
)]
LEAST = 10

# Without SVE, whose registers qemu writes to the frame of a signal, but not to core files: with them in the former only, gdb
# 13 doesn't end.
EMULATOR = ["qemu-aarch64", "-cpu", "max,pauth-impdef=on,sve=off", "-s", str(1 << 20), "-L"]
MOST_BYTES = 1 << 24
SECONDS = 120

PT_NOTE, NT_PRSTATUS, NT_ARM_PAC_MASK = 4, 1, 0x406
# Bits 48 to 54, as of the kernel with addresses of 48 bits. In qemu xpaclri takes off the same.
PAC_MASK = 0x7F << 48
SIGNAL = "<signal handler called>"


def with_masks(notes):
    """The notes of a core file, with NT_ARM_PAC_MASK after the registers of each thread."""
    at, parts = 0, []
    while at < len(notes):
        name, size, kind = struct.unpack_from("<III", notes, at)
        end = at + 12 + (name + 3) // 4 * 4 + (size + 3) // 4 * 4
        parts.append(notes[at:end])
        if kind == NT_PRSTATUS:
            parts.append(struct.pack("<III8sQQ", 6, 16, NT_ARM_PAC_MASK, b"LINUX", PAC_MASK, PAC_MASK))
        at = end
    return b"".join(parts)


def add_masks(core):
    """Adds these notes to the contents of a core file. All its notes move to its end."""
    table, = struct.unpack_from("<Q", core, 32)
    count, = struct.unpack_from("<H", core, 56)
    for at in range(table, table + 56 * count, 56):
        kind, _, start, _, _, size = struct.unpack_from("<IIQQQQ", core, at)
        if kind == PT_NOTE:
            notes = with_masks(bytes(core[start:start + size]))
            core += bytes(-len(core) % 8)
            struct.pack_into("<Q", core, at + 8, len(core))
            struct.pack_into("<Q", core, at + 32, len(notes))
            core += notes


def allow_core():
    """Has core files written by this process and those that it runs. The machine's kernel writes one of qemu too, which is
    large."""
    _, most = resource.getrlimit(resource.RLIMIT_CORE)
    resource.setrlimit(resource.RLIMIT_CORE, (MOST_BYTES if most == resource.RLIM_INFINITY else min(most, MOST_BYTES), most))


def core_of(program, root, chain, folder):
    """Runs the program in a folder. Returns its core file."""
    ran = subprocess.run([*EMULATOR, root, program, *chain], cwd=folder, capture_output=True, text=True, timeout=SECONDS, check=False)
    cores = list(folder.glob("qemu_*.core"))
    if len(cores) != 1:
        raise RuntimeError(f"qemu wrote {len(cores)} core files of {' '.join(chain)}; status {ran.returncode}: {ran.stderr}")
    core = bytearray(cores[0].read_bytes())
    add_masks(core)
    cores[0].write_bytes(core)
    return cores[0]


def ask_gdb(program, root, core):
    """What gdb says: a line with the frames of the thread that died, and then the libraries."""
    first = ["set auto-load off", "set debuginfod enabled off", f"set sysroot {root}", "set backtrace past-main on"]
    then = [f"core-file {core}", 'interpreter-exec mi "-stack-list-frames"', "info sharedlibrary"]
    words = [word for line in first for word in ("-iex", line)] + [word for line in then for word in ("-ex", line)]
    return subprocess.run(["gdb-multiarch", "-nx", "-batch", *words, program], capture_output=True, text=True, timeout=SECONDS,
                          stdin=subprocess.DEVNULL, check=True).stdout


@functools.cache
def text_of(file):
    """The address of a file's .text section, as linked."""
    said = subprocess.run(["aarch64-linux-gnu-readelf", "-SW", file], capture_output=True, text=True, check=True).stdout
    return int(re.search(r" \.text +PROGBITS +([0-9a-f]+)", said)[1], 16)


class Libraries:
    """The files of a process: the program, which is where it was linked, and its libraries."""

    def __init__(self, program, said):
        self.program = program
        lines = re.findall(r"^(0x[0-9a-f]+) +(0x[0-9a-f]+) +Yes(?: \(\*\))? +(.+)$", said, re.MULTILINE)
        self.libraries = [(int(start, 16), int(end, 16), path) for start, end, path in lines]

    def place(self, address):
        """The file that has an address, and the address in it."""
        for start, end, path in self.libraries:
            if start <= address < end:
                return path, address - start + text_of(path)
        return self.program, address


def frames_of(program, root, chain):
    """The frames of a stack, the innermost first: for each but the last its function, where it is looked up, and whether
    gdb says that its return address is signed."""
    with tempfile.TemporaryDirectory() as folder:
        said = ask_gdb(program, root, core_of(program, root, chain, pathlib.Path(folder)))
    libraries = Libraries(program, said)
    found = re.findall(r'frame=\{level="\d+",addr="(0x[0-9a-f]+)"(,addr_flags="PAC")?,func="([^"]*)"', said)
    functions = [function for _, _, function in found]
    need_links(chain, functions)
    # Where a frame was interrupted it is looked up as it is, else just before the address to which a call returns.
    places = [libraries.place(int(address, 16) - (i > 0 and functions[i - 1] != SIGNAL)) for i, (address, _, _) in enumerate(found)]
    return [(functions[i], places[i], found[i + 1][1] != "") for i in range(len(found) - 1)]


def need_links(chain, functions):
    """Refuses a stack in which gdb doesn't show each link up to the start, or to that of its thread."""
    wanted = chain[chain.index("by_thread") + 1:] if "by_thread" in chain else ["_start", "main", *chain]
    if [function for function in reversed(functions) if function in wanted] != wanted:
        raise RuntimeError(f"gdb shows for {' '.join(chain)}: {' '.join(functions)}")


def signed_by_command(command, frames):
    """What the program says of the places of frames: whether the return address is signed. A place without a row isn't in it."""
    by_file = {}
    for _, (file, address), _ in frames:
        by_file.setdefault(file, set()).add(address)
    signed = {}
    for file, addresses in by_file.items():
        asked = subprocess.run([*command, file, "all"], input="".join(f"{address:x}\n" for address in sorted(addresses)),
                               capture_output=True, text=True, timeout=SECONDS, check=True)
        for line in asked.stdout.splitlines():
            address, *words = line.split()
            if words != ["none"]:
                signed[file, int(address, 16)] = words[-1] == "signed"
    return signed


def compare(program, root, command):
    """Prints how many frames of a root's stacks are as gdb says. Returns whether all are, and there are enough."""
    frames = [frame for chain in CHAINS for frame in frames_of(program, root, chain)]
    signed = signed_by_command(command, frames)
    # Nothing is signed where a handler returns to, and it has no row.
    wrong = [frame for frame in frames if signed.get(frame[1], False if frame[0] == SIGNAL else None) != frame[2]]
    for function, (file, address), is_signed in wrong:
        says = {True: "signed", False: "not signed", None: "without a row"}[signed.get((file, address))]
        print(f"{file} {address:#x} in {function}: the return address is {'' if is_signed else 'not '}signed by gdb, here {says}")
    places = {(place, is_signed) for _, place, is_signed in frames if place in signed}
    count = sum(is_signed for _, is_signed in places)
    print(f"{root}: {len(frames)} frames, {len(wrong)} differ; signed at {count} places, not at {len(places) - count}")
    return not wrong and min(count, len(places) - count) >= LEAST


def main():
    """Compares the frames of all roots."""
    at = sys.argv.index("--")
    program, *roots = sys.argv[1:at]
    allow_core()
    return int(not all([compare(program, root, sys.argv[at + 1:]) for root in roots]))


if __name__ == "__main__":
    sys.exit(main())
