#!/usr/bin/env python3
"""Checks that dwcheck's walks agree with gdb's on nine targets: the address and the CFA of each
frame that gdb finds.

    bench/walk/targets.py DWCHECK [TARGET]..        ten seconds

Without a TARGET, all nine are tried. clang compiles freestanding.c for the target, and qemu runs
the program. gdb stops it in its innermost function, and again after each of the next instructions.
At each stop, tools/gdb_state.py writes a state file with the target's ABI (the lines `keep` and
`sp`), and prints the command that runs dwcheck on it.

This needs Debian's clang, lld, llvm, qemu-user, gdb-multiarch and binutils-s390x-linux-gnu. mips
isn't among the targets: LLVM's CIEs for mips begin with DW_CFA_def_cfa_register before any rule for
the CFA, so dwcheck refuses them with the fault CfaNotRegister.
"""
import os
import re
import subprocess
import sys
import tempfile

HERE = os.path.dirname(os.path.abspath(__file__))
STATE_TOOL = os.path.join(os.path.dirname(os.path.dirname(HERE)), "tools", "gdb_state.py")
STOPS, PORT, LIMIT = 20, 1300, 40
LLD = "ld.lld"

# For each target: clang's name for the target and further flags for clang, qemu's name for the
# target, and the linker.
TARGETS = {
    "x86-64": (["x86_64-linux-gnu"], "x86_64", LLD),
    "i386": (["i386-linux-gnu"], "i386", LLD),
    "aarch64": (["aarch64-linux-gnu"], "aarch64", LLD),
    "arm": (["armv7-linux-gnueabihf"], "arm", LLD),
    "powerpc": (["powerpc-linux-gnu"], "ppc", LLD),
    "powerpc64": (["powerpc64-linux-gnu", "-mabi=elfv2"], "ppc64", LLD),
    "powerpc64le": (["powerpc64le-linux-gnu"], "ppc64le", LLD),
    "s390x": (["s390x-linux-gnu"], "s390x", "s390x-linux-gnu-ld"),
    "riscv64": (["riscv64-linux-gnu", "-mno-relax"], "riscv64", LLD),
}

IN_GDB = """
import re
gdb.execute("target remote :{port}", to_string=True)
gdb.execute("break innermost", to_string=True)
gdb.execute("continue", to_string=True)
for stop in range({stops}):
    said = gdb.execute(f"dwcheck-state {{stop}}.state", to_string=True)
    frame, lines = gdb.newest_frame(), [next(line for line in said.splitlines() if line.startswith("dwcheck "))]
    while frame is not None:
        frame.select()
        cfa = re.search("frame at (0x[0-9a-f]+)", gdb.execute("info frame", to_string=True))[1]
        lines.append(f"{{frame.pc():#x}} {{cfa}}")
        frame = frame.older()
    gdb.newest_frame().select()
    open(f"{{stop}}.frames", "w").write("\\n".join(lines))
    gdb.execute("stepi", to_string=True)
gdb.execute("kill")
"""


def build(folder, names, linker):
    """Compiles the program, and writes its .debug_frame section to a file."""
    triple, *flags = names
    flags += ["-O1", "-g", "-fforce-dwarf-frame", "-fno-pic", "-ffreestanding"]
    source = os.path.join(HERE, "freestanding.c")
    subprocess.run(["clang", f"--target={triple}", *flags, "-c", source, "-o", "walk.o"], cwd=folder, check=True)
    subprocess.run([linker, "walk.o", "-o", "walk"], cwd=folder, check=True)
    subprocess.run(["llvm-objcopy", "--dump-section", ".debug_frame=walk.frame", "walk", "/dev/null"], cwd=folder, check=True)


def stop(folder, emulator):
    """Lets gdb stop the program STOPS times. At each stop, gdb writes a state file, and a file with
    the dwcheck command and gdb's frames."""
    with open(f"{folder}/stops.py", "w", encoding="ascii") as file:
        file.write(IN_GDB.format(port=PORT, stops=STOPS))
    with subprocess.Popen([f"qemu-{emulator}", "-g", str(PORT), "./walk"], cwd=folder, stderr=subprocess.DEVNULL) as running:
        try:
            words = ["gdb-multiarch", "-q", "-batch", "-nx", "-x", STATE_TOOL, "-x", "stops.py", "walk"]
            run = subprocess.run(words, cwd=folder, capture_output=True, text=True, timeout=60, check=False)
        finally:
            running.kill()
    if not os.path.exists(f"{folder}/{STOPS - 1}.frames"):
        raise SystemExit(run.stdout + run.stderr)


def compare(program, folder, number):
    """Returns the number of frames that gdb found at a stop. Ends with an error unless dwcheck's
    walk begins with the same frames."""
    with open(f"{folder}/{number}.frames", encoding="ascii") as file:
        command, *lines = file.read().splitlines()
    wanted = [tuple(int(word, 16) for word in line.split()) for line in lines]
    words = [program, *command.split()[1:-1], str(LIMIT)]
    written = subprocess.run(words, cwd=folder, capture_output=True, text=True, check=False).stdout
    frames = re.findall(r"^frame \d+ (0x\w+) cfa value (0x\w+)$", written, re.MULTILINE)
    found = [(int(address, 16), int(cfa, 16)) for address, cfa in frames]
    if found[:len(wanted)] != wanted:
        raise SystemExit(f"stop {number}: {command}\ngdb {lines}\nwritten {written}")
    return len(wanted)


def main():
    if len(sys.argv) < 2:
        raise SystemExit(__doc__)
    program = os.path.realpath(sys.argv[1])
    for target in sys.argv[2:] or TARGETS:
        names, emulator, linker = TARGETS[target]
        with tempfile.TemporaryDirectory() as folder:
            build(folder, names, linker)
            stop(folder, emulator)
            frames = sum(compare(program, folder, number) for number in range(STOPS))
            print(f"{target}: {STOPS} stops, {frames} frames are gdb's")


main()
