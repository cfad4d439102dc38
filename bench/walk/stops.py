"""A script for gdb. It stops a program at the start of the function `innermost`, and then again
after each instruction. At each stop it writes the registers, the stack and gdb's frames to files.

    STOPS=N FOLDER=F [MODULES=SYMBOLS] gdb --batch --nx -x stops.py PROGRAM

There are N stops, or fewer if the program leaves its own files earlier. The files of stop number I
(from 0) are written to the folder F:

I.state   the registers, and the whole stack from 128 bytes below the stack pointer (the red zone)
I.top     the registers, and only 8,192 bytes of the stack from the stack pointer on
I.frames  a line for each frame that gdb finds: its address, its CFA, and 1 if it is in the program,
          else 0; then the callee-saved registers and the stack pointer of frame 1
I.failed  gdb's error if gdb can't read memory that it needs; then only this file is written

If libraries count as part of the program, SYMBOLS is a file with a line for the executable and one
for each library: the name of the file, a symbol in it, and the symbol's address as linked. Then
F/loads gets a line with each file's name and its load address, taken from the process's mappings.
"""
import os
import re
import traceback

import gdb

# gdb's names of the registers, in the order of DWARF's register numbers for x86-64.
NAMES = ["rax", "rdx", "rcx", "rbx", "rsi", "rdi", "rbp", "rsp", *(f"r{i}" for i in range(8, 16)), "rip"]
KEPT, POINTER = [3, 6, 12, 13, 14, 15], 7
RED_ZONE, COPIED, LINE, PAGE = 128, 8192, 1024, 4096


def contents(frame, numbers):
    return {number: int(frame.read_register(NAMES[number]).cast(gdb.lookup_type("unsigned long"))) for number in numbers}


def stack(start):
    """The bytes from an address up to the first that can't be read."""
    held, at = b"", start
    while True:
        count = PAGE - at % PAGE
        try:
            held += bytes(gdb.selected_inferior().read_memory(at, count))
        except gdb.MemoryError:
            return held
        at += count


def state(registers, start, held):
    """The text of a state file: the ABI, the registers, and the bytes `held` from the address
    `start` on."""
    lines = [f"keep {number}" for number in KEPT] + [f"sp {POINTER}"]
    lines += [f"reg {number} {content:#x}" for number, content in registers.items()]
    lines += [f"mem {start + i:#x} {held[i:i + LINE].hex()}" for i in range(0, len(held), LINE)]
    return "\n".join(lines) + "\n"


def frames():
    """gdb's frames, the innermost first. Frames of inlined functions and of tail calls are left
    out, because they have no frame of their own on the stack."""
    frame = gdb.newest_frame()
    while frame is not None:
        if frame.type() not in (gdb.INLINE_FRAME, gdb.TAILCALL_FRAME):
            yield frame
        frame = frame.older()


def base(frame):
    """The address that `info frame` shows for a frame. On x86-64 it is the CFA."""
    frame.select()
    return re.search("frame at (0x[0-9a-f]+)", gdb.execute("info frame", to_string=True))[1]


def name_at(address):
    """The name, without its folder, of the file that contains an address."""
    return os.path.basename(gdb.solib_name(address) or gdb.current_progspace().filename)


def loads(symbols):
    """The name and load address of each file. The load address is where the file's first mapping
    begins. Raises an error if the file's symbol isn't at its address as linked plus this."""
    mappings = re.findall(r"^\s*(0x[0-9a-f]+) .* /.*/([^/\s]+)$", gdb.execute("info proc mappings", to_string=True), re.MULTILINE)
    for name, symbol, linked in symbols:
        load = min(int(start, 16) for start, file in mappings if file == name)
        as_loaded = int(gdb.parse_and_eval(f"(unsigned long)&{symbol}"))
        if as_loaded - int(linked, 16) != load:
            raise ValueError(f"{name}: loaded at {load:#x}, but {symbol}, linked at {linked}, lies at {as_loaded:#x}")
        yield name, load


def written(folder, number, inside):
    all_frames = list(frames())
    registers = contents(all_frames[0], range(len(NAMES)))
    pointer = registers[POINTER]
    held = stack(pointer - RED_ZONE)
    lines = [f"{frame.pc():#x} {base(frame)} {int(name_at(frame.pc()) in inside)}" for frame in all_frames]
    lines += [f"r{register} {content:#x}" for register, content in contents(all_frames[1], [*KEPT, POINTER]).items()]
    all_frames[0].select()
    whole, top = state(registers, pointer - RED_ZONE, held), state(registers, pointer, held[RED_ZONE:RED_ZONE + COPIED])
    for name, text in [("state", whole), ("top", top), ("frames", "\n".join(lines))]:
        with open(f"{folder}/{number}.{name}", "w", encoding="ascii") as file:
            file.write(text)


def main():
    for setting in ["pagination off", "confirm off", "backtrace past-main on", "debuginfod enabled off"]:
        gdb.execute(f"set {setting}")
    gdb.execute("break *innermost", to_string=True)
    gdb.execute("run", to_string=True)
    folder, symbols = os.environ["FOLDER"], []
    if "MODULES" in os.environ:
        with open(os.environ["MODULES"], encoding="ascii") as file:
            symbols = [line.split() for line in file]
        with open(f"{folder}/loads", "w", encoding="ascii") as file:
            file.writelines(f"{name} {load:#x}\n" for name, load in loads(symbols))
    inside = {name for name, *_ in symbols} or {name_at(gdb.newest_frame().pc())}
    for number in range(int(os.environ["STOPS"])):
        try:
            written(folder, number, inside)
        except gdb.MemoryError as error:
            with open(f"{folder}/{number}.failed", "w", encoding="ascii") as file:
                file.write(f"{error}\n")
        gdb.execute("stepi", to_string=True)
        if name_at(gdb.newest_frame().pc()) not in inside:
            break
    gdb.execute("kill", to_string=True)


try:
    main()
except Exception:  # without this, gdb would end with status 0
    traceback.print_exc()
    gdb.execute("quit 1")
