"""A command for gdb, `dwcheck`: prints the stack of the selected thread, as the library walks it, on
x86-64. The library asks for the memory of each step, and gdb reads it: from a process, a core file, or a
target at the other end of a line. Only the tables are read whole, from the memory of each module.

    (gdb) source walk.py
    (gdb) dwcheck /usr/local/lib/libdwcheck.so
"""
import ctypes as c
import struct

import gdb

DONE, EH_FRAME, LITTLE = 0, 1, 0
PT_LOAD, EXECUTABLE, PT_GNU_EH_FRAME, PCREL_SDATA4, FRAMES = 1, 1, 0x6474E550, 0x1B, 256
# DWARF's numbers of registers on x86-64, and the names that gdb has for them
NAMES = "rax rdx rcx rbx rsi rdi rbp rsp r8 r9 r10 r11 r12 r13 r14 r15 rip".split()
KEPT, STACK_POINTER = (c.c_uint16 * 6)(3, 6, 12, 13, 14, 15), 7
READ = c.CFUNCTYPE(c.c_bool, c.c_void_p, c.c_uint64, c.POINTER(c.c_uint8), c.c_size_t)


def structure(**fields):
    """A class for a structure of dwcheck.h with these fields."""
    return type("Structure", (c.Structure,), {"_fields_": list(fields.items())})


u16, u32, u64, size, pointer = c.c_uint16, c.c_uint32, c.c_uint64, c.c_size_t, c.c_void_p
Process = structure(opaque=pointer, opaque_open=u64)
Fault = structure(number=u32, offset=u32, within=u32, reserved=u32)
Module = structure(frame=c.c_char_p, frame_length=size, load_address=u64, first=u64, last=u64, cookie=u64, room=size, order=u32,
                   address_size=u32, has_range=u32, kind=u32, section_address=u64, text_start=u64, data_start=u64)
State = structure(contents=c.POINTER(u64), contents_length=size, known=c.c_char_p, known_length=size, blocks=pointer, blocks_length=size,
                  kept=c.POINTER(u16), kept_length=size, stack_pointer=u16, has_stack_pointer=u16, reserved=u32, signed_bits=u64)
Frame = structure(address=u64, cfa=u64, kind=u32, reserved=u32)
Cursor = structure(contents=u64 * 96, known=c.c_uint8 * 96, address=u64, stage=u32, reserved=u32)
Reader = structure(read=READ, data=pointer, order=u32, address_size=u32)


def memory(address, length):
    """The bytes at an address; None if they can't be read."""
    try:
        return bytes(gdb.selected_inferior().read_memory(address, length))
    except gdb.MemoryError:
        return None


def read(_, address, into, length):
    found = memory(address, length)
    if found is not None:
        c.memmove(into, found, length)
    return found is not None


def section_of(base, segments):
    """The address and the bytes of the .eh_frame section of a module; the address counts from `base`."""
    header = [vaddr for kind, _, vaddr, _ in segments if kind == PT_GNU_EH_FRAME]
    start = memory(base + header[0], 8) if header else None
    if start is None or start[1] != PCREL_SDATA4:
        return None
    first = header[0] + 4 + struct.unpack("<i", start[4:])[0]
    end = max(vaddr + length for kind, _, vaddr, length in segments if kind == PT_LOAD and vaddr <= first)
    at, part = 0, memory(base + first, end - first)
    while part and at + 4 <= len(part):
        length = struct.unpack_from("<I", part, at)[0]
        at += 4 + length
        if length == 0:
            break
    return first, part[:at] if part else b""


def add_module(library, process, base):
    """Adds the module whose ELF header is at `base`, if there is one."""
    start = memory(base, 64)
    if start is None or start[:4] != b"\x7fELF":
        return
    kind, at, count = struct.unpack_from("<H", start, 16)[0], struct.unpack_from("<Q", start, 32)[0], struct.unpack_from("<H", start, 56)[0]
    load = base if kind == 3 else 0
    entries = (struct.unpack_from("<IIQQQQ", memory(base + at, 56 * count), 56 * i) for i in range(count))
    segments = [(kind, flags, vaddr, length) for kind, flags, _, vaddr, _, length in entries]
    code = [(load + vaddr, load + vaddr + length) for kind, flags, vaddr, length in segments if kind == PT_LOAD and flags & EXECUTABLE]
    found = section_of(load, segments)
    if found and code:
        module = Module(frame=found[1], frame_length=len(found[1]), load_address=load, first=min(code)[0], last=max(code)[1] - 1,
                        room=2**64 - 1, order=LITTLE, address_size=8, has_range=1, kind=EH_FRAME, section_address=found[0])
        library.dwcheck_process_add(c.byref(process), c.byref(module), c.byref(u64()), c.byref(Fault()))


def add_modules(library, process):
    """Adds each module that is mapped: the first mapping of its file has its ELF header. A line has the first
    and the last address, the length, the offset in the file, of a process the permissions, and the file."""
    names = set()
    for line in gdb.execute("info proc mappings", to_string=True).splitlines():
        words = line.split()
        if len(words) < 5 or not words[0].startswith("0x") or int(words[3], 16) != 0 or words[-1] in names:
            continue
        names.add(words[-1])
        add_module(library, process, int(words[0], 16))


def frames(path):
    """The address and the canonical frame address of each frame."""
    library, process = c.CDLL(path), Process()
    add_modules(library, process)
    newest = gdb.newest_frame()
    contents = (u64 * 17)(*(int(newest.read_register(name)) % 2**64 for name in NAMES))
    state = State(contents=contents, contents_length=17, known=b"\xff\xff\x01", known_length=3, kept=KEPT, kept_length=6,
                  stack_pointer=STACK_POINTER, has_stack_pointer=1)
    reader, cursor, frame = Reader(read=READ(read), order=LITTLE, address_size=8), Cursor(), Frame()
    library.dwcheck_cursor_init(c.byref(cursor), u64(contents[16]), c.byref(state), 1, c.byref(Fault()))
    step = [c.byref(x) for x in (process, cursor, state, reader, frame)]
    try:
        while library.dwcheck_cursor_step_with(*step) == DONE:
            yield frame.address, frame.cfa
    finally:
        library.dwcheck_process_close(c.byref(process))


class Dwcheck(gdb.Command):
    """Prints the stack as dwcheck walks it: dwcheck LIBRARY, where LIBRARY is the file libdwcheck.so."""

    def __init__(self):
        super().__init__("dwcheck", gdb.COMMAND_STACK, gdb.COMPLETE_FILENAME)

    def invoke(self, argument, from_tty):
        for number, (address, cfa) in zip(range(FRAMES), frames(argument)):
            print("#%-3d %#018x cfa %#018x" % (number, address, cfa))


Dwcheck()
