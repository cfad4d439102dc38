"""Joins the frame sections of several modules into one frame section whose addresses are as loaded.
A walk with this section, at load address 0, is the same as a walk with the modules.

joined(sections, loads, big, size) adds each module's load address to the addresses in its FDEs and
set_loc instructions, and concatenates the sections. It returns None if the joined section wouldn't
be equivalent: if a range runs past the highest address, or if ranges of two modules overlap.
"""
import with_models  # noqa: F401
from frame_model import body, checked, instruction, reader


def numbered(value, size, big):
    return value.to_bytes(size, "big" if big else "little")


def moved_record(section, at, load, before, big, size):
    """A copy of the CIE or FDE at offset `at`, for the joined section, and the offset of the next
    CIE or FDE. The copy of an FDE has addresses as loaded. Its CIE_pointer grows by `before`, the
    number of bytes that precede the module's section in the joined one."""
    top = 1 << 8 * size
    begin, end, wide = body(section, at, big, size)
    out, fields = bytearray(section[at:end]), reader(section[:end], begin, big, size)

    def put(place, value, count):
        out[place - at:place - at + count] = numbered(value, count, big)

    pointer = fields.fixed(wide)
    if pointer != (1 << 8 * wide) - 1:
        put(begin, pointer + before, wide)
        place = fields.at
        put(place, (fields.fixed(size) + load) % top, size)
        fields.fixed(size)
        while fields.at < end:
            place = fields.at + 1
            name, operands = instruction(fields)
            if name == "set_loc":
                put(place, (operands[0] + load) % top, size)
    return bytes(out), end


def moved(section, load, before, big, size):
    out, at = b"", 0
    while at < len(section):
        record, at = moved_record(section, at, load, before, big, size)
        out += record
    return out


def ranges(section, load, big, size):
    """The address ranges of a section's FDEs, as loaded. The end of a range that runs past the
    highest address is above it."""
    for described, _, _ in checked(section, big, size)[1]:
        start = (described["start"] + load) % (1 << 8 * size)
        yield start, start + described["end"] - described["start"]


def joined(sections, loads, big, size):
    held = [pair for section, load in zip(sections, loads) for pair in ranges(section, load, big, size)]
    filled = sorted((low, high) for low, high in held if low < high)
    if any(high >= 1 << 8 * size for _, high in held) or any(one[1] > two[0] for one, two in zip(filled, filled[1:])):
        return None
    out = b""
    for section, load in zip(sections, loads):
        out += moved(section, load, len(out), big, size)
    return out
