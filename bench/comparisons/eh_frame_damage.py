"""Damages the `.eh_frame` sections of real programs, for compare_eh_frame.py.

pieces(path, random, count) takes small sections out of a program's: a CIE and a few FDEs that
follow one another, for the addresses that they cover in the program. damaged(piece, random) changes
each byte of one, cuts it at each byte, changes lengths and pointers to CIEs, and moves it to other
addresses.
"""
import struct

import with_models  # noqa: F401
from eh_frame_maker import Case
from eh_frame_model import Bases, records
from list_model import body

AARCH64 = 183


def section_of(path):
    """The `.eh_frame` section of an ELF file: its bytes, its address, whether it is big-endian, the
    address size, and whether it is for aarch64. None if it has no such section."""
    with open(path, "rb") as file:
        held = file.read()
    wide, big = held[4] == 2, held[5] == 2
    order = ">" if big else "<"
    table, = struct.unpack_from(order + ("Q" if wide else "I"), held, 40 if wide else 32)
    size, count, names = struct.unpack_from(order + "HHH", held, 58 if wide else 46)
    machine, = struct.unpack_from(order + "H", held, 18)
    headers = [struct.unpack_from(order + ("IIQQQQ" if wide else "IIIIII"), held, table + i * size) for i in range(count)]
    texts = headers[names][4]
    for name, _, _, address, offset, length in headers:
        if held[texts + name:].startswith(b".eh_frame\0") and length:
            return held[offset:offset + length], address, big, 8 if wide else 4, machine == AARCH64
    return None


def whole(path):
    """A case with a program's whole section, as it is. None if it has none."""
    found = section_of(path)
    if found is None:
        return None
    held, address, big, size, is_aarch64 = found
    return Case(held, Bases(address, None, None), address, big, size, is_aarch64)


def places(held, big, size):
    """Where the records of a section are: the offset, the end, and an FDE's offset of its CIE."""
    found, at = [], 0
    while at < len(held):
        begin, end, _ = body(held, at, big, size)
        if begin < end:
            back = int.from_bytes(held[begin:begin + 4], "big" if big else "little")
            found.append((at, end, begin - back if back else None))
        at = end
    return found


def pieces(path, random, count):
    """`count` small sections with FDEs of a program's section. An FDE covers the same addresses as in
    the program: the piece has the address of the first FDE, less what the CIE takes."""
    found = section_of(path)
    if found is None:
        return
    held, address, big, size, is_aarch64 = found
    all_places = places(held, big, size)
    fdes = [i for i, (_, _, cie) in enumerate(all_places) if cie is not None]
    ends = {start: end for start, end, _ in all_places}
    for first in random.sample(fdes, min(count, len(fdes))):
        start, _, cie = all_places[first]
        taken = [one for one in all_places[first:first + random.choice([1, 1, 2, 3])] if one[2] == cie]
        out, before = bytearray(held[cie:ends[cie]]), start - (ends[cie] - cie)
        for begin, end, _ in taken:
            place = len(out) + 4
            out += held[begin:end]
            out[place:place + 4] = place.to_bytes(4, "big" if big else "little")
        bases = Bases((address + before) % (1 << 8 * size), None, None)
        _, (described, *_) = records(bytes(out), bases, big, size, is_aarch64)
        yield Case(bytes(out), bases, described["start"], big, size, is_aarch64)


def with_bytes(piece, at, held):
    section = piece.section[:at] + held + piece.section[at + len(held):]
    return piece._replace(section=section)


def fixed(piece, number):
    return (number % (1 << 32)).to_bytes(4, "big" if piece.big else "little")


def changed_bytes(piece):
    """Each byte is changed to some 14 others."""
    for at, byte in enumerate(piece.section):
        values = {byte ^ 1 << bit for bit in range(8)} | {0, 0xff, 0x7f, 0x80, (byte + 1) & 0xff, (byte - 1) & 0xff}
        for value in sorted(values - {byte}):
            yield with_bytes(piece, at, bytes([value]))


def cut(piece):
    """The section ends before each of its bytes."""
    for length in range(len(piece.section)):
        yield piece._replace(section=piece.section[:length])


def changed_lengths(piece):
    for start, end, _ in places(piece.section, piece.big, piece.size):
        length, left = end - start - 4, len(piece.section) - start - 4
        near = [length + by for by in (-8, -4, -1, 1, 4, 8)]
        for value in [0, 1, 3, 4, *near, left, left + 1, 0x7fff_ffff, 0x8000_0000, 0xffff_ffef, 0xffff_fff0, 0xffff_fffe]:
            yield with_bytes(piece, start, fixed(piece, value))
        for wide in (length, length + 1, 0, 1 << 63, (1 << 64) - 1):
            held = b"\xff" * 4 + (wide).to_bytes(8, "big" if piece.big else "little") + piece.section[start + 4:]
            yield piece._replace(section=piece.section[:start] + held)
        yield with_bytes(piece, start, b"\xff" * 4)


def changed_pointers(piece):
    """The pointers to CIEs lead to each offset before them, to some after them, and nowhere."""
    for start, _, cie in places(piece.section, piece.big, piece.size):
        if cie is None:
            continue
        place = start + 4
        for back in [*range(-8, place + 9), 0x7fff_ffff, 0x8000_0000, 0xffff_ffff]:
            yield with_bytes(piece, place, fixed(piece, back))


def moved(piece, random):
    """The section is at other addresses, such that sums pass 2^w."""
    top = 1 << 8 * piece.size
    for address in [0, 1, piece.bases.section + 1, top // 2, *(top - by for by in (1, 4, 8, 0x20, 0x100, 0x10000))]:
        there = piece._replace(bases=piece.bases._replace(section=address % top))
        yield there
        for _ in range(6):
            at = random.randrange(len(piece.section))
            yield with_bytes(there, at, bytes([random.getrandbits(8)]))


def damaged(piece, random):
    yield piece
    yield from changed_bytes(piece)
    yield from cut(piece)
    yield from changed_lengths(piece)
    yield from changed_pointers(piece)
    yield from moved(piece, random)
