"""A model of how the libraries check an `.eh_frame` section and which rows they give, in Python. It
was written from the LSB (Core, "DWARF Extensions" and "Exception Frames"), DWARF 5 and the rules of
`.eh_frame` in docs/PROFILE.md; nothing in it was taken from dwcheck's code. What both formats of
frame sections have in common is in frame_model.py.

answer(section, bases, lookup, big, size, is_aarch64) gives the text that
rust/dwcheck/examples/eh_frame_answers.rs must write.
"""
import collections

from expression_model import Fault, Reader
from frame_model import CODES, NAMES, check_overlap, one_text, programs, rows_text
from list_model import body, reader

# The addresses of the section's first byte, and of what pointers relative to text and to data count
# from. The last two are None if they aren't known.
Bases = collections.namedtuple("Bases", "section text data")

MAX_LETTERS = 8
# An FDE has fewer addresses than this.
MOST_ADDRESSES = 1 << 63

# Encodings of pointers: the low four bits of those whose number has a fixed size, and the sizes. 0
# is an address. With 8 added the number is signed.
FIXED = {0x0: None, 0x2: 2, 0x3: 4, 0x4: 8, 0xa: 2, 0xb: 4, 0xc: 8}
UNSIGNED_LEB, SIGNED_LEB = 0x1, 0x9
# The high four bits of those that are relative to something.
FROM_PLACE, FROM_TEXT, FROM_DATA = 0x10, 0x20, 0x30
ALIGNED, OMITTED, INDIRECT = 0x50, 0xff, 0x80
# Those that may stand beside the low four bits in the encoding of an FDE's addresses.
RELATIONS = (0, FROM_PLACE, FROM_TEXT, FROM_DATA)

# The instructions that both formats have, with their codes, and those that only `.eh_frame` has. Of these,
# GNU_negative_offset_extended alone changes a rule.
EXTENDED = CODES | {0x2e: ("nop", "u"), 0x2f: ("negative_offset", "ru")}
EXTENDED_FOR_AARCH64 = EXTENDED | {0x2d: ("nop", ""), 0x2c: ("nop", "")}
SET_LOC, DEF_CFA_REGISTER = 0x01, 0x0d


# The fields of records.

def letters_of(fields):
    """The letters of an augmentation, and the offset of the first."""
    place, rest = fields.at, bytes(fields.data[fields.at:fields.at + MAX_LETTERS + 1])
    letters, found, _ = rest.partition(b"\0")
    if not found:
        raise Fault(5, place)
    fields.at += len(letters) + 1
    return letters.decode("latin-1"), place


def personality(data):
    """Passes the letter P's data: an encoding, and a pointer with it."""
    encoding = data.fixed(1)
    if encoding == OMITTED:
        return
    if encoding & 0xf0 & ~INDIRECT == ALIGNED or encoding & 0xf not in FIXED:
        raise Fault(5, 0)
    data.take(FIXED[encoding & 0xf] or data.size)


def addresses_encoding(data):
    encoding = data.fixed(1)
    is_number = encoding & 0xf in FIXED or encoding & 0xf in (UNSIGNED_LEB, SIGNED_LEB)
    if encoding != ALIGNED and not (encoding & 0xf0 in RELATIONS and is_number):
        raise Fault(5, 0)
    return encoding


def said(letters, data):
    """What the letters after z say: the encoding of the FDEs' addresses, and whether the FDEs are
    signal frames. Any fault means that the augmentation is refused."""
    encoding, is_signal = 0, False
    for letter in letters:
        if letter == "R":
            encoding = addresses_encoding(data)
        elif letter == "L":
            data.fixed(1)
        elif letter == "P":
            personality(data)
        elif letter not in "SBG":
            raise Fault(5, 0)
        is_signal = is_signal or letter == "S"
    return encoding, is_signal


def number(fields, encoding):
    """The number that the low four bits of an encoding describe."""
    low = encoding & 0xf
    if low in (UNSIGNED_LEB, SIGNED_LEB):
        return fields.leb(low == SIGNED_LEB)
    return fields.fixed(FIXED[low] or fields.size, bool(low & 8))


def address(fields, encoding, bases):
    """An address in any of the encodings."""
    known = {FROM_PLACE: bases.section + fields.at, FROM_TEXT: bases.text, FROM_DATA: bases.data}
    base = known.get(encoding & 0xf0, 0)
    if base is None:
        raise Fault(5, fields.at)
    if encoding == ALIGNED:
        fields.take(-(bases.section + fields.at) % fields.size)
    return (base + number(fields, encoding)) % (1 << 8 * fields.size)


# The records.

def cie(fields, is_aarch64):
    """Reads a CIE from the field after its id on. The result has what frame_model.cie() gives, and
    what the augmentation says."""
    place, version = fields.at, fields.fixed(1)
    if version not in (1, 3, 4):
        raise Fault(4, place)
    letters, string = letters_of(fields)
    if letters == "eh":
        fields.fixed(fields.size)
    for fault, value in [(6, fields.size), (7, 0)] * (version == 4):
        place = fields.at
        if fields.fixed(1) != value:
            raise Fault(fault, place)
    code_factor, data_factor = fields.leb(False), fields.leb(True)
    place = fields.at
    register = fields.fixed(1) if version == 1 else fields.leb(False)
    if register > 65535:
        raise Fault(10, place)
    encoding, is_signal = 0, False
    if letters[:1] == "z":
        data = Reader(fields.take(fields.leb(False)), fields.big, fields.size)
        try:
            encoding, is_signal = said(letters[1:], data)
        except Fault:
            raise Fault(5, string) from None
    elif letters not in ("", "eh"):
        raise Fault(5, string)
    codes = EXTENDED_FOR_AARCH64 if is_aarch64 else EXTENDED
    if encoding != 0:
        codes = {code: held for code, held in codes.items() if code != SET_LOC}
    begins_with_register = fields.data[fields.at:fields.at + 1] == bytes([DEF_CFA_REGISTER])
    return {
        "code": code_factor, "data": data_factor, "return": register, "program": fields, "codes": codes,
        "cfa": ("register", 0, 0) if begins_with_register else None, "letters": letters, "encoding": encoding,
        "signal": is_signal,
    }


def fde(fields, at, pointer, common, bases):
    """Reads an FDE from the field after its pointer on. `at` is the FDE's offset, `pointer` that of
    its CIE, and `common` the CIE."""
    start = address(fields, common["encoding"], bases)
    place = fields.at
    count = number(fields, common["encoding"])
    if not 0 <= count < MOST_ADDRESSES or start + count >= 1 << 8 * fields.size:
        raise Fault(11, place)
    if common["letters"][:1] == "z":
        fields.take(fields.leb(False))
    held = bytes(fields.data[fields.at:])
    return {"at": at, "pointer": pointer, "start": start, "end": start + count, "program": fields, "bytes": held}


def records(section, bases, big, size, is_aarch64):
    """The CIEs by their offsets, and the FDEs, both in the order of the section."""
    cies, fdes, at = {}, [], 0
    while at < len(section):
        begin, end, _ = body(section, at, big, size)
        if begin < end:
            fields = reader(section[:end], begin, big, size)
            back = fields.fixed(4)
            if back == 0:
                cies[at] = cie(fields, is_aarch64)
            elif begin - back not in cies:
                raise Fault(9, begin)
            else:
                fdes.append(fde(fields, at, begin - back, cies[begin - back], bases))
        at = end
    return cies, fdes


def without_copies(fdes):
    """The FDEs without those that are exact copies of an earlier one."""
    first, kept = {}, []
    for described in fdes:
        other = described
        if described["start"] < described["end"]:
            other = first.setdefault(described["start"], described)
        if other is described or any(described[key] != other[key] for key in ("pointer", "end", "bytes")):
            kept.append(described)
    return kept


# The text.

def accepted_text(cies, fdes, kept, found, size):
    """What a section without a fault contains, where exact copies count once; all FDEs with their
    rows, copies too; and which FDEs are signal frames'."""
    counted = {described["at"] for described in kept}
    rows = sum(len(rows) for described, _, rows in found if described["at"] in counted)
    expressions = sum(len(one["expressions"]) for one in [*cies.values(), *kept])
    text = f"accepted cies {len(cies)} fdes {len(kept)} rows {rows} expressions {expressions}\n"
    signals = [f" 0x{described['at']:08x}" for described in fdes if cies[described["pointer"]]["signal"]]
    return text + rows_text(found, size) + (f"signal frames{''.join(signals)}\n" if signals else "")


def answer(section, bases, lookup, big, size, is_aarch64):
    """Checks a section, and looks up the row of one address."""
    try:
        cies, fdes = records(section, bases, big, size, is_aarch64)
        found, kept = programs(cies, fdes), without_copies(fdes)
        check_overlap(kept)
    except Fault as fault:
        return f"refused {fault.number} {NAMES[fault.number]} 0x{fault.at:08x}\n"
    return accepted_text(cies, fdes, kept, found, size) + "at " + one_text(found, lookup, size)
