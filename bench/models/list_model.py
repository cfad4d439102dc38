"""A model of how dwcheck checks location lists and looks addresses up in them, in Python. It was
written from docs/PROFILE.md alone; nothing in it was taken from dwcheck's code.

answer(section, offset, base, address, big, size, state) gives the text that `dwcheck locs` must
write.
"""
from expression_model import NAMES as EXPRESSION_NAMES
from expression_model import Fault, Reader, located, run_text

NAMES = EXPRESSION_NAMES | {
    3: "ReservedLength", 6: "AddressSize", 7: "SegmentSize", 50: "ListVersion", 51: "UnknownEntry", 52: "BackRange",
    53: "SecondDefault", 54: "NoEnd", 55: "BadOffsetEntry",
}

END, PAIR, DEFAULT, BASE, START_END, START_LENGTH = 0, 4, 5, 6, 7, 8


def reader(data, at, big, size):
    made = Reader(data, big, size)
    made.at = at
    return made


def entry(fields, has_default, big, size):
    """Reads the next entry. Returns its code, its first and second operand, and its expression. An
    operand or expression that this kind of entry doesn't have is None. `has_default` says whether
    the list already has a default location."""
    at, code = fields.at, fields.fixed(1)
    if code not in (END, PAIR, DEFAULT, BASE, START_END, START_LENGTH):
        raise Fault(51, at)
    first = second = expression = None
    if code == PAIR:
        first, second = fields.leb(False), fields.leb(False)
    if code in (BASE, START_END, START_LENGTH):
        first = fields.fixed(size)
    if code == START_END:
        second = fields.fixed(size)
    if code == START_LENGTH:
        second = fields.leb(False)
    if code not in (END, BASE):
        count = fields.leb(False)
        place, held = fields.at, fields.take(count)
    if code == DEFAULT and has_default:
        raise Fault(53, at)
    if code in (PAIR, START_END) and second < first:
        raise Fault(52, at)
    if code not in (END, BASE):
        expression = located(place, held, "location", big, size)
    return code, first, second, expression


def body(section, at, big, size):
    """Reads the length at the beginning of a table, a CIE or an FDE. Returns the offsets where what
    follows the length begins and ends, and the size of an offset (4 or 8 bytes)."""
    fields = reader(section, at, big, size)
    length, wide = fields.fixed(4), 4
    if 0xfffffff0 <= length < 0xffffffff:
        raise Fault(3, at)
    if length == 0xffffffff:
        if at + 12 > len(section):
            raise Fault(1, at)
        length, wide = fields.fixed(8), 8
    if fields.at + length > len(section):
        raise Fault(1, fields.at)
    return fields.at, fields.at + length, wide


def table(section, at, big, size):
    """Reads the table at offset `at`. Returns the entries of each list by the list's offset, and
    the offset where the table ends."""
    begin, end, wide = body(section, at, big, size)
    fields, lists = reader(section[:end], begin, big, size), {}
    for number, count, value in [(50, 2, 5), (6, 1, size), (7, 1, 0)]:
        place = fields.at
        if fields.fixed(count) != value:
            raise Fault(number, place)
    count, array = fields.fixed(4), fields.at
    offsets = []
    for _ in range(count):
        offsets.append((fields.at, fields.fixed(wide)))
    while fields.at < end:
        start, entries = fields.at, []
        while not entries or entries[-1][0] != END:
            if fields.at == end:
                raise Fault(54, end)
            has_default = any(other[0] == DEFAULT for other in entries)
            entries.append(entry(fields, has_default, big, size))
        lists[start] = entries
    for place, offset in offsets:
        if array + offset not in lists:
            raise Fault(55, place)
    return lists, end


def holding(entries, base, address):
    """The expressions of a list that apply at an address, in the order of the list. `base` is the
    unit's base address."""
    found, otherwise = [], []
    for code, first, second, expression in entries:
        if code == BASE:
            base = first
        if code == DEFAULT:
            otherwise = [expression]
        if code == PAIR and base + first <= address < base + second:
            found.append(expression)
        if code == START_END and first <= address < second:
            found.append(expression)
        if code == START_LENGTH and first <= address < first + second:
            found.append(expression)
    return found or otherwise


def checked(section, big, size):
    """Checks a section. Returns the number of its tables, and the entries of each list by the
    list's offset, in the order of the section. Raises the first fault."""
    at, tables, lists = 0, 0, {}
    while at < len(section):
        more, at = table(section, at, big, size)
        tables, lists = tables + 1, lists | more
    return tables, lists


def answer(section, offset, base, address, big, size, state):
    try:
        _, lists = checked(section, big, size)
    except Fault as fault:
        return f"refused {fault.number} {NAMES[fault.number]} lists 0x{fault.at:08x}\n"
    if offset not in lists:
        return "no list\n"
    text = ""
    for found in holding(lists[offset], base, address):
        text += f"expr 0x{found['place']:08x}\n" + run_text(found, state, big, size)
    return text or "none\n"
