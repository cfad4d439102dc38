#!/usr/bin/env python3
"""Runs dwcheck on random frame sections and addresses, and compares its output with what the model
bench/models/frame_model.py gives.

    bench/comparisons/compare_sections.py DWCHECK COUNT [SEED]        1,000 cases take at most 15 s

`rows` is run on each section, and `row` on the section and one address. Half of the sections are
made to pass the check; the others are made with mistakes here and there. In some sections of both
kinds, a few bytes are changed afterwards, and some are cut short.
"""
import with_models  # noqa: F401
from compare_expressions import Maker
from comparing import Case, Run, compare, refusal
from expression_model import MAX_HEIGHT
from frame_model import MAX_REMEMBERED, answers


class SectionMaker(Maker):
    def start(self):
        super().start()
        self.top = (1 << 8 * self.size) - 1
        self.slip = self.random.choice([0, 0, 0, 0, 0.01, 0.02, 0.06, 0.3])
        self.many = self.chance(0.06)
        self.marks = [self.random.choice([0, 0x1000, self.top])]

    def slips(self):
        """Whether to choose something here that is probably a mistake. The choice is random, so now
        and then it is correct all the same."""
        return self.random.random() < self.slip

    def chance(self, part):
        return self.random.random() < part

    def careless(self):
        """Whether to make a mistake here, as in slips(). It is more often true if the program has
        about as many rules as are allowed, so that the fault TooManyRules may occur together with
        another fault."""
        return self.slips() or self.many and self.chance(0.3)

    # Numbers.

    def padded(self, number, last):
        """A LEB128 number, now and then with redundant bytes at its end, sometimes more of them
        than are allowed. `last` is the last redundant byte: 0, or 0x7f for a negative number."""
        if not self.chance(0.02):
            return number
        more = self.random.randrange(10 - len(number)) if len(number) < 10 else 0
        if self.slips():
            more = self.random.choice([8, 9, 10])
        return number[:-1] + bytes([number[-1] | 0x80]) + bytes([last | 0x80]) * more + bytes([last])

    def unsigned(self, value):
        return self.padded(super().unsigned(value), 0)

    def number_of(self, value):
        """A signed LEB128 number."""
        out, left = bytearray(), value
        while not -0x40 <= left < 0x40:
            out.append(left & 0x7f | 0x80)
            left >>= 7
        return self.padded(bytes(out) + bytes([left & 0x7f]), 0x7f if value < 0 else 0)

    def register(self):
        if self.slips() and self.chance(0.2):
            return self.unsigned(self.random.choice([65536, 65537, 1 << 32, self.number()]))
        return self.unsigned(self.random.choice([*range(12), *range(12), 31, 63, 64, 127, 128, 300, 65535]))

    def column(self, version):
        """A CIE's return address register: a byte in version 1, and a LEB128 number in later
        versions."""
        return bytes([self.random.choice([16, 14, 0, 127, 128, 255])]) if version == 1 else self.register()

    def factored(self, factor, signed):
        """A factored offset: a number that the program multiplies by `factor`. The product fits 64
        signed bits, sometimes only just; now and then it doesn't, as a mistake."""
        number = self.random.choice([0, 1, 2, 3, 8, 20, 0x1234])
        if self.chance(0.4 if self.many else 0.1):
            number = ((1 << 63) - self.random.randrange(2)) // max(abs(factor), 1) + self.random.randrange(2)
        if signed and self.chance(0.5):
            number = -number
        if not -1 << 63 <= number * factor < 1 << 63 and not self.careless():
            number = 0
        if signed:
            return self.number_of(min(max(number, -1 << 63), (1 << 63) - 1))
        return self.unsigned(number)

    # Instructions.

    def block(self, kind):
        self.kind = self.random.choice(["cfa", "register", "location"]) if self.slips() else kind
        held = self.expression() if self.careless() else self.good()
        if self.slips():
            at = self.random.randrange(len(held) + 1)
            held = held[:at] + bytes([self.random.getrandbits(8)]) + held[at + self.random.randrange(2):]
        if self.chance(0.05):
            held = b"\x30" * self.random.randrange(MAX_HEIGHT - 4, MAX_HEIGHT + (2 if self.slips() else 0))
        if self.chance(0.05):
            held = b"" if kind == "register" or self.slips() else b"\x77\x08"
        return self.unsigned(len(held)) + held

    def rules(self):
        """Instructions that give rules to about as many registers as are allowed, which is 128."""
        first, count = self.random.choice([0, 5, 12, 20, 200]), self.random.randrange(120, 130)
        out = b"".join(b"\x07" + Maker.unsigned(self, first + i) for i in range(count))
        return out + b"".join(self.rule() for _ in range(4))

    def rule(self):
        kind = self.random.randrange(10)
        if kind < 3:
            return bytes([0x80 + self.random.randrange(64)]) + self.factored(self.data, False)
        if kind == 3:
            code = self.random.choice([0x05, 0x14])
            return bytes([code]) + self.register() + self.factored(self.data, False)
        if kind == 4:
            code = self.random.choice([0x11, 0x15])
            return bytes([code]) + self.register() + self.factored(self.data, True)
        if kind < 8:
            code = self.random.choice([0x07, 0x08, 0x09])
            return bytes([code]) + self.register() + (self.register() if code == 0x09 else b"")
        return bytes([self.random.choice([0x10, 0x16])]) + self.register() + self.block("register")

    def cfa_rule(self):
        codes = [0x0c, 0x0c, 0x0c, 0x12, 0x0f]
        if self.cfa == "register" or self.slips():
            codes += [0x0d, 0x0e, 0x0e, 0x13]
        code = self.random.choice(codes)
        self.cfa = "expression" if code == 0x0f else "register"
        out = bytes([code])
        if code in (0x0c, 0x0d, 0x12):
            out += self.register()
        if code in (0x0c, 0x0e):
            out += self.factored(1, False)
        if code in (0x12, 0x13):
            out += self.factored(self.data, True)
        return out + (self.block("cfa") if code == 0x0f else b"")

    def advance(self):
        most = max(self.end - self.at, 0) // self.code if self.code else 99
        delta = min(self.random.choice([0, 1, 1, 2, 3, most, self.random.randrange(most + 1)]), most)
        delta = min(delta + self.slips(), 0xffffffff)
        self.at += delta * self.code
        if delta < 64 and self.chance(0.6):
            return bytes([0x40 + delta])
        width = self.random.choice([count for count in (1, 2, 4) if delta < 1 << 8 * count])
        return bytes([{1: 2, 2: 3, 4: 4}[width]]) + self.fixed(delta, width)

    def set_loc(self):
        there = min(self.at + self.random.choice([1, 1, 2, 0x10, self.end]), self.end)
        if self.slips():
            there = self.random.choice([self.at, self.at - 1, self.end + 1, self.number()])
        elif there == self.at:
            return b"\x00"
        self.at = there
        return b"\x01" + self.fixed(there, self.size)

    def remembering(self):
        """One or more remember_state instructions, or a restore_state."""
        if self.saved and self.chance(0.5):
            self.cfa = self.saved.pop()
            return b"\x0b"
        if not self.saved and self.chance(0.01):
            return b"\x0b"
        count = self.random.choice([1] * 12 + [2, MAX_REMEMBERED - 1, MAX_REMEMBERED])
        count = min(count, MAX_REMEMBERED - len(self.saved) + self.chance(0.1))
        self.saved += [self.cfa] * count
        return b"\x0a" * count

    def moving(self):
        if self.cfa is None and not self.chance(0.05):
            return self.cfa_rule()
        return self.advance() if self.chance(0.7) else self.set_loc()

    def restore(self):
        if self.chance(0.6):
            return bytes([0xc0 + self.random.randrange(64 if self.chance(0.2) else 12)])
        return b"\x06" + self.register()

    def wrong(self):
        """One or two bytes of which the first is random, or an instruction with two faults."""
        if self.chance(0.7):
            return bytes([self.random.getrandbits(8)]) + (b"\x01" if self.chance(0.5) else b"")
        code = self.random.choice([0x05, 0x09, 0x0c, 0x10, 0x11, 0x12, 0x14, 0x15, 0x16])
        return bytes([code]) + Maker.unsigned(self, 65536) + self.random.choice([b"\xff" * 9 + b"\x02", b"\xff" * 9, b"\xff\x7f"])

    def instruction(self):
        if self.slips():
            return self.wrong()
        kinds = [self.rule] * 5 + [self.cfa_rule] * 3 + [lambda: b"\x00"] + [self.rules] * 3 * self.many
        if not self.common or self.slips():
            kinds += [self.moving] * 6 + [self.remembering, self.remembering, self.restore, self.restore]
        return self.random.choice(kinds)()

    def program(self):
        out = b"".join(self.instruction() for _ in range(self.random.randrange(4 if self.common else 14)))
        if self.slips() or self.chance(0.01):
            return b"\x0a" if self.chance(0.3) else out
        if self.saved:
            out, self.cfa = out + b"\x0b" * len(self.saved), self.saved[0]
        return out + (self.cfa_rule() if not self.common and self.cfa is None else b"")

    # Records.

    def factors(self):
        """The code and data alignment factors."""
        code = self.random.choice([1, 1, 1, 1, 2, 4, 0, 1 << 32, self.number()])
        return code, self.random.choice([-8, -8, -4, -1, 1, 4, 0, (1 << 63) - 1, -1 << 63, self.random.getrandbits(62)])

    def cie(self):
        """The bytes of a CIE after its id, and what its FDEs are made with: both alignment factors,
        and the kind of the CFA's rule at the end of its program."""
        self.code, self.data = self.factors()
        self.common, self.cfa, self.saved, self.at, self.end = True, None, [], 0, 0
        version = self.random.choice([1, 1, 3, 3, 4, 4])
        head = bytearray([version, 0] + [self.size, 0] * (version == 4))
        if self.slips() and self.chance(0.3):
            head[self.random.randrange(len(head))] = self.random.choice([1, 2, 3, 4, 5, self.random.getrandbits(8)])
        head += self.unsigned(self.code) + self.number_of(self.data) + self.column(version)
        if self.chance(0.7):
            head += self.cfa_rule()
        return bytes(head) + self.program(), (self.code, self.data, self.cfa)

    def fde(self, known, start, end):
        """The bytes of an FDE after its CIE_pointer. `known` is what cie() returned for FDEs."""
        self.code, self.data, self.cfa = known
        self.common, self.saved, self.at, self.end = False, [], start, end
        self.marks += [start, end, start + self.random.randrange(max(end - start, 1)), min(end, start + 4)]
        count = end - start
        if self.slips() and self.chance(0.3):
            count = self.random.choice([self.top - start, self.top - start + 1, count + 1])
        out = self.fixed(start, self.size) + self.fixed(count, self.size) + self.program()
        self.marks.append(self.at)
        return out

    def ranges(self, count):
        """`count` ranges of addresses, in random order. They rarely overlap."""
        low = self.random.choice([0, 0x1000, 0x1000, 0x7ffffff0, self.top - 0x60])
        found = []
        for _ in range(count):
            low = min(low + self.random.choice([0, 0, 1, 0x10]), self.top)
            high = low + self.random.choice([0, 1, 2, 8, 0x10, 0x10, 0x20, 0x20, 0x1000, self.top if self.chance(0.1) else 3])
            high = min(high, self.top)
            found.append((low, high))
            low = max(high - self.chance(0.005), 0)
        self.random.shuffle(found)
        return found

    def section(self):
        """A section with CIEs and FDEs in any order."""
        if self.chance(0.01):
            return b""
        commons = [self.cie() for _ in range(self.random.choice([1, 1, 1, 2, 3]))]
        records = [(self.random.choice([4, 4, 8]), None, held) for held, _ in commons]
        for low, high in self.ranges(self.random.choice([0, 1, 1, 1, 2, 2, 2, 3, 4, 12])):
            which = self.random.randrange(len(commons))
            records.append((self.random.choice([4, 4, 8]), which, self.fde(commons[which][1], low, high)))
        order = list(range(len(records)))
        if self.chance(0.5):
            self.random.shuffle(order)
        return self.changed(self.laid_out(records, order))

    def laid_out(self, records, order):
        offsets, place = {}, 0
        for i in order:
            wide, _, held = records[i]
            offsets[i] = place
            place += (12 if wide == 8 else 4) + wide + len(held)
        out = b""
        for i in order:
            wide, which, held = records[i]
            pointer = -1 if which is None else offsets[which]
            if which is not None and self.slips() and self.chance(0.3):
                pointer = self.random.choice([pointer + 1, self.random.choice(list(offsets.values())), place])
            length = self.fixed(0xfffffff0 + self.random.randrange(16) if self.chance(0.001) else wide + len(held), wide)
            out += (b"\xff\xff\xff\xff" if wide == 8 else b"") + length + self.fixed(pointer, wide) + held
        return out

    def changed(self, section):
        chance = self.random.random()
        out = bytearray(section)
        if chance < 0.1:
            for _ in range(self.random.randrange(1, 4)):
                at = self.random.randrange(len(out))
                out[at] = self.random.choice([out[at] ^ 1 << self.random.randrange(8), 0, 0xff, self.random.getrandbits(8)])
        elif chance < 0.13:
            del out[self.random.randrange(len(out) + 1):]
        elif chance < 0.16:
            at = self.random.randrange(len(out))
            out[at:at + self.random.randrange(2)] = bytes([self.random.getrandbits(8)]) * self.random.randrange(2)
        return bytes(out)

    def address(self):
        """An address to look up, mostly at or near the beginning or end of a row."""
        address = self.random.choice(self.marks) + self.random.choice([-1, 0, 0, 0, 1, 1, self.random.randrange(0x20)])
        return min(max(address, 0), self.top)


def kind_of(text, row):
    return refusal(text) or "accepted, the address has " + ("none" if row == "none\n" else "a row")


def case(maker):
    section = maker.section()
    address = maker.address()
    rows, (row,) = answers(section, [address], maker.big, maker.size)
    said = f"{section.hex()} (big {maker.big}, {maker.size} bytes)"
    runs = [
        Run(f"{said}, rows {address:#x}", ["rows", "f"], rows),
        Run(f"{said}, row {address:#x}", ["row", "f", hex(address)], row),
    ]
    return Case({"f": section}, runs, [kind_of(rows, row)])


if __name__ == "__main__":
    compare(__doc__, SectionMaker, case)
