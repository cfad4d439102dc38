"""Makes random `.eh_frame` sections for compare_eh_frame.py. Programs and ranges are those of
compare_sections.py; what is made here is what only `.eh_frame` has: augmentations, encoded addresses,
pointers back to a CIE, records of length 0, exact copies of FDEs, and three more instructions.
"""
import collections

import with_models  # noqa: F401
from compare_sections import SectionMaker
from eh_frame_model import ALIGNED, FIXED, FROM_DATA, FROM_PLACE, FROM_TEXT, OMITTED, Bases

# A section, and how it is read.
Case = collections.namedtuple("Case", "section bases lookup big size is_aarch64")
# A CIE: its bytes after the id, and what its FDEs are made with.
Common = collections.namedtuple("Common", "held code data cfa letters encoding")
# An FDE: the place of its CIE among the CIEs, its first address, the number of its addresses, the
# augmentation data, and its program.
Described = collections.namedtuple("Described", "which start count data program")

USUAL = (0x1b, 0x1b, 0x1b, 0x00, 0x10, 0x1c, 0x0b, 0x03, 0x3b, 0x2b)
LOWS = (*FIXED, 0x1, 0x9)


class EhFrameMaker(SectionMaker):
    def start(self):
        super().start()
        self.is_aarch64 = self.chance(0.3)
        section = self.random.choice([0, 0x800, 0x2001, 0x40_0000, self.top - 0x40, self.top - 0x8000, self.number()])
        known = [None, 0x1000, self.top - 0x20]
        self.bases = Bases(section & self.top, *(self.random.choice(known) for _ in range(2)))
        self.encoding = 0

    # Augmentations.

    def letters(self):
        chance = self.random.random()
        if chance < 0.15:
            return ""
        if chance < 0.22:
            return "eh"
        if chance < 0.6:
            return self.random.choice(["zR", "zR", "zPLR", "zRS", "zRB"])
        return "z" + "".join(self.random.sample("RLPSBG", self.random.randrange(7)))

    def wrong_letters(self, letters):
        """Letters that are probably refused."""
        more = self.random.choice(["X", "z", "e", "eh", "\xff", "R", "RRRRRRR", "SSSSSSSS"])
        return self.random.choice([more, letters + more, letters[1:], "ehz", "z" + "S" * self.random.randrange(6, 10)])

    def any_encoding(self):
        if self.slips():
            return self.random.getrandbits(8)
        if self.chance(0.7):
            return self.random.choice(USUAL)
        return self.random.choice([ALIGNED, self.random.choice([0, 0x10, 0x20, 0x30]) + self.random.choice(LOWS)])

    def fits(self, encoding):
        """Whether what the encoding is relative to is known, or else whether it is tried all the same."""
        base = {FROM_TEXT: self.bases.text, FROM_DATA: self.bases.data}.get(encoding & 0xf0, 0)
        return base is not None or self.slips()

    def data_of(self, letters):
        """The augmentation data that the letters after z need. Sets the encoding of addresses."""
        out = b""
        for letter in letters:
            if letter == "R":
                encoding = self.any_encoding()
                self.encoding = encoding if self.fits(encoding) else FROM_PLACE
                out += bytes([self.encoding])
            elif letter == "L":
                out += bytes([self.random.choice([0x1b, 0xff, 0x03, self.random.getrandbits(8)])])
            elif letter == "P":
                out += self.personality()
        if self.slips() and out:
            return out[:-1]
        return out + bytes(self.random.choice([0, 0, 0, 0, 1, 5]))

    def personality(self):
        if self.chance(0.1):
            return bytes([OMITTED])
        low = self.random.choice(list(FIXED))
        encoding = self.random.choice([0, 0x10, 0x20, 0x30]) + low + self.random.choice([0, 0x80])
        if self.slips():
            encoding = self.random.getrandbits(8)
        return bytes([encoding]) + bytes(FIXED[low] or self.size)

    # Instructions.

    def moving(self):
        if self.encoding and self.cfa is not None and not self.slips():
            return self.advance()
        return super().moving()

    def instruction(self):
        if not self.chance(0.06):
            return super().instruction()
        if self.is_aarch64 and self.chance(0.6) or self.slips():
            return bytes([self.random.choice([0x2d, 0x2d, 0x2c])])
        if self.chance(0.3):
            return b"\x2f" + self.unsigned(self.number()) + self.unsigned(self.number())
        return b"\x2e" + self.unsigned(self.number())

    # Records.

    def cie(self):
        self.code, self.data = self.factors()
        self.common, self.cfa, self.saved, self.at, self.end, self.encoding = True, None, [], 0, 0, 0
        version = self.random.choice([1, 1, 1, 3, 3, 4])
        letters = self.letters()
        written = self.wrong_letters(letters) if self.slips() and self.chance(0.3) else letters
        head = bytes([version]) + written.encode("latin-1") + b"\0" * (not self.slips())
        head += bytes(self.size) * (written == "eh") + bytes([self.size, 0]) * (version == 4)
        if self.slips() and self.chance(0.3):
            at = self.random.randrange(len(head))
            head = head[:at] + bytes([self.random.choice([0, 1, 2, 3, 4, 5, 8, self.random.getrandbits(8)])]) + head[at + 1:]
        head += self.unsigned(self.code) + self.number_of(self.data) + self.column(version)
        if letters[:1] == "z":
            data = self.data_of(written[1:])
            head += self.unsigned(len(data) + (self.slips() and 9)) + data
        head += self.first_rule()
        return Common(head + self.program(), self.code, self.data, self.cfa, letters, self.encoding)

    def first_rule(self):
        if self.chance(0.1):
            self.cfa = "register"
            return b"\x0d" + self.register()
        return self.cfa_rule() if self.chance(0.7) else b""

    def described(self, which, common, low, high):
        self.code, self.data, self.cfa, self.encoding = common.code, common.data, common.cfa, common.encoding
        self.common, self.saved, self.at, self.end = False, [], low, high
        self.marks += [low, high, low + self.random.randrange(max(high - low, 1)), min(high, low + 4)]
        count = high - low
        if self.slips() and self.chance(0.3):
            count = self.random.choice([self.top - low, self.top - low + 1, count + 1, -1, self.number()])
        data = b""
        if common.letters[:1] == "z":
            held = bytes(self.random.choice([0, 0, 0, 4, 8]))
            data = self.unsigned(len(held) + (self.slips() and 99)) + held
        return Described(which, low, count, data, self.program())

    def encoded(self, number, encoding):
        """A number, as the low four bits of the encoding say. It is cut off if it doesn't fit."""
        low = encoding & 0xf
        if low == 0x1:
            return self.unsigned(number % (self.top + 1))
        if low == 0x9:
            half = (self.top + 1) // 2
            return self.number_of((number + half) % (self.top + 1) - half)
        return self.fixed(number, FIXED.get(low) or self.size)

    def address_at(self, address, encoding, place):
        if encoding == ALIGNED:
            return bytes(-(self.bases.section + place) % self.size) + self.fixed(address, self.size)
        known = {FROM_PLACE: self.bases.section + place, FROM_TEXT: self.bases.text, FROM_DATA: self.bases.data}
        return self.encoded(address - (known.get(encoding & 0xf0, 0) or 0), encoding)

    # The section.

    def head(self, length, wide):
        if self.slips() and self.chance(0.1):
            length = self.random.choice([0xfffffff0 + self.random.randrange(16), length + 1, length - 1, 0, 0xffffffff])
        return (b"\xff\xff\xff\xff" if wide == 8 else b"") + self.fixed(length, wide)

    def put_cie(self, out, common, starts):
        starts.append(len(out))
        out += self.record(self.random.choice([4, 4, 8]), bytes(4) + common.held)

    def record(self, wide, held):
        return self.head(len(held), wide) + held

    def put_fde(self, out, described, common, start):
        wide = self.random.choice([4, 4, 8])
        place = len(out) + (12 if wide == 8 else 4)
        back = place - start
        if self.slips() and self.chance(0.3):
            back = self.random.choice([0, 1, back + 1, back - 4, 4 if wide == 4 else 12, place, place + 1, -8, 0x8000_0000])
        held = self.address_at(described.start, common.encoding, place + 4)
        held += self.encoded(described.count, common.encoding) + described.data + described.program
        out += self.record(wide, self.fixed(back, 4) + held)

    def put_nothing(self, out):
        out += self.random.choice([bytes(4), bytes(4), b"\xff" * 4 + bytes(8)])

    def section(self):
        """A section whose CIEs come before their FDEs, unless by mistake."""
        commons = [self.cie() for _ in range(self.random.choice([1, 1, 1, 2, 3]))]
        fdes = []
        for low, high in self.ranges(self.random.choice([0, 1, 1, 1, 2, 2, 2, 3, 4, 12])):
            which = self.random.randrange(len(commons))
            fdes.append(self.described(which, commons[which], low, high))
        if fdes and self.chance(0.08):
            fdes.insert(self.random.randrange(len(fdes) + 1), self.copied(self.random.choice(fdes)))
        return self.changed(self.laid(commons, fdes)) or b""

    def copied(self, described):
        """A copy of an FDE, or something similar."""
        if self.chance(0.7):
            return described
        return self.random.choice([
            described._replace(count=described.count + 1), described._replace(program=described.program + b"\0"),
            described._replace(which=0), described._replace(data=b"\x01\x00" if described.data else b""),
        ])

    def laid(self, commons, fdes):
        out, starts = bytearray(), [[] for _ in commons]
        for described in fdes:
            which = described.which
            if not starts[which] or self.chance(0.05):
                if self.slips() and self.chance(0.2):
                    starts[which].append(len(out) + 0x40)
                else:
                    self.put_cie(out, commons[which], starts[which])
            if self.chance(0.03):
                self.put_nothing(out)
            self.put_fde(out, described, commons[which], self.random.choice(starts[which]))
        for common, found in zip(commons, starts):
            if not found:
                self.put_cie(out, common, found)
        if self.chance(0.3):
            self.put_nothing(out)
        return out

    def case(self):
        section = self.section()
        return Case(section, self.bases, self.address(), self.big, self.size, self.is_aarch64)
