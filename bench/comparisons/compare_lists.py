#!/usr/bin/env python3
"""Runs `dwcheck locs` on random sections of location lists, and compares its output with what the
model bench/models/list_model.py gives. The addresses to look up and the state files are random too.

    bench/comparisons/compare_lists.py DWCHECK COUNT [SEED]        1,000 cases take at most 25 s

Most sections pass the check. In some, a byte is changed, and some are cut short.
"""
import with_models  # noqa: F401
from compare_expressions import Maker
from comparing import Case, Run, compare, refusal
from list_model import answer


class ListMaker(Maker):
    def start(self, target=None):
        super().start(target)
        self.kind = "location"
        self.near, self.starts, self.marks = 0x1000, [], [0, 1, (1 << 8 * self.size) - 1]

    def bounds(self):
        """The bounds of a range: two addresses near each other. The second is rarely below the
        first."""
        if self.random.random() < 0.2:
            self.near = self.random.choice([0, 0x1000, 0x7fffffff, (1 << 8 * self.size) - 0x20])
        low = self.near + self.random.randrange(0x18)
        high = max(low + self.random.randrange(-1 if self.random.random() < 0.02 else 0, 0x18), 0)
        top = (1 << 8 * self.size) - 1
        low, high = min(low, top), min(high, top)
        self.marks += [low, high]
        return low, high

    def counted(self):
        expression = self.good() if self.random.random() < 0.995 else self.expression()
        return self.unsigned(len(expression)) + expression

    def entry(self):
        low, high = self.bounds()
        kind = self.random.randrange(10)
        if kind < 4:
            return b"\x04" + self.unsigned(low) + self.unsigned(high) + self.counted()
        if kind < 6:
            return b"\x07" + self.fixed(low, self.size) + self.fixed(high, self.size) + self.counted()
        if kind < 8:
            return b"\x08" + self.fixed(low, self.size) + self.unsigned(high - low if high > low else 0) + self.counted()
        return b"\x06" + self.fixed(low, self.size)

    def list(self):
        entries = [self.entry() for _ in range(self.random.randrange(6))]
        for _ in range(self.random.choices([0, 1, 2], weights=[60, 39, 1])[0]):
            entries.insert(self.random.randrange(len(entries) + 1), b"\x05" + self.counted())
        return b"".join(entries) + (b"" if self.random.random() < 0.005 else b"\x00")

    def table(self, at):
        """A table of location lists for offset `at` of the section, in the 32-bit or 64-bit
        format."""
        wide = self.random.choice([4, 4, 8])
        lists = [self.list() for _ in range(self.random.randrange(1, 4) if self.random.random() < 0.9 else 0)]
        count = self.random.randrange(3) if lists else 0
        array = at + (12 if wide == 8 else 4) + 8
        starts, place = [], array + count * wide
        for made in lists:
            starts.append(place)
            place += len(made)
        self.starts += starts
        wrong = self.random.random() < 0.01
        offsets = [self.fixed(self.random.choice(starts) - array + wrong, wide) for _ in range(count)]
        head = self.fixed(5, 2) + bytes([self.size, 0]) + self.fixed(count, 4)
        body = head + b"".join(offsets) + b"".join(lists)
        return (b"\xff\xff\xff\xff" if wide == 8 else b"") + self.fixed(len(body), wide) + body

    def section(self):
        out = b""
        for _ in range(self.random.randrange(1, 4)):
            out += self.table(len(out))
        chance = self.random.random()
        if out and chance < 0.1:
            at = self.random.randrange(len(out))
            out = out[:at] + bytes([self.random.choice([0, 1, 4, 5, 6, 7, 8, 0xff, self.random.getrandbits(8)])]) + out[at + 1:]
        elif chance < 0.14:
            out = out[:self.random.randrange(len(out) + 1)]
        return out

    def query(self):
        """What to look up: the offset of a list, a base address, and an address, to which mostly
        an expression of the list applies."""
        top = (1 << 8 * self.size) - 1
        base = self.random.choice([0, 0, 0x1000, top - 0x10, top])
        address = self.random.choice(self.marks) + self.random.choice([0, base, base]) + self.random.randrange(-1, 3)
        offset = self.random.choice(self.starts) if self.starts else 12
        if self.random.random() < 0.05:
            offset += self.random.choice([-1, 1, 4, 1 << 20])
        return max(offset, 0), base, min(max(address, 0), top)


def kind_of(text):
    if text.startswith("expr"):
        return f"{sum(line.startswith('expr') for line in text.splitlines())} that hold"
    return refusal(text) or text.strip()


def case(maker):
    section, (state, lines) = maker.section(), maker.state()
    query = maker.query()
    wanted = answer(section, *query, maker.big, maker.size, state)
    words = ["locs", "l", *map(hex, query), "--state", "s"]
    run = Run(f"{section.hex()} at {query}, {lines!r}", words, wanted)
    return Case({"l": section, "s": lines.encode()}, [run], [kind_of(wanted)])


if __name__ == "__main__":
    compare(__doc__, ListMaker, case)
