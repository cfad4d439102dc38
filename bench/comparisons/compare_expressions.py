#!/usr/bin/env python3
"""Runs `dwcheck eval` on random expressions and state files, and compares its output with what the
model bench/models/expression_model.py gives.

    bench/comparisons/compare_expressions.py DWCHECK COUNT [SEED]        1,000 cases take at most 15 s

Most expressions are made to pass the check and have branches. The others are operations and bytes
in random order.
"""
import random

import with_models  # noqa: F401
from comparing import Case, Run, compare, refusal
from expression_model import answer

BINARY = bytes([0x1a, 0x1b, 0x1c, 0x1d, 0x1e, 0x21, 0x22, 0x24, 0x25, 0x26, 0x27, 0x29, 0x2a, 0x2b, 0x2c, 0x2d, 0x2e])
EDGES = [0, 1, 2, 7, 31, 32, 63, 64, 127, 128, 255, 0x1000, 0x7fffffff, 0x80000000, 0xffffffff, 1 << 32,
         (1 << 63) - 1, 1 << 63, (1 << 64) - 1]


class Maker:
    def __init__(self, seed):
        self.random = random.Random(seed)

    def start(self, target=None):
        """Chooses at random what the next expression is used for, and the byte order and address
        size, unless `target` gives these two."""
        drawn = self.random.random() < 0.3, self.random.choice([4, 8])
        self.big, self.size = target or drawn
        self.kind = self.random.choice(["cfa", "register", "location", "location"])

    def number(self):
        return self.random.choice([*EDGES, self.random.getrandbits(16), self.random.getrandbits(64)])

    def unsigned(self, value):
        out = bytearray()
        while value >= 0x80:
            out.append(value & 0x7f | 0x80)
            value >>= 7
        return bytes(out) + bytes([value])

    def signed(self):
        value = self.number() - (1 << 64) if self.random.random() < 0.5 else self.number() >> 1
        value = max(value, -1 << 63)
        out = bytearray()
        while not -0x40 <= value < 0x40:
            out.append(value & 0x7f | 0x80)
            value >>= 7
        return bytes(out) + bytes([value & 0x7f])

    def fixed(self, value, count):
        return (value % (1 << 8 * count)).to_bytes(count, "big" if self.big else "little")

    def push(self):
        """An operation that takes nothing from the stack and pushes one entry."""
        width = self.random.choice([1, 2, 4, 8])
        shapes = [
            bytes([0x30 + self.random.randrange(32)]),
            b"\x03" + self.fixed(self.number(), self.size),
            bytes([6 + 2 * width.bit_length() + self.random.randrange(2)]) + self.fixed(self.number(), width),
            b"\x10" + self.unsigned(self.number()),
            b"\x11" + self.signed(),
            bytes([0x70 + self.random.randrange(4)]) + self.signed(),
            b"\x92" + self.unsigned(self.random.randrange(5)) + self.signed(),
        ]
        if self.kind == "location":
            shapes += [b"\x9c", b"\x97", b"\x91" + self.signed()]
        return self.random.choice(shapes)

    def any(self):
        """Any operation, or any byte."""
        jump = self.random.randrange(-4, 20)
        return self.random.choice([
            self.push(), self.push(), self.push(), bytes([self.random.choice(BINARY)]), b"\x06", b"\x96", b"\x9f",
            bytes([0x12 + self.random.randrange(6)]), b"\x94" + bytes([self.random.choice([1, 2, 3, 4, 8])]),
            bytes([self.random.choice([0x28, 0x2f])]) + self.fixed(jump, 2), b"\x93" + self.unsigned(self.number()),
            b"\x9d" + self.unsigned(self.number()) + self.unsigned(8), bytes([0x50 + self.random.randrange(32)]),
            b"\x90" + self.unsigned(self.number()), b"\x9e\x02\xca\xfe", bytes([self.random.getrandbits(8)]),
        ])

    def one(self):
        """Operations that together push one entry, and need nothing on the stack before."""
        parts = [b"\x1f", b"\x20", b"\x19", b"\x96", b"\x12\x22", b"\x12\x1e", b"\x31\x24", b"\x23\x7f"]
        return self.push() + b"".join(self.random.choices(parts, k=self.random.randrange(3)))

    def read(self):
        """Operations that replace the top entry by one that is read from memory, mostly at an
        address at which state() may put memory."""
        if self.random.random() < 0.1:
            return b"\x06"
        address = self.random.choice([b"\x30", b"\x31", b"\x37", b"\x4f", b"\x0a" + self.fixed(0x1000, 2)])
        return b"\x13" + address + self.random.choice([b"\x94\x01", b"\x94\x02", b"\x94\x04"])

    def diamond(self):
        """A branch whose two paths meet again. Each path pushes one entry."""
        way, other = self.one(), self.one()
        way += b"\x2f" + self.fixed(len(other), 2)
        condition = bytes([0x30 + self.random.randrange(2)])
        return condition + b"\x28" + self.fixed(len(way), 2) + way + other

    def good(self):
        """An expression that passes the check, unless its stack grows too high."""
        height = int(self.kind == "register")
        out = b""
        for _ in range(self.random.randrange(1, 16)):
            if height >= 2 and self.random.random() < 0.5:
                out, height = out + bytes([self.random.choice(BINARY)]), height - 1
            elif height >= 1 and self.random.random() < 0.3:
                out += self.random.choice([self.read(), b"\x16" * (height > 1), b"\x19", b"\x1f", b"\x20", b"\x23\x05"])
            else:
                out, height = out + self.random.choice([self.one, self.diamond])(), height + 1
        if height == 0:
            out, height = out + self.one(), 1
        return out + (self.place(height) if self.kind == "location" else b"")

    def place(self, height):
        """Operations to append to an expression that leaves `height` entries, so that it gives a
        location."""
        if self.random.random() < 0.5:
            return self.random.choice([b"", b"\x9f"])
        out = b"\x13" * (height - 1) + self.random.choice([b"", b"\x9f"]) + b"\x93\x04"
        for _ in range(self.random.randrange(4)):
            out += self.random.choice([b"", b"\x53", b"\x90\x81\x01", b"\x9e\x01\xff", self.one(), self.one() + b"\x9f"])
            out += self.random.choice([b"\x93\x08", b"\x9d\x07\x03"])
        return out

    def expression(self):
        if self.random.random() < 0.7:
            return self.good()
        out = b"".join(self.any() for _ in range(self.random.randrange(12)))
        return out[:self.random.randrange(len(out) + 1)] if self.random.random() < 0.2 else out

    def state(self):
        """Random registers, memory and context values, as the model takes them, and the text of the
        state file that gives them."""
        top = 1 << 8 * self.size
        state = {"reg": {}, "mem": {}, "cfa": None, "frame": None, "object": None}
        lines = []
        for number in self.random.choices(range(4), k=5):
            value = self.number() % top
            state["reg"].setdefault(number, value)
            lines.append(f"reg {number} {value:#x}")
        for name in ["cfa", "frame", "object"]:
            if self.random.random() < 0.8:
                state[name] = self.number() % top
                lines.append(f"{name} {state[name]:#x}")
        for _ in range(3):
            address = self.random.choice([0, 1, 7, 31, 0x1000, top - 8, top - 1])
            held = bytes(self.random.getrandbits(8) for _ in range(min(self.random.randrange(1, 12), top - address)))
            for i, byte in enumerate(held):
                state["mem"].setdefault(address + i, byte)
            lines.append(f"mem {address:#x} {held.hex()}")
        return state, "\n".join(lines)


def case(maker):
    expression, (state, lines) = maker.expression(), maker.state()
    wanted = answer(expression, maker.kind, maker.big, maker.size, state)
    run = Run(f"{expression.hex()} as {maker.kind}, {lines!r}", ["eval", maker.kind, "e", "--state", "s"], wanted)
    return Case({"e": expression, "s": lines.encode()}, [run], [refusal(wanted) or wanted.split()[0]])


if __name__ == "__main__":
    compare(__doc__, Maker, case)
