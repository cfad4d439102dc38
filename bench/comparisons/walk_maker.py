"""Makes random frame sections, and for each a state file with which a walk has several frames.

The section is made first. Then the model walks, with registers and memory that have no contents at
first. Whenever the walk needs a register or a word of memory that has no content yet, a content is
chosen with which the walk continues, until it has enough frames. At the end the contents are
written to a state file; now and then some are left out or changed.
"""
import with_models  # noqa: F401
from compare_pairs import PairMaker
from pair_model import MAX_KEPT, Caller

BAD_LINES = [
    "keep 65536", "keep 000006", "keep 0x6", "keep  6", "keep", "keep ", "keep -1", "keep 6 7", "sp 65536", "sp 000007", "sp 7 ", "sp",
    "Sp 7", "sp 7 0x7f00", "reg 65536 0x1", "mem 0x10 abc",
]


class Dreamt(dict):
    """The contents of registers by number, or of memory by address. When a register or an address
    is looked up for the first time, `make` chooses its content. None means that it isn't known."""

    def __init__(self, make):
        super().__init__()
        self.make = make

    def __contains__(self, key):
        return self.get(key) is not None

    def get(self, key, default=None):
        if not super().__contains__(key):
            self.make(self, key)
        return super().get(key, default)


class WalkMaker(PairMaker):
    """Makes sections, addresses and state files. Each case uses few registers, so that different
    rules often use the same register."""

    def start(self):
        super().start()
        self.slip = 0 if self.chance(0.97) else 0.01
        self.is_good, self.many = self.slip == 0, self.chance(0.02)
        self.pool = self.random.sample([0, 1, 2, 3, 4, 5, 6, 7, 12, 29, 31], 6)
        self.returns = self.random.choice([16, 16, 14, 30, 31, 65, 8, self.pool[5]])
        self.pointer, self.based, self.third = self.pool[:3]
        self.near = self.random.choice([0x7f00, 0x7ffe0000, 0x7f00, 0x400, self.top - 0x1000])
        self.kept, self.stack_pointer = self.names()

    # The section.

    def factors(self):
        return self.random.choice([1, 1, 2, 4]), self.random.choice([-self.size, -self.size, -4, -1, 1, self.size])

    def column(self, version):
        return bytes([self.returns]) if version == 1 else self.unsigned(self.returns)

    def register(self):
        return self.unsigned(self.random.choice([*self.pool, *self.pool, self.returns, 300]))

    def small(self, sign):
        """A factored offset that leads from the CFA to a word near it, mostly below the CFA if
        `sign` is -1, or above it if `sign` is 1."""
        offset = sign * self.size * self.random.choice([1, 1, 2, 2, 3, 4, 6]) + (self.random.randrange(-4, 4) if self.chance(0.05) else 0)
        return offset // self.data

    def offset(self, packed, register):
        """An instruction that gives a register the rule "saved at CFA + offset" (if `packed` is
        0x80) or "is CFA + offset" (if it is 0x14), with a small offset."""
        value = self.small(-1 if self.chance(0.85) else 1)
        if packed == 0x80 and register < 64 and value >= 0 and self.chance(0.8):
            return bytes([0x80 + register]) + self.unsigned(value)
        signed = value < 0 or self.chance(0.3)
        code = {0x80: (0x05, 0x11), 0x14: (0x14, 0x15)}[packed][signed]
        return bytes([code]) + self.unsigned(register) + (self.number_of(value) if signed else self.unsigned(value))

    def rule_of(self, register, kind):
        if kind in ("offset", "val_offset"):
            return self.offset(0x80 if kind == "offset" else 0x14, register)
        if kind in ("expression", "val_expression"):
            return bytes([0x10 if kind == "expression" else 0x16]) + self.unsigned(register) + self.block("register")
        code = {"undefined": 0x07, "same_value": 0x08, "register": 0x09}[kind]
        return bytes([code]) + self.unsigned(register) + (self.register() if code == 0x09 else b"")

    def rule(self):
        """An instruction that gives a rule to one of the registers in use. The return address
        register and the first three of self.pool are mostly saved on the stack."""
        register = self.random.choice([*self.pool[1:], self.based, self.returns, 300 if self.chance(0.2) else self.third])
        if register in (self.returns, *self.pool[:3]) and self.chance(0.9):
            return self.rule_of(register, "offset")
        kinds = ["offset", "val_offset", "register", "same_value", "undefined", "expression", "val_expression"]
        return self.rule_of(register, self.random.choices(kinds, [6, 3, 2, 3, 1, 3, 2])[0])

    def rules(self):
        """Instructions that give rules to 128 registers, as many as are allowed, including all that
        are in use."""
        few = {*self.pool, self.returns, 300}
        numbers = [number for number in range(self.random.choice([0, 1000]), 1200) if number not in few][:128 - len(few)]
        kinds = ["same_value", "undefined", "val_offset"]
        return b"".join(self.rule_of(number, self.random.choice(kinds)) for number in numbers) + b"".join(
            self.rule_of(number, "offset" if number in (self.returns, self.based) else "val_offset") for number in few)

    def cfa_rule(self):
        if self.chance(0.15):
            self.cfa = "expression"
            return b"\x0f" + self.block("cfa")
        register, count = self.random.choice([self.pointer, self.pointer, self.based, self.third]), self.size * self.random.randrange(1, 9)
        kind = self.random.choice([0x0c, 0x0c, 0x12, 0x0e, 0x0d] if self.cfa == "register" else [0x0c])
        self.cfa = "register"
        saved = self.rule_of(register, "offset") if register != self.pointer and self.chance(0.7) else b""
        return self.cfa_register(kind, register, count) + saved

    def cfa_register(self, kind, register, count):
        """An instruction that sets the register and the offset of the CFA's rule, or only one of
        them."""
        if kind == 0x12 and count % self.data == 0:
            return b"\x12" + self.unsigned(register) + self.number_of(count // self.data)
        if kind in (0x0d, 0x0e):
            return bytes([kind]) + self.unsigned(register if kind == 0x0d else count)
        return b"\x0c" + self.unsigned(register) + self.unsigned(count)

    def block(self, kind):
        """An expression that uses the registers in use; or now and then one that PairMaker
        makes."""
        if self.chance(0.08):
            return super().block(kind)
        breg = bytes([0x70 + self.random.choice(self.pool)]) + self.number_of(self.size * self.random.randrange(-2, 8))
        pointer = bytes([0x70 + self.random.choice([self.pointer, self.based])]) + bytes([self.size * self.random.randrange(1, 7)])
        step = b"\x23" + bytes([self.size * self.random.randrange(5)])
        either = b"\x31\x1a\x28" + self.fixed(2, 2) + b"\x23" + bytes([self.size]) + b"\x96"
        quotient = breg + breg[:1] + b"\x00" + self.random.choice([b"\x1b", b"\x1d"])
        if kind == "cfa":
            held = [pointer, pointer, pointer + step, pointer + b"\x06", pointer + b"\x06" + step, pointer + breg + either]
        else:
            held = [b"", step, b"\x38\x1c", b"\x40\x1c\x06", b"\x38\x1c\x06", pointer, breg, breg + b"\x06", b"\x12" + breg + either]
        odd = [breg + b"\x30\x1b", quotient, b"\x31" + b"\x12\x30\x1d"]
        return self.counted(self.random.choice(odd if self.chance(0.05) else held))

    def counted(self, held):
        return self.unsigned(len(held)) + held

    def program(self):
        """A program. That of a CIE mostly begins with the CFA's rule, a rule for the return address
        register, and rules for the first three registers of self.pool."""
        out = b""
        if self.common:
            out += self.cfa_rule() if self.cfa is None and self.chance(0.95) else b""
            out += self.rule_of(self.returns, "offset" if self.chance(0.97) else "register") if self.chance(0.95) else b""
            for register in self.pool[:3]:
                if register not in (*self.kept, self.stack_pointer) and self.chance(0.9):
                    out += self.rule_of(register, self.random.choice(["val_offset"] * 3 + ["offset"] * 3 + ["same_value"]))
        return out + super().program()

    def ranges(self, count):
        """Ranges for FDEs. Mostly at least one isn't empty."""
        ranges = super().ranges(count)
        while self.chance(0.97) and not any(low < high for low, high in ranges):
            ranges = super().ranges(self.random.randrange(1, 7))
        return ranges

    # The walk.

    def names(self):
        """A random ABI: its callee-saved registers, and its stack pointer or None."""
        kind = self.random.choice(["whole", "whole", "whole", "no pointer", "none", "odd"])
        kept = [register for register in self.pool[1:] if self.chance(0.8)] + [self.returns] * self.chance(0.4)
        if kind == "odd" or self.many:
            held = self.random.choice([range(140), range(140), range(2000, 2200)])
            return self.random.sample(held, self.random.choice([1, 20, MAX_KEPT - 1, MAX_KEPT])), self.random.choice([None, 300, 65535])
        pointer = self.pointer if kind == "whole" else None
        return list(dict.fromkeys(register for register in kept if register != pointer)) * (kind != "none"), pointer

    def dream(self, ranges, find):
        """The address, registers and memory of a walk of up to 40 frames. `ranges` are the ranges
        of all rows, and find(address) returns the CIE and the row of an address, or None."""
        self.rows = ranges
        address = start = self.inside(0) if self.rows and self.chance(0.97) else self.random.choice([0, 1, self.top, self.address()])
        contents, memory = Dreamt(self.new_register), Dreamt(self.new_word)
        first, fuel = contents, self.random.choice([0, 1, 2, 3, 5, 8, 13, 20, 30, 39])
        for number in range(fuel + 1):
            place = find(address - (number > 0))
            if place is None:
                break
            address, contents = self.onward(place, contents, memory, "end" if number == fuel else "return")
            if address is None:
                break
        return start, first, memory

    def onward(self, place, contents, memory, purpose):
        """The return address of a frame, or None if it can't be found, and the registers of its
        caller. `place` is the CIE and the row of the frame. `purpose` says what the content of the
        return address is chosen for (see content())."""
        common, row = place
        state = {"reg": contents, "mem": memory, "keep": self.kept, "sp": self.stack_pointer}
        self.purpose = "stack"
        caller = Caller(row, state, self.big, self.size)
        self.purpose = purpose
        returns = caller.answer(common["return"])
        self.purpose = "stack"
        answers = {register: caller.answer(register) for register in caller.named()}
        held = {register: answer for register, answer in answers.items() if not isinstance(answer, str)}
        return None if isinstance(returns, str) else returns, held

    def inside(self, beyond):
        """A random address in a row, plus `beyond`."""
        low, high = self.random.choice(self.rows)
        return self.random.choice([low, high - 1, self.random.randrange(low, high)]) + beyond

    def place(self):
        """An address on the stack, mostly above all those that were used before."""
        if self.chance(0.95):
            self.near = min(self.near + self.size * self.random.choice([1, 2, 4, 8]), self.top - 0x10)
        return self.near

    def content(self):
        """A content for a register or a word of memory. self.purpose says what it is for: "return"
        (a return address), "stack" (mostly an address on the stack), or "end" (such that the walk
        probably ends). None means that it isn't known."""
        if self.purpose == "end" or self.chance(0.01):
            return self.random.choice([None, None, 0, self.top, self.number() % (self.top + 1)])
        if self.purpose == "return" and self.rows:
            return self.inside(1 if self.chance(0.97) else 0)
        return self.place() if self.chance(0.97) else self.random.choice([0, self.number() % (self.top + 1)])

    def new_register(self, contents, register):
        contents[register] = self.content()

    def new_word(self, memory, address):
        content = self.content()
        if self.near <= address < self.near + 0x400:
            self.near = min(address + self.size, self.top - 0x10)
        held = [None] * self.size if content is None else self.fixed(content, self.size)
        for i, byte in enumerate(held):
            memory.setdefault(address + i, byte)

    # The state file.

    def memory_lines(self, memory):
        """Lines of the state file that give the memory: one for each run of consecutive bytes.
        Now and then a run is split into several lines."""
        lines, run, start = [], b"", 0
        for address in sorted(address for address, byte in memory.items() if byte is not None and address <= self.top):
            if run and (address != start + len(run) or self.chance(0.03)):
                lines.append(f"mem {start:#x} {run.hex()}")
                run = b""
            start = start if run else address
            run += bytes([memory[address]])
        return lines + [f"mem {start:#x} {run.hex()}"] * bool(run)

    def naming_lines(self):
        """Lines of the state file that give the ABI. Now and then some registers are named twice as
        callee-saved, or a later line names another stack pointer; neither changes the ABI."""
        kept = [f"keep {register}" for register in self.kept]
        again = self.random.choices(kept, k=self.random.randrange(3)) if kept and self.chance(0.3) else []
        lines = kept + again
        self.random.shuffle(lines)
        if self.stack_pointer is not None:
            at = self.random.randrange(len(lines) + 1)
            lines.insert(at, f"sp {self.stack_pointer:0{self.random.randrange(1, 6)}}")
            if self.chance(0.2):
                lines.insert(self.random.randrange(at + 1, len(lines) + 1), f"sp {self.random.choice([*self.pool, self.stack_pointer])}")
        return lines

    def bad_lines(self):
        """Lines to add to the state file. Mostly one is malformed, contradicts the lines of the
        ABI, or names one callee-saved register too many."""
        clash = [f"sp {register}" for register in self.kept[:1]] + [f"keep {self.stack_pointer or 0}"]
        more = [f"keep {register}" for register in range(self.random.choice([200, 60000]), 65536)[:MAX_KEPT + 1 - len(self.kept)]]
        good = ["frame 0x10", "object 0x1", "", "cfa 0x7"]
        return self.random.choice([clash[:1], clash[-1:], more, more[1:], [self.random.choice(BAD_LINES)], good])

    def changed_lines(self, lines):
        """The lines, with a few left out. Often a line is added that gives another content to a
        register or an address for which there already is a line."""
        lines = [line for line in lines if not self.chance(0.02)]
        if lines and self.chance(0.5):
            name, place, *held = self.random.choice(lines).split()
            other = self.random.choice(lines).split()[-1].removeprefix("0x") * 2
            given = self.random.choice([other, "00" * 9]) if name == "mem" else hex(self.place())
            lines.append(f"{name} {place} {given}")
        return lines

    def state_file(self, contents, memory):
        held = [f"reg {register} {content:#x}" for register, content in contents.items() if content is not None]
        held += [f"reg {register} {self.beside(0, 0x40):#x}" for register in self.pool if self.chance(0.2)]
        held += self.memory_lines(memory)
        if self.chance(0.3):
            held = self.changed_lines(held)
        if self.chance(0.3):
            self.random.shuffle(held)
        lines = self.naming_lines()
        at = self.random.randrange(len(lines) + 1) if lines else 0
        lines = lines[:at] + held + lines[at:]
        if self.chance(0.05):
            for line in self.bad_lines():
                lines.insert(self.random.randrange(len(lines) + 1), line)
        return ("\n".join(lines) + "\n" * self.random.randrange(3)).encode()
