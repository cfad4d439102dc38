"""Makes random processes of one to five modules, each with registers and memory such that walks go
from one module to another.

All modules of a process have the same byte order and address size, and use the same few registers.
By their load addresses they are apart, overlap, follow one another without a gap, run past the
highest address, or are anywhere. Some sections are empty, cover no address, or are refused, and
some modules have the same section.
"""
import with_models  # noqa: F401
from module_model import rows_in_modules
from walk_maker import WalkMaker
from walks import BAD_ADDRESSES


class Module:
    """A section and its load address, and how both are passed to dwcheck: the name and contents of
    the section's file, and the word for the load address."""

    def __init__(self, section, load, name):
        self.section, self.load, self.name = section, load, name
        self.written, self.load_word = section, hex(load)
        self.is_good_load, self.is_hex, self.is_spoilt, self.is_missing = True, False, False, False


class ModuleMaker(WalkMaker):
    def start(self):
        super().start()
        self.slip, self.is_good, self.covers_nothing = 0, True, False
        self.is_apart, self.loads = self.chance(0.5), [0]

    # The sections.

    def ranges(self, count):
        ranges = super().ranges(count)
        if self.covers_nothing:
            return [(low, low) for low, _ in self.random.sample(ranges, self.random.randrange(len(ranges) + 1))]
        return ranges

    def block(self, kind):
        """An expression. Now and then it has a DW_OP_addr that pushes an address on the stack, or a
        number to add to a register."""
        if not self.chance(0.1):
            return super().block(kind)
        breg = bytes([0x70 + self.random.choice([self.pointer, self.based])]) + bytes([self.size * self.random.randrange(1, 7)])
        near, step = b"\x03" + self.fixed(self.near, self.size), b"\x03" + self.fixed(self.size * self.random.randrange(5), self.size)
        held = [near, breg + step + b"\x22", near + b"\x06"] + [step + b"\x22", near + b"\x22"] * (kind == "register")
        return self.counted(self.random.choice(held))

    def one_section(self):
        if self.chance(0.04):
            return b""
        if self.chance(0.15):
            self.returns = self.random.choice([16, 16, 14, 30, 31, 65, 8, self.pool[5]])
        self.covers_nothing = self.chance(0.04)
        self.slip = 0.05 if self.chance(0.01) else 0
        self.is_good = self.slip == 0
        section = self.section()
        self.slip, self.is_good, self.covers_nothing = 0, True, False
        return section

    # The load addresses.

    def spans(self):
        """The ranges of the FDEs of the section that was made last, without empty ranges. If there
        are none, a range that stands for them."""
        made = [pair for pair in self.made if pair[0] < pair[1]]
        return made or [(0x1000, 0x1010)]

    def process(self):
        """A process: a list of modules. The section of the first is dwcheck's argument FRAME."""
        process, spans = [], []
        count = self.random.choice([1, 1, 2, 2, 2, 3, 3, 4, 5])
        for number in range(count):
            if process and self.chance(0.08):
                again = self.random.randrange(number)
                section, name, span = process[again].section, process[again].name, spans[again]
            else:
                self.made = []
                section, name = self.one_section(), self.random.choice([f"m{number}", f"m{number}", f"m={number}"])
                span = self.spans()
            load = self.load(number, count, span, process, spans) % (self.top + 1)
            process.append(Module(section, load, name))
            spans.append(span)
        self.loads = [module.load for module in process]
        return process

    def fde(self, known, start, end):
        self.made.append((start, end))
        return super().fde(known, start, end)

    def load(self, number, count, span, process, spans):
        """A load address, not yet modulo 2^w, for module `number` of `count`, whose FDEs have the
        ranges `span`. `process` has the modules made before, and `spans` the ranges of each."""
        low, high = self.random.choice(span)
        if self.is_apart:
            part = (self.top + 1) // count
            room = max(part - (max(end for _, end in span) - min(start for start, _ in span)), 1)
            return part * number - min(start for start, _ in span) + self.random.choice([0, 0x1000 % room, self.random.randrange(room)])
        kinds = ["zero", "page", "any", "through"] + ["same", "over", "over", "beside", "beside"] * bool(process)
        kind = self.random.choice(kinds)
        if kind == "zero":
            return 0
        if kind == "page":
            return self.random.randrange((self.top + 1) >> 12) << 12
        if kind == "any":
            return self.random.randrange(self.top + 1)
        if kind == "through":
            return -self.random.choice([low, low + 1, high - 1, high, self.random.randrange(low, high)])
        at = self.random.randrange(number)
        if kind == "same":
            return process[at].load
        their_low, their_high = self.random.choice(spans[at])
        if kind == "over":
            return process[at].load + self.random.randrange(their_low, their_high) - self.random.randrange(low, high)
        return process[at].load + self.random.choice([their_high - low, their_low - high])

    # The walk.

    def dream_in(self, modules):
        """The address, registers and memory of a walk through modules. Each module is a pair: its
        FDEs as the model found them, and its load address."""
        rows = [[(low + load, high + load) for *_, rows in found for low, high, *_ in rows] for found, load in modules]
        return self.dream([some for some in rows if some], rows_in_modules(modules, self.size))

    def inside(self, beyond):
        """A random address in a row of any module, plus `beyond`."""
        low, high = self.random.choice(self.random.choice(self.rows))
        return (self.random.choice([low, high - 1, self.random.randrange(low, high)]) + beyond) % (self.top + 1)

    def address(self):
        return (super().address() + self.random.choice(self.loads)) % (self.top + 1)

    # How the walk is passed to dwcheck.

    def hex_text(self, section):
        digits = "".join(self.random.choice([f"{byte:02x}", f"{byte:02X}"]) for byte in section)
        gap = self.random.choice(["", " ", "\n", "\t", "\r\n"])
        at = self.random.randrange(len(digits) + 1)
        return (digits[:at] + gap + digits[at:] + self.random.choice(["", "\n"])).encode()

    def spoilt(self, text):
        at = self.random.randrange(len(text) + 1)
        return text[:at] + self.random.choice([b"0", b"g", b"0g", b"0x", b"\x00", b"\xff"]) + text[at:]

    def dress(self, process):
        """Chooses the words for the load addresses, and in some processes writes the sections as
        hex text. Some words and texts are made wrong, and some files are to be missing."""
        is_hex, is_odd = self.chance(0.1), self.chance(0.03)
        texts = {module.name: self.hex_text(module.section) for module in process}
        spoilt = {name: self.spoilt(text) for name, text in texts.items() if is_hex and self.chance(0.05)}
        missing = {name for name in texts if is_odd and self.chance(0.1)}
        for module in process:
            word = f"{module.load:#0{self.random.choice([3, 3, 18])}x}"
            module.load_word = "0x" + word[2:].upper() if self.chance(0.1) else word
            if is_odd and self.chance(0.1):
                module.is_good_load, module.load_word = False, self.random.choice([*BAD_ADDRESSES, hex(self.top + 1)])
            module.is_hex, module.is_spoilt, module.is_missing = is_hex, module.name in spoilt, module.name in missing
            if is_hex:
                module.written = spoilt.get(module.name, texts[module.name])
