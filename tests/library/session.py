"""The calls of the C library that the cases make. A session has a process, the settings and the state of
one paragraph. Calls that python/dwcheck.py has are made through it, the others by ctypes."""
import ctypes as c

import dwcheck
from changes import Changes
from dwcheck import (_Answer, _Block, _Counts, _Fault, _Frame, _Module, _Record, _State, _fault_name, _library, _size,
                     _structure, _u16, _u32, _u64)
from notation import number_of

DONE, REFUSED, NONE, OVERLAPS = 0, 1, 7, 8
WITHIN = ("frame", "lists", "expression", "abi", "eh_frame")
KINDS = {"cfa": 0, "register": 1, "location": 2}
OUTCOMES = ("value", "unreadable", "division by zero", "nowhere", "address", "register", "value", "bytes", "pieces")
ANSWERS = ("not covered", "value", "undefined", "unreadable", "division by zero")

Loaded = _structure("Loaded", id=_u64, cookie=_u64, load_address=_u64, first=_u64, last=_u64)
Register = _structure("Register", value=_u64, kind=_u32, number=_u32)
Caller = _structure("Caller", cfa=_Answer, return_address=_Answer, count=_u64)
Context = _structure("Context", cfa=_u64, frame_base=_u64, object=_u64, has_cfa=_u32, has_frame_base=_u32, has_object=_u32,
                     reserved=_u32)
Value = _structure("Value", value=_u64, kind=_u32, offset=_u32, steps=_u32, count=_u32)
Lookup = _structure("Lookup", base=_u64, address=_u64, list=_u32, reserved=_u32)
Location = _structure("Location", offset=_u64, length=_u64)
Expression = _structure("Expression", offset=_u64, length=_u64, within=_u32, kind=_u32, operations=_u32, depth=_u32)


def refused(status, fault):
    """Why a call did nothing, as text."""
    if status == REFUSED:
        return f"{WITHIN[fault.within]} {fault.number} {_fault_name(fault.number)} {fault.offset}"
    return {3: "no room", 7: "none", 9: "no range"}.get(status) or _library.dwcheck_status_text(status).decode()


def signed(offset):
    return f"{offset:+d}"


def rule_text(rule):
    """The rule of a register, or of the CFA, as dwcheck writes it (docs/OUTPUT.md)."""
    if rule.kind == "expression":
        return f"[expr({rule.expression.hex()})]"
    if rule.kind == "val_expression":
        return f"expr({rule.expression.hex()})"
    if rule.kind == "register":
        return f"r{rule.register}"
    return {"undefined": "u", "same_value": "s", "offset": f"[c{signed(rule.offset)}]",
            "val_offset": f"c{signed(rule.offset)}"}.get(rule.kind, rule.kind)


def cfa_text(rule):
    return f"r{rule.register}{signed(rule.offset)}" if rule.kind == "val_offset" else rule_text(rule)


def answer_text(answer):
    return hex(answer.value) if answer.kind == 1 else ANSWERS[answer.kind].replace(" ", "_")


def record_text(record, at):
    """A record of C's struct as text."""
    bounds = f"{record.program}..{record.next}"
    signal = " signal" if record.is_signal_frame else ""
    if record.kind == 0:
        factors = f"{record.code_alignment_factor} {record.data_alignment_factor}"
        return f"{at} cie v{record.version} {factors} r{record.return_reg} {bounds}{signal}"
    if record.kind == 1:
        return f"{at} fde of {record.cie} {record.start:#x}..{record.end:#x} {bounds}{signal}"
    return f"{at} empty"


def progression(spans):
    """Spans as text; those that differ from the one before by the same numbers are counted."""
    texts, i = [], 0
    while i < len(spans):
        texts.append("{:#x}..{:#x} r{} {:+d}".format(*spans[i]))
        steps = [tuple(b - a for a, b in zip(one, other)) for one, other in zip(spans[i:], spans[i + 1:])]
        same = next((n for n, step in enumerate(steps) if step != steps[0]), len(steps))
        if same >= 2:
            texts.append(f"and {same} more by {' '.join(hex(step) for step in steps[0])}")
            i += same
        i += 1
    return ", ".join(texts) or "none"


class Session(Changes):
    """The process, the state and the settings of a paragraph."""

    def __init__(self):
        self.order, self.size, self.kind, self.bases = dwcheck.LITTLE, 8, 0, [0, 0, 0]
        self.opened, self.shared = None, None
        self.registers, self.blocks, self.kept, self.pointer = {}, [], [], None
        self.context, self.aarch64, self.leave_out = Context(), False, False

    def process(self):
        """The process, which has the target of the settings when it is first asked for."""
        if self.opened is None:
            self.opened = dwcheck.Process(self.order, self.size)
        return self.opened

    def handle(self):
        return c.byref(self.process()._handle)

    def setting(self, name, *words, known):
        """A line that is no case."""
        if name in ("big", "addr4", "aarch64"):
            self.order = dwcheck.BIG if name == "big" else self.order
            self.size = 4 if name == "addr4" else self.size
            self.aarch64 = self.aarch64 or name == "aarch64"
        elif name == "leave_out":
            self.leave_out = True
        elif name in ("eh", "text", "data"):
            self.bases[("eh", "text", "data").index(name)] = number_of(words[0])
            self.kind = 1
        elif name == "reg":
            self.registers[int(words[0])] = number_of(words[1])
        elif name == "mem":
            self.blocks.append((number_of(words[0]), known.of(" ".join(words[1:]))))
        elif name == "keep":
            self.kept += [int(word) for word in words]
        elif name == "sp":
            self.pointer = int(words[0])
        elif name in ("cfa", "frame_base", "object"):
            setattr(self.context, name, number_of(words[0]))
            setattr(self.context, f"has_{name}", 1)
        else:
            raise SystemExit(f"no setting: {name}")

    # ---- sections

    def module(self, section, load=0, first=None, last=None, cookie=0, room=dwcheck._NO_BOUND):
        """C's struct for a module with these bytes."""
        return _Module(frame=section, frame_length=len(section), load_address=load, has_range=first is not None, first=first or 0,
                       last=last or 0, cookie=cookie, room=room, order=self.order, address_size=self.size,
                       kind=(2 if self.kind and self.aarch64 else self.kind) + (4 if self.leave_out else 0), section_address=self.bases[0],
                       text_start=self.bases[1], data_start=self.bases[2])

    def fault_of(self, frame, lists):
        """The status of a check of two sections, and its fault."""
        fault = _Fault()
        return _library.dwcheck_check(frame, _size(len(frame)), lists, _size(len(lists)), self.order, self.size, c.byref(fault)), fault

    def call_check(self, known, frame, lists):
        status, fault = self.fault_of(known.of(frame), known.of(lists))
        return "accepted" if status == DONE else refused(status, fault)

    def call_contents(self, known, frame):
        counts, fault = _Counts(), _Fault()
        status = _library.dwcheck_module_check(c.byref(self.module(known.of(frame))), c.byref(counts), c.byref(fault))
        if status != DONE:
            return refused(status, fault)
        return f"cies {counts.cies} fdes {counts.fdes} rows {counts.rows} expressions {counts.frame_expressions}"

    def call_left_out(self, known, frame, most="64"):
        """How many records are left out, and the first ones, each with its offset and its fault."""
        count, fault, found = _size(), _Fault(), (dwcheck._LeftOut * int(most))()
        module = self.module(known.of(frame))
        status = _library.dwcheck_module_left_out(c.byref(module), found, _size(int(most)), c.byref(count), c.byref(fault))
        if status != DONE:
            return refused(status, fault)
        return ", ".join([str(count.value)] + [f"{one.offset} {refused(REFUSED, one.fault)}" for one in found[:count.value]])

    def record(self, section, at):
        """The record at an offset: the status, C's struct, and the fault."""
        record, fault = _Record(), _Fault()
        status = _library.dwcheck_record_at(c.byref(self.module(section)), _u64(at), c.byref(record), c.byref(fault))
        return status, record, fault

    def call_record(self, known, frame, at):
        status, record, fault = self.record(known.of(frame), number_of(at))
        return record_text(record, number_of(at)) if status == DONE else refused(status, fault)

    def records_of(self, section):
        """The texts of a section's records, and of the fault that ends them."""
        at = 0
        while True:
            status, record, fault = self.record(section, at)
            if status != DONE:
                return
            yield record_text(record, at)
            at = record.next

    def first_fault(self, section):
        """The fault of the first record that can't be read, or none."""
        at = 0
        while True:
            status, record, fault = self.record(section, at)
            if status == NONE:
                return "none"
            if status != DONE:
                return refused(status, fault)
            at = record.next

    def call_records(self, known, frame):
        section = known.of(frame)
        texts, fault = list(self.records_of(section)), self.first_fault(section)
        return ", ".join(texts + ([fault] if fault != "none" else [])) or "none"

    def call_prefixes(self, known, frame, first, last):
        section = known.of(frame)
        found = {self.first_fault(section[:length]) for length in range(int(first), int(last) + 1)}
        return " or ".join(sorted(found))

    def call_cuts(self, known, frame, start, low, *fields):
        """Each length of a body that ends in a field."""
        section, start, field = known.of(frame), int(start), int(fields[0])
        head = field
        for end in map(int, fields[1:]):
            for length in range(field, end):
                cut = bytearray(section[start:start + length])
                cut[int(low)] = length - head
                found = self.first_fault(bytes(cut))
                if found != f"frame 1 Truncated {field}":
                    return f"{found} at {length} bytes"
            field = end
        return "each field"

    # ---- processes

    def call_add(self, known, frame, *words):
        named = {name: number_of(value) for name, value in (word.split("=") for word in words)}
        module, number, fault = self.module(known.of(frame), **named), _u64(), _Fault()
        status = _library.dwcheck_process_add(self.handle(), c.byref(module), c.byref(number), c.byref(fault))
        if status == OVERLAPS:
            return f"overlaps {number.value}"
        self.added = number.value
        return str(number.value) if status == DONE else refused(status, fault)

    def call_add_both(self, known, frame, eh_frame, *words):
        named = {name: number_of(value) for name, value in (word.split("=") for word in words)}
        eh_room = {"room": named.pop("eh_room")} if "eh_room" in named else {}
        module, other, number, fault = self.module(known.of(frame), **named), self.module(known.of(eh_frame), **eh_room), _u64(), _Fault()
        module.kind = 0
        status = _library.dwcheck_process_add_both(self.handle(), c.byref(module), c.byref(other), c.byref(number), c.byref(fault))
        if status == OVERLAPS:
            return f"overlaps {number.value}"
        return str(number.value) if status == DONE else refused(status, fault)

    def call_least_room(self, known, frame, rooms):
        """The least room from which on a module is added, of the rooms up to a number."""
        added = [self.call_add(known, frame, f"room={room}", "first=0", "last=0xffff").isdigit() and self.call_remove(known, self.added)
                 for room in range(int(rooms))]
        return str(added.index("done")) if added == sorted(added, key=bool) else "not each greater room"

    def call_remove(self, known, number):
        return "done" if self.process().remove(int(number)) else "none"

    def call_share(self, known):
        self.shared = dwcheck.Process(self.order, self.size)
        status = _library.dwcheck_process_share(self.handle(), c.byref(self.shared._handle))
        return "done" if status == DONE else refused(status, None)

    def call_use_shared(self, known):
        self.opened = self.shared
        return "done"

    def call_close(self, known):
        self.process().close()
        return "done"

    def call_modules(self, known):
        """Removes all modules with ids up to 99."""
        return " ".join(str(number) for number in range(1, 100) if self.process().remove(number)) or "none"

    def call_row(self, known, address):
        row = self.process().row(number_of(address))
        if row is None:
            return "none"
        rules = "".join(f" r{number}={rule_text(rule)}" for number, rule in row.rules.items())
        return f"{row.start:#x}..{row.end:#x} cfa={cfa_text(row.cfa)}{rules}"

    def call_rows(self, known, *addresses):
        rows = [self.process().row(number_of(address)) for address in addresses]
        return " ".join(f"{row.start:#x}..{row.end:#x}" if row else "-" for row in rows)

    def call_place(self, known, address):
        row = self.process().row(number_of(address))
        return f"id {row.module} cookie {row.cookie} load {row.load_address:#x} ra r{row.return_register}" if row else "none"

    def call_module(self, known, address):
        found = Loaded()
        if _library.dwcheck_module_at(self.handle(), _u64(number_of(address)), c.byref(found)) != DONE:
            return "none"
        return f"id {found.id} cookie {found.cookie} load {found.load_address:#x} {found.first:#x}..{found.last:#x}"

    def call_signal(self, known, *addresses):
        flag, texts = _u32(), []
        for address in addresses:
            _library.dwcheck_is_signal_frame(self.handle(), _u64(number_of(address)), c.byref(flag))
            texts.append("yes" if flag.value else "no")
        return " ".join(texts)

    def call_spans(self, known, first, count):
        """Looks each address up; its row has to cover it."""
        spans, process = [], self.process()
        for address in range(number_of(first), number_of(first) + number_of(count)):
            row = process.row(address % 2 ** 64)
            if row is None:
                continue
            span = (row.start, row.end, row.return_register, row.cfa.offset)
            if not row.start <= address % 2 ** 64 < row.end:
                return f"{address:#x} has another row"
            if not spans or spans[-1] != span:
                spans.append(span)
        return progression(spans)

    # ---- callers and walks

    def state(self):
        """C's struct for the state. What it points to is kept in the session."""
        count = max(self.registers, default=-1) + 1
        known = bytearray((count + 7) // 8)
        for number in self.registers:
            known[number // 8] |= 1 << number % 8
        contents = (_u64 * count)(*(self.registers.get(number, 0) for number in range(count)))
        blocks = (_Block * len(self.blocks))(*(_Block(base, memory, len(memory)) for base, memory in self.blocks))
        kept = (_u16 * len(self.kept))(*self.kept)
        self.lent = (contents, known, blocks, kept)
        return _State(contents=contents, contents_length=count, known=bytes(known), known_length=len(known), blocks=blocks,
                      blocks_length=len(self.blocks), kept=kept, kept_length=len(self.kept), stack_pointer=self.pointer or 0,
                      has_stack_pointer=self.pointer is not None)

    def unwound(self, address):
        """The status of finding a caller, the caller, its registers, and the fault."""
        caller, registers, fault, state = Caller(), (Register * 256)(), _Fault(), self.state()
        status = _library.dwcheck_unwind(self.handle(), _u64(address), c.byref(state), c.byref(caller), registers, _size(256),
                                         c.byref(fault))
        return status, caller, registers, fault

    def call_caller(self, known, address):
        status, caller, registers, fault = self.unwound(number_of(address))
        if status == NONE:
            return "none"
        if status != DONE:
            return refused(status, fault)
        rules = "".join(f" r{one.number}={answer_text(one)}" for one in registers[:caller.count])
        return f"cfa {answer_text(caller.cfa)}{rules} return {answer_text(caller.return_address)}"

    def call_abi(self, known, kept="", pointer="-"):
        """Whether an ABI with these callee-saved registers (6,7 or 0..127 or 0*128) and this stack pointer is
        accepted."""
        self.kept, self.pointer = [], None if pointer == "-" else int(pointer)
        for part in kept.split(",") if kept != "-" else []:
            first, _, last = part.partition("..")
            once, _, times = first.partition("*")
            self.kept += [int(once)] * int(times) if times else range(int(first), int(last or first) + 1)
        status, _, _, fault = self.unwound(0x1000)
        return "accepted" if status in (DONE, NONE) else refused(status, fault)

    def call_walk(self, known, address, limit):
        limit, count, stop, fault, state = int(limit), _size(), _u32(), _Fault(), self.state()
        frames = (_Frame * max(limit, 1))()
        status = _library.dwcheck_backtrace(self.handle(), _u64(number_of(address)), c.byref(state), frames, _size(limit),
                                            c.byref(count), c.byref(stop), c.byref(fault))
        if status != DONE:
            return refused(status, fault)
        texts = [f"{frame.address:#x} {answer_text(frame.cfa)}" for frame in frames[:count.value]]
        if len(texts) > 9:
            texts = [*texts[:2], f"and {len(texts) - 2} more", texts[-1]]
        return ", ".join([*texts, f"stop {_library.dwcheck_stop_text(stop.value).decode()}"])

    # ---- expressions and lists

    def call_evaluate(self, known, kind, expression):
        found, fault, state, expression = Value(), _Fault(), self.state(), known.of(expression)
        status = _library.dwcheck_evaluate(expression, _size(len(expression)), self.order, self.size, KINDS[kind],
                                           c.byref(self.context), c.byref(state), 0, c.byref(found), None, _size(0), None, _size(0),
                                           c.byref(fault))
        if status != DONE:
            return refused(status, fault)
        value = f" {found.value:#x}" if found.kind in (0, 4, 5, 6) else ""
        return f"{OUTCOMES[found.kind]}{value} steps {found.steps}"

    def reported(self, frame, lists):
        """The counts of two accepted sections, and their expressions."""
        counts, found, fault = _Counts(), (Expression * 64)(), _Fault()
        status = _library.dwcheck_report(frame, _size(len(frame)), lists, _size(len(lists)), self.order, self.size, c.byref(counts),
                                         found, _size(64), c.byref(fault))
        if status != DONE:
            raise dwcheck.Error(refused(status, fault))
        return counts, found[:counts.frame_expressions + counts.list_expressions]

    def call_expressions(self, known, frame, lists):
        _, found = self.reported(known.of(frame), known.of(lists))
        return ", ".join(f"{one.offset} ops {one.operations} depth {one.depth}" for one in found) or "none"

    def located(self, lists, at, base, address):
        """The expressions that apply: the status, and their offsets."""
        lookup, found, count, fault = Lookup(base, address, at, 0), (Location * 64)(), _size(), _Fault()
        status = _library.dwcheck_locations(lists, _size(len(lists)), self.order, self.size, c.byref(lookup), found, _size(64),
                                            c.byref(count), c.byref(fault))
        return status, [one.offset for one in found[:count.value]], fault

    def call_locations(self, known, lists, at, base, address):
        status, found, fault = self.located(known.of(lists), *map(number_of, (at, base, address)))
        if status == NONE:
            return "no list"
        return " ".join(map(str, found)) or "none" if status == DONE else refused(status, fault)
