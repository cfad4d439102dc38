"""The C library dwcheck from Python: checks DWARF's unwind tables, and unwinds stacks with them.

    >>> import dwcheck
    >>> process = dwcheck.Process()
    >>> process.add(section, load_address=0, eh_frame=0x1a2b0)   # .eh_frame, and its address as linked
    1
    >>> process.row(0x5840)
    Row(start=22592, end=22594, cfa=Rule(kind='val_offset', register=7, offset=8), ...)

All of it is one file over `ctypes`, without other modules. `c/include/dwcheck.h` says what each call
promises and what is refused; its words are repeated here only where Python differs. The library is
found by the variable DWCHECK_LIBRARY (the path of libdwcheck.so), or else as the system finds it.

Sections are `bytes`. Addresses and contents of registers are `int`. Registers have DWARF's numbers.
An input that isn't well formed raises `Refused`; running out of memory raises `MemoryError`.
"""
import ctypes as c
import ctypes.util
import os
import threading
from contextlib import contextmanager
from dataclasses import dataclass, field
from typing import Callable, Dict, Iterator, List, NamedTuple, Optional, Tuple

LITTLE, BIG = 0, 1
_DONE, _REFUSED, _NO_MEMORY, _NONE = 0, 1, 2, 7
_VERSION = 2  # the major version of the interface
_NO_BOUND = 2 ** (8 * c.sizeof(c.c_size_t)) - 1


# ---- structures of dwcheck.h


def _structure(name, **fields):
    return type(name, (c.Structure,), {"_fields_": list(fields.items())})


_u8, _u16, _u32, _u64, _i64, _size, _pointer = c.c_uint8, c.c_uint16, c.c_uint32, c.c_uint64, c.c_int64, c.c_size_t, c.c_void_p
_Fault = _structure("_Fault", number=_u32, offset=_u32, within=_u32, reserved=_u32)
_LeftOut = _structure("_LeftOut", offset=_u64, fault=_Fault)
_Counts = _structure("_Counts", cies=_u64, fdes=_u64, rows=_u64, frame_expressions=_u64, tables=_u64, lists=_u64, list_expressions=_u64)
_Handle = _structure("_Handle", opaque=_pointer, opaque_open=_u64)
_Module = _structure("_Module", frame=c.c_char_p, frame_length=_size, load_address=_u64, first=_u64, last=_u64, cookie=_u64, room=_size,
                     order=_u32, address_size=_u32, has_range=_u32, kind=_u32, section_address=_u64, text_start=_u64, data_start=_u64)
_Record = _structure("_Record", next=_u64, program=_u64, cie=_u64, start=_u64, end=_u64, code_alignment_factor=_u64,
                     data_alignment_factor=_i64, kind=_u32, version=_u32, return_reg=_u32, is_signal_frame=_u32)
_Rule = _structure("_Rule", offset=_i64, length=_u64, reg=_u16, source=_u16, kind=_u32)
_Row = _structure("_Row", id=_u64, cookie=_u64, load_address=_u64, start=_u64, end=_u64, cfa=_Rule, return_reg=_u32, count=_u32)
_Header = _structure("_Header", bytes=c.c_char_p, length=_size, address=_u64)
_Block = _structure("_Block", base=_u64, bytes=c.c_char_p, length=_size)
_State = _structure("_State", contents=c.POINTER(_u64), contents_length=_size, known=c.c_char_p, known_length=_size,
                    blocks=c.POINTER(_Block), blocks_length=_size, kept=c.POINTER(_u16), kept_length=_size, stack_pointer=_u16,
                    has_stack_pointer=_u16, reserved=_u32, signed_bits=_u64)
_Answer = _structure("_Answer", value=_u64, kind=_u32, reserved=_u32)
_Frame = _structure("_Frame", address=_u64, cfa=_Answer)
_Cursor = _structure("_Cursor", contents=_u64 * 96, known=_u8 * 96, address=_u64, stage=_u32, reserved=_u32)
_READ = c.CFUNCTYPE(c.c_bool, _pointer, _u64, c.POINTER(_u8), _size)
_Reader = _structure("_Reader", read=_READ, data=_pointer, order=_u32, address_size=_u32)


def _load():
    path = os.environ.get("DWCHECK_LIBRARY") or ctypes.util.find_library("dwcheck")
    if path is None:
        raise ImportError("libdwcheck.so isn't found; set DWCHECK_LIBRARY to its path")
    library = c.CDLL(path)
    library.dwcheck_version.restype = _u32
    if library.dwcheck_version() >> 16 != _VERSION:
        raise ImportError(f"{path} has version {library.dwcheck_version() >> 16} of the interface, and not {_VERSION}")
    for name in ("fault", "status", "stop"):
        getattr(library, f"dwcheck_{name}_text").restype = c.c_char_p
    return library


_library = _load()


# ---- faults


class Refused(Exception):
    """A section, an expression or an ABI isn't well formed: `number` and `name` of the first fault, its
    `offset`, and what the offset counts (`within`: frame, lists, expression, abi or eh_frame)."""

    def __init__(self, fault):
        self.number, self.offset = fault.number, fault.offset
        self.within = ("frame", "lists", "expression", "abi", "eh_frame")[fault.within] if fault.within < 5 else "?"
        self.name = _fault_name(fault.number)
        super().__init__(f"{self.within}: {self.number} {self.name} at {self.offset:#x}")

    @property
    def rule(self) -> str:
        """The rule that is broken, in words."""
        return (_library.dwcheck_fault_text(self.number) or b"").decode()


class Error(Exception):
    """A call did nothing for another reason; the text says which."""


def _fault_name(number):
    text, size = c.create_string_buffer(32), _size()
    _library.dwcheck_fault_name(number, text, 32, c.byref(size))
    return text.raw[: size.value].decode()


def _check(status, fault):
    if status == _REFUSED:
        raise Refused(fault)
    if status == _NO_MEMORY:
        raise MemoryError()
    if status != _DONE:
        raise Error((_library.dwcheck_status_text(status) or b"unknown status").decode())


# ---- sections


def check(frame: bytes = b"", lists: bytes = b"", order: int = LITTLE, address_size: int = 8) -> None:
    """Checks a .debug_frame and a .debug_loclists section, either of which may be empty."""
    fault = _Fault()
    _check(_library.dwcheck_check(frame, _size(len(frame)), lists, _size(len(lists)), order, address_size, c.byref(fault)), fault)


class Contents(NamedTuple):
    """What a frame section contains."""

    cies: int
    fdes: int
    rows: int
    expressions: int


class Record(NamedTuple):
    """A record of a frame section. `kind` is cie, fde or empty; an FDE covers the addresses from `start` up
    to, but not including, `end`. Its instructions are the bytes from `program` up to `next`."""

    offset: int
    next: int
    kind: str
    program: int
    cie: int
    start: int
    end: int
    return_register: int
    is_signal_frame: bool


class LeftOut(NamedTuple):
    """A record that is left out: the offset of its first byte, and the first reason why."""

    offset: int
    fault: Refused


_LEAVE_OUT = 4


def _kind(eh_frame, is_aarch64, leave_out):
    if eh_frame is None:
        if leave_out:
            raise ValueError("leave_out needs eh_frame")
        return 0
    return (2 if is_aarch64 else 1) | (_LEAVE_OUT if leave_out else 0)


def _module(section, load_address, eh_frame, is_aarch64, order, address_size, addresses, cookie, leave_out=False):
    if addresses and addresses[0] >= addresses[1]:
        raise ValueError("`addresses` has none")
    return _Module(frame=section, frame_length=len(section), load_address=load_address, cookie=cookie, room=_NO_BOUND, order=order,
                   address_size=address_size, has_range=addresses is not None, first=addresses[0] if addresses else 0,
                   last=addresses[1] - 1 if addresses else 0, kind=_kind(eh_frame, is_aarch64, leave_out),
                   section_address=eh_frame or 0)


class Section:
    """A frame section by itself: `eh_frame` is the address, as linked, of an .eh_frame section; None for
    .debug_frame. With `leave_out`, bad records of .eh_frame are left out instead of refusing the section."""

    def __init__(self, section: bytes, eh_frame: Optional[int] = None, is_aarch64=False, order=LITTLE, address_size=8,
                 leave_out=False):
        self._module = _module(section, 0, eh_frame, is_aarch64, order, address_size, None, 0, leave_out)
        self._section = section

    def check(self) -> Contents:
        """Checks the section, and counts what it contains."""
        counts, fault = _Counts(), _Fault()
        _check(_library.dwcheck_module_check(c.byref(self._module), c.byref(counts), c.byref(fault)), fault)
        return Contents(counts.cies, counts.fdes, counts.rows, counts.frame_expressions)

    def left_out(self) -> List[LeftOut]:
        """The records that are left out, in the order of the section; none without `leave_out`."""
        if not self._module.kind & _LEAVE_OUT:
            self.check()
            return []
        count, fault = _size(), _Fault()
        module = c.byref(self._module)
        _check(_library.dwcheck_module_left_out(module, None, _size(), c.byref(count), c.byref(fault)), fault)
        found = (_LeftOut * count.value)()
        _check(_library.dwcheck_module_left_out(module, found, count, c.byref(count), c.byref(fault)), fault)
        return [LeftOut(one.offset, Refused(one.fault)) for one in found]

    def __iter__(self) -> Iterator[Record]:
        """The section's records in turn."""
        record, fault, offset = _Record(), _Fault(), 0
        while True:
            status = _library.dwcheck_record_at(c.byref(self._module), _u64(offset), c.byref(record), c.byref(fault))
            if status == _NONE:
                return
            _check(status, fault)
            kind = ("cie", "fde", "empty")[record.kind] if record.kind < 3 else "?"
            yield Record(offset, record.next, kind, record.program, record.cie, record.start, record.end, record.return_reg,
                         bool(record.is_signal_frame))
            offset = record.next

    def row(self, address: int, header: bytes, header_address: int) -> "Optional[Row]":
        """The row of an address as linked, or None, by the search table of an .eh_frame_hdr section, which is at
        `header_address` as linked. Only the FDE to which the table leads and its CIE are read."""
        table = _Header(bytes=header, length=len(header), address=header_address)
        row, rules, is_signal_frame, fault = _Row(), (_Rule * 128)(), _u32(), _Fault()
        status = _library.dwcheck_row_in(c.byref(self._module), c.byref(table), _u64(address), c.byref(row), rules, _size(128),
                                         c.byref(is_signal_frame), c.byref(fault))
        if status == _NONE:
            return None
        _check(status, fault)
        return _row_of(row, rules, lambda _, rule: self._section[rule.offset : rule.offset + rule.length])


# ---- rows

_KINDS = ("default", "undefined", "same_value", "offset", "val_offset", "register", "expression", "val_expression")


class Rule(NamedTuple):
    """How to find a register's value, or the CFA (`kind` is in the header's words). `register` is the
    register to which an offset of the CFA's rule is added, or the one whose value it is; `expression` has
    the bytes of an expression."""

    kind: str
    register: int = 0
    offset: int = 0
    expression: bytes = b""


@dataclass
class Row:
    """A row: it covers the addresses as linked from `start` up to, but not including, `end`."""

    start: int
    end: int
    cfa: Rule
    rules: Dict[int, Rule]
    return_register: int
    module: int
    cookie: int
    load_address: int


def _row_of(row, rules, expression):
    def rule_of(number, rule, register):
        kind = _KINDS[rule.kind] if rule.kind < len(_KINDS) else "?"
        if kind.endswith("expression"):
            return Rule(kind, expression=expression(number, rule))
        return Rule(kind, register, rule.offset)

    by_register = {rule.reg: rule_of(rule.reg, rule, rule.source) for rule in rules[: row.count]}
    cfa = rule_of(0x10000, row.cfa, row.cfa.reg)
    return Row(row.start, row.end, cfa, by_register, row.return_reg, row.id, row.cookie, row.load_address)


# ---- stacks


@dataclass
class Abi:
    """The callee-saved registers, and the stack pointer."""

    kept: Tuple[int, ...]
    stack_pointer: Optional[int]


# The registers are those of rust/dwcheck-types/src/abi.rs. aarch64 has the lower halves of v8 to v15 too.
X86_64 = Abi((3, 6, 12, 13, 14, 15), 7)
I386 = Abi((3, 5, 6, 7), 4)
AARCH64 = Abi(tuple(range(19, 31)) + tuple(range(72, 80)), 31)

STOPS = ("limit", "not covered", "return undefined", "return unreadable", "return division by zero")


class Frame(NamedTuple):
    """A frame: its address as loaded, and its CFA if that is known."""

    address: int
    cfa: Optional[int]


@dataclass
class Walk:
    """The frames of a stack, innermost first, and in words why there are no more."""

    frames: List[Frame] = field(default_factory=list)
    stop: str = "limit"


class Process:
    """The modules of a process, each with its rows compiled. Threads may share it: each call waits for those
    of other threads. `read` of a walk may look rows up in the process, but not change it."""

    def __init__(self, order: int = LITTLE, address_size: int = 8):
        self.order, self.address_size, self._handle = order, address_size, _Handle()
        self._lock, self._walks = threading.RLock(), 0

    @contextmanager
    def _changing(self):
        with self._lock:
            if self._walks:
                raise Error("`read` can't change the process that it reads for")
            yield

    def add(self, section: bytes, load_address: int = 0, eh_frame: Optional[int] = None, is_aarch64: bool = False,
            addresses: Optional[Tuple[int, int]] = None, cookie: int = 0, leave_out: bool = False) -> int:
        """Adds a module, and returns its id. `eh_frame` is the address, as linked, of an .eh_frame section;
        None for .debug_frame. With `leave_out`, bad records of .eh_frame are left out instead of refusing
        the section (`Section.left_out` lists them). The module answers for the `addresses` (the first, and the one after the last),
        or for those that its section covers."""
        module = _module(section, load_address, eh_frame, is_aarch64, self.order, self.address_size, addresses, cookie, leave_out)
        number, fault = _u64(), _Fault()
        with self._changing():
            _check(_library.dwcheck_process_add(c.byref(self._handle), c.byref(module), c.byref(number), c.byref(fault)), fault)
        return number.value

    def add_both(self, debug_frame: bytes, eh_frame: bytes, address: int, load_address: int = 0, is_aarch64: bool = False,
                 addresses: Optional[Tuple[int, int]] = None, cookie: int = 0, leave_out: bool = False) -> int:
        """Adds a module with both sections, and returns its id. `address` is that of .eh_frame, as linked. The row of an
        address is that of .debug_frame, or if that has none, that of .eh_frame. The rest is as with `add`."""
        order, size = self.order, self.address_size
        module = _module(debug_frame, load_address, None, False, order, size, addresses, cookie, False)
        other = _module(eh_frame, load_address, address, is_aarch64, order, size, addresses, cookie, leave_out)
        number, fault = _u64(), _Fault()
        with self._changing():
            _check(_library.dwcheck_process_add_both(c.byref(self._handle), c.byref(module), c.byref(other), c.byref(number),
                                                     c.byref(fault)), fault)
        return number.value

    def remove(self, module: int) -> bool:
        """Removes the module with this id, and returns whether there was one."""
        with self._changing():
            return _library.dwcheck_process_remove(c.byref(self._handle), _u64(module)) == _DONE

    def row(self, address: int) -> Optional[Row]:
        """The row of an address as loaded, or None."""
        row, rules = _Row(), (_Rule * 128)()
        with self._lock:
            if _library.dwcheck_row_at(c.byref(self._handle), _u64(address), c.byref(row), rules, _size(128)) != _DONE:
                return None
            return _row_of(row, rules, lambda number, rule: self._expression(address, number, rule))

    def _expression(self, address, number, rule):
        text, size = c.create_string_buffer(max(rule.length, 1)), _size()
        _library.dwcheck_rule_bytes(c.byref(self._handle), _u64(address), number, text, _size(rule.length), c.byref(size))
        return text.raw[: size.value]

    def walk(self, address: int, registers: Dict[int, int], read: Callable[[int, int], Optional[bytes]], abi: Abi = X86_64,
             limit: int = 256, exact: bool = True) -> Walk:
        """Walks up the stack from the frame at `address`. `read(address, length)` returns bytes of memory, or
        None if it can't. `exact` is False if `address` is a return address."""
        count = max(registers, default=-1) + 1
        known = bytearray((count + 7) // 8)
        for number in registers:
            known[number // 8] |= 1 << number % 8
        contents = (_u64 * count)(*(registers.get(number, 0) for number in range(count)))
        state = _State(contents=contents, contents_length=count, known=bytes(known), known_length=len(known),
                       kept=(_u16 * len(abi.kept))(*abi.kept), kept_length=len(abi.kept), stack_pointer=abi.stack_pointer or 0,
                       has_stack_pointer=abi.stack_pointer is not None)
        cursor, fault = _Cursor(), _Fault()
        _check(_library.dwcheck_cursor_init(c.byref(cursor), _u64(address), c.byref(state), exact, c.byref(fault)), fault)
        with self._lock:
            self._walks += 1
            try:
                return self._steps(cursor, state, read, limit)
            finally:
                self._walks -= 1

    def _steps(self, cursor, state, read, limit):
        raised = []

        def into(_, address, slots, length):
            try:
                found = None if raised else read(address, length)
                found = b"" if found is None else bytes(memoryview(found))
                if len(found) < length:
                    return False
                c.memmove(slots, found, length)
                return True
            except BaseException as error:  # it can't pass through C
                raised.append(error)
                return False

        reader = _Reader(read=_READ(into), order=self.order, address_size=self.address_size)
        walk, frame = Walk(), _Frame()
        step = [c.byref(x) for x in (self._handle, cursor, state, reader, frame)]
        while len(walk.frames) < limit:
            status = _library.dwcheck_cursor_step_with(*step)
            if raised:
                raise raised[0]
            if status == _NONE:
                break
            _check(status, _Fault())
            walk.frames.append(Frame(frame.address, frame.cfa.value if frame.cfa.kind == 1 else None))
        if cursor.stage > 1:
            walk.stop = STOPS[cursor.stage - 1] if cursor.stage <= len(STOPS) else "?"
        return walk

    def close(self) -> None:
        """Releases all modules. A closed process may be used again."""
        with self._changing():
            _library.dwcheck_process_close(c.byref(self._handle))

    def __enter__(self):
        return self

    def __exit__(self, *_):
        self.close()

    def __del__(self):
        self.close()
