"""A model of how dwcheck checks a frame section and a section of location lists together, and of
how it finds a frame's caller, in Python. It was written from docs/PROFILE.md alone; nothing in it
was taken from dwcheck's code.

check_text(frame, lists, big, size) gives the text that `dwcheck check` must write, and
unwind_text(frame, address, state, big, size) the text of `dwcheck unwind`. state_of(content, size)
reads a state file, including the lines of an ABI.
"""
import re

import frame_model
import list_model
from expression_model import Fault, Machine, Unreadable, outcome_of

NAMES = frame_model.NAMES | list_model.NAMES


def refused_text(fault, section):
    return f"refused {fault.number} {NAMES[fault.number]} {section} 0x{fault.at:08x}\n"


# The report.

def expression_text(section, expression):
    kind, count, depth = expression["kind"], len(expression["operations"]), expression["depth"]
    return f"expr {section} 0x{expression['place']:08x} {kind} ops {count} depth {depth}\n"


def check_text(frame, lists, big, size):
    section = "frame"
    try:
        cies, fdes, ruled = frame_model.checked(frame, big, size)
        section = "lists"
        tables, entries = list_model.checked(lists, big, size)
    except Fault as fault:
        return refused_text(fault, section)
    listed = [expression for held in entries.values() for *_, expression in held if expression]
    text = "accepted\n"
    text += f"cies {len(cies)} fdes {len(fdes)} rows {sum(len(rows) for *_, rows in fdes)}\n"
    text += f"tables {tables} lists {len(entries)} expressions {len(ruled) + len(listed)}\n"
    text += "".join(expression_text("frame", expression) for expression in ruled)
    return text + "".join(expression_text("lists", expression) for expression in listed)


# Callers.

class Caller:
    """The caller of a frame whose address a row covers. `state` has the frame's registers, memory
    and ABI. The answer for the CFA or a register is a number, or if it can't be found, a text that
    says why, such as "unreadable"."""

    def __init__(self, row, state, big, size):
        _, _, cfa, self.rules = row
        self.kept, self.stack_pointer = state["keep"], state["sp"]
        self.given, self.big, self.size = {"reg": state["reg"], "mem": state["mem"]}, big, size
        self.cfa = self.cfa_answer(cfa)

    def named(self):
        """The registers that have a rule from the row or the ABI, in ascending order."""
        return sorted({*self.rules, *self.kept, *([] if self.stack_pointer is None else [self.stack_pointer])})

    def rule(self, register):
        """The rule of a register in the row, or, if it has none, the rule that the ABI gives it."""
        if register in self.rules:
            return self.rules[register]
        if register == self.stack_pointer:
            return "val_offset", 0
        return ("same_value",) if register in self.kept else ("undefined",)

    def content(self, register, offset=0):
        if register not in self.given["reg"]:
            return "unreadable"
        return (self.given["reg"][register] + offset) % (1 << 8 * self.size)

    def word(self, address):
        try:
            return Machine(self.given, self.big, self.size).word(address, self.size)
        except Unreadable:
            return "unreadable"

    def value(self, expression, cfa):
        """The value of an expression, or why it has none. `cfa` is a number or None; the frame
        base and the object aren't known."""
        context = {"cfa": cfa, "frame": None, "object": None}
        (said, *held), _ = outcome_of(expression, self.given | context, self.big, self.size)
        return held[0] if said == "value" else said

    def cfa_answer(self, rule):
        return self.value(rule[1], None) if rule[0] == "expression" else self.content(*rule[1:])

    def answer(self, register):
        name, *held = self.rule(register)
        if name == "undefined":
            return name
        if name in ("same_value", "register"):
            return self.content(*held or [register])
        if isinstance(self.cfa, str):
            return self.cfa
        if name.endswith("expression"):
            found = self.value(held[0], self.cfa)
        else:
            found = (self.cfa + held[0]) % (1 << 8 * self.size)
        return found if name.startswith("val_") or isinstance(found, str) else self.word(found)


def unwind_text(frame, address, state, big, size):
    try:
        _, found, _ = frame_model.checked(frame, big, size)
    except Fault as fault:
        return refused_text(fault, "frame")
    return caller_text(frame_model.row_at(found, address), state, big, size)


def caller_text(place, state, big, size):
    """The text that `dwcheck unwind` must write for a frame. `place` is the CIE and the row of the
    frame's address, or None if no row covers it."""
    if place is None:
        return "none\n"
    common, row = place
    caller = Caller(row, state, big, size)
    lines = [("cfa", caller.cfa)] + [(f"r{register}", caller.answer(register)) for register in caller.named()]
    lines.append(("return", caller.answer(common["return"])))
    return "".join(f"{name} {answer_text(answer, size)}\n" for name, answer in lines)


def answer_text(answer, size):
    return answer if isinstance(answer, str) else f"value 0x{answer:0{2 * size}x}"


# State files.

# The greatest number of callee-saved registers that an ABI may have.
MAX_KEPT = 127


def state_of(content, size):
    """What a state file says, or the number (from 1) of the first line that isn't allowed."""
    state = {"reg": {}, "mem": {}, "cfa": None, "frame": None, "object": None, "keep": [], "sp": None}
    for number, line in enumerate(content.split(b"\n"), 1):
        if line and not added(state, line, 1 << 8 * size):
            return number
    return state


def added(state, line, top):
    """Adds to `state` what a line says. If several lines give the same register, byte or value, the
    first one counts. `top` is 2^w. Returns whether the line is allowed."""
    number = rb"0x([0-9a-fA-F]{1,16})"
    if parsed := re.fullmatch(rb"reg ([0-9]{1,5}) " + number, line):
        register, value = int(parsed[1]), int(parsed[2], 16)
        state["reg"].setdefault(register, value)
        return register <= 65535 and value < top
    if parsed := re.fullmatch(rb"mem " + number + rb" ((?:[0-9a-fA-F]{2})+)", line):
        address, held = int(parsed[1], 16), bytes.fromhex(parsed[2].decode())
        for i, byte in enumerate(held):
            state["mem"].setdefault(address + i, byte)
        return address + len(held) <= top
    if parsed := re.fullmatch(rb"(cfa|frame|object) " + number, line):
        name, value = parsed[1].decode(), int(parsed[2], 16)
        if state[name] is None:
            state[name] = value
        return value < top
    if parsed := re.fullmatch(rb"(keep|sp) ([0-9]{1,5})", line):
        register = int(parsed[2])
        return register <= 65535 and (kept if parsed[1] == b"keep" else pointed)(state, register)
    return False


def kept(state, register):
    """Makes a register callee-saved, unless it is already. Returns whether that is allowed."""
    if register in state["keep"]:
        return True
    state["keep"].append(register)
    return len(state["keep"]) <= MAX_KEPT and register != state["sp"]


def pointed(state, register):
    """Makes a register the stack pointer, unless an earlier line named one. Returns whether that is
    allowed."""
    if state["sp"] is not None:
        return True
    state["sp"] = register
    return register not in state["keep"]
