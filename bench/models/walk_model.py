"""A model of how dwcheck walks up the stack, in Python. It was written from docs/PROFILE.md alone;
nothing in it was taken from dwcheck's code.

backtrace_text(frame, address, state, limit, big, size) gives the text that `dwcheck backtrace` must
write, and limit_of(word) the number that the word LIMIT of a command line stands for. The other
models read sections and state files, and find the caller of a single frame. A walk is given a
function that returns the CIE and the row of an address, or None if no row covers it. rows_in(found)
makes this function for one section, and rows_in_modules of module_model.py for several modules.
"""
import re

from expression_model import Fault
from frame_model import checked, row_at
from pair_model import Caller, answer_text, refused_text

MAX_LIMIT = 65535


def limit_of(word):
    """The number that a word stands for; or None if the word isn't one to five digits, or if the
    number is above MAX_LIMIT."""
    limit = int(word) if re.fullmatch("[0-9]{1,5}", word, re.ASCII) else MAX_LIMIT + 1
    return limit if limit <= MAX_LIMIT else None


class Frame:
    """A frame: its number, its address, and the registers and memory in `state`. If a row covers
    the frame, `caller` is its caller, and `returns` its return address or a text that says why that
    isn't known. Otherwise both are None."""

    def __init__(self, find, number, address, state, big, size):
        self.number, self.address, self.state, self.big, self.size = number, address, state, big, size
        self.caller = self.returns = None
        looked_up = address if number == 0 else address - 1
        place = find(looked_up) if looked_up >= 0 else None
        if place is not None:
            common, row = place
            self.caller = Caller(row, state, big, size)
            self.returns = self.caller.answer(common["return"])

    def why_last(self):
        """Why the walk ends with this frame; None if it continues."""
        if self.caller is None:
            return "not covered"
        return f"return {self.returns}" if isinstance(self.returns, str) else None

    def next(self, find):
        """The frame of the caller. A register is known in it only if its value could be found."""
        answers = {register: self.caller.answer(register) for register in self.caller.named()}
        contents = {register: answer for register, answer in answers.items() if not isinstance(answer, str)}
        return Frame(find, self.number + 1, self.returns, self.state | {"reg": contents}, self.big, self.size)

    def text(self):
        said = "none" if self.caller is None else f"cfa {answer_text(self.caller.cfa, self.size)}"
        return f"frame {self.number} 0x{self.address:0{2 * self.size}x} {said}\n"


def rows_in(found):
    """A function that returns the CIE and the row of an address, or None. `found` are the FDEs of
    one section, whose load address is 0."""
    return lambda address: row_at(found, address)


def walk(find, address, state, limit, big, size):
    """The frames of a walk, the innermost first and at most `limit`, and why there are no more."""
    frames = []
    while len(frames) < limit:
        frames.append(frames[-1].next(find) if frames else Frame(find, 0, address, state, big, size))
        why = frames[-1].why_last()
        if why and len(frames) < limit:
            return frames, why
    return frames, "limit"


def walk_text(frames, why):
    return "".join(frame.text() for frame in frames) + f"stop {why}\n"


def backtrace_text(frame, address, state, limit, big, size):
    try:
        _, found, _ = checked(frame, big, size)
    except Fault as fault:
        return refused_text(fault, "frame")
    return walk_text(*walk(rows_in(found), address, state, limit, big, size))
