"""Sections that are cut or changed: each check gives an answer, and what it accepts is consistent."""
import ctypes as c

import dwcheck

DONE, REFUSED, MEMORY = 0, 1, 60
TOP = 2 ** 64 - 1
ADDRESSES = (0, 0x1005, 0x200c, TOP)


def variants(section):
    """Each prefix of a section, and the section after each change of one byte."""
    for length in range(len(section) + 1):
        yield section[:length]
    for at, byte in enumerate(section):
        for other in range(256):
            if other != byte:
                yield section[:at] + bytes([other]) + section[at + 1:]


class Changes:
    """The call `changes` of a session."""

    def call_changes(self, known, frame, lists):
        """Checks each variant of the section that isn't empty."""
        frame, lists = known.of(frame), known.of(lists)
        for variant in variants(frame or lists):
            found = self.answer_of(variant, b"") if frame else self.answer_of(b"", variant)
            if found != "consistent":
                return f"{variant.hex()} is {found}"
        return "consistent"

    def answer_of(self, frame, lists):
        """`consistent`, or what is wrong with the answer to two sections."""
        status, fault = self.fault_of(frame, lists)
        if status == REFUSED:
            is_inside = fault.within == (0 if frame else 1) and fault.offset <= len(frame or lists)
            return "consistent" if is_inside and fault.number != MEMORY else f"refused: {fault.number} at {fault.offset}"
        if status != DONE:
            return f"status {status}"
        return self.frame_answer(frame) if frame else self.lists_answer(lists)

    def frame_answer(self, frame):
        """Whether the rows of an accepted section agree with its FDEs."""
        self.opened = dwcheck.Process(self.order, self.size)
        if self.add_everywhere(frame) != DONE:
            return "not added"
        covered = [(record.start, record.end) for record in dwcheck.Section(frame) if record.kind == "fde"]
        answers = [self.rows_answer(start, end) for start, end in covered]
        answers += [self.caller_answer(address, covered) for both in covered for address in both]
        self.opened.close()
        return next((answer for answer in answers if answer != "consistent"), "consistent")

    def add_everywhere(self, frame):
        """Adds a module that answers for all addresses. Returns the status."""
        module, number, fault = self.module(frame, first=0, last=TOP), c.c_uint64(), dwcheck._Fault()
        return dwcheck._library.dwcheck_process_add(self.handle(), c.byref(module), c.byref(number), c.byref(fault))

    def rows_answer(self, start, end):
        """Whether the rows cover an FDE without gaps or overlaps, and no other row reaches into it."""
        row_at, following = self.process().row, start
        while following < end:
            row = row_at(following)
            if row is None or row.start != following or not row.start < row.end <= end:
                return f"without a row from {following:#x} on"
            if row_at(row.end - 1) != row:
                return f"with another row at {row.end - 1:#x}"
            following = row.end
        before, after = row_at(start - 1) if start else None, row_at(end)
        if start < end and (before and before.end > start or after and after.start < end):
            return f"overlapping beside {start:#x}..{end:#x}"
        return "consistent"

    def caller_answer(self, address, covered):
        """Whether an address has a row and a caller if an FDE covers it, and neither otherwise."""
        is_covered = any(start <= address < end for start, end in covered)
        if {self.process().row(address) is not None, self.unwound(address)[0] == DONE} != {is_covered}:
            return f"in doubt about {address:#x}"
        return "consistent"

    def lists_answer(self, lists):
        """Whether as many lists are found as there are, and their expressions are the section's."""
        counts, expressions = self.reported(b"", lists)
        offsets, found = {one.offset for one in expressions}, 0
        for at in range(len(lists)):
            status, _, _ = self.located(lists, at, 0x1000, 0)
            found += status == DONE
            if status == DONE and not all(offsets.issuperset(self.located(lists, at, 0x1000, address)[1]) for address in ADDRESSES):
                return f"with other expressions at {at}"
        return "consistent" if found == counts.lists else f"with {found} lists"
