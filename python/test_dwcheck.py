"""Tests of dwcheck.py. They need libdwcheck.so (DWCHECK_LIBRARY) and Debian's python3-pyelftools, whose
tables of /bin/ls are compared with the library's rows."""
import pathlib
import re
import unittest

from elftools.dwarf.callframe import FDE
from elftools.elf.elffile import ELFFile

import dwcheck

# The section of README.md's quick start: rows from 0x1000, 0x1001 and 0x1004 up to 0x1020.
CIE = bytes.fromhex("14000000 ffffffff 04 00 08 00 01 78 10 0c0708 9001 00000000")
FDE_BYTES = bytes.fromhex("1c000000 00000000 0010000000000000 2000000000000000 410e108602430d06")
WORKED = CIE + FDE_BYTES


class Sections(unittest.TestCase):
    def test_a_section_that_is_cut_off_is_refused_with_its_fault(self):
        with self.assertRaises(dwcheck.Refused) as caught:
            dwcheck.check(WORKED[:-1])
        self.assertEqual((caught.exception.number, caught.exception.name, caught.exception.within), (1, "Truncated", "frame"))
        self.assertTrue(caught.exception.rule)

    def test_contents_and_records_of_the_worked_section(self):
        section = dwcheck.Section(WORKED)
        self.assertEqual(section.check(), (1, 1, 3, 0))
        cie, fde = section
        self.assertEqual((cie.kind, cie.return_register, fde.kind, fde.cie), ("cie", 16, "fde", 0))
        self.assertEqual((fde.offset, fde.start, fde.end, fde.next), (24, 0x1000, 0x1020, len(WORKED)))

    def test_a_target_that_isnt_one_is_an_error(self):
        with self.assertRaises(dwcheck.Error):
            dwcheck.check(WORKED, address_size=5)


class Rows(unittest.TestCase):
    def test_rows_of_the_worked_section(self):
        with dwcheck.Process() as process:
            process.add(WORKED, load_address=0x10000, cookie=7)
            row = process.row(0x11002)
            self.assertEqual((row.start, row.end, row.cookie), (0x1001, 0x1004, 7))
            self.assertEqual(row.cfa, dwcheck.Rule("val_offset", 7, 16))
            self.assertEqual((row.rules[6].kind, row.rules[6].offset), ("offset", -16))
            self.assertIsNone(process.row(0x11020))

    def test_rows_of_both_sections(self):
        eh_frame = bytes.fromhex("14000000 00000000 01 7a5200 01 78 10 01 0b 0c0708 9001 0000"
                                 "10000000 1c000000 10100000 20000000 00 000000")
        with dwcheck.Process() as process:
            process.add_both(WORKED, eh_frame, 0, load_address=0x10000)
            rows = [process.row(address) for address in (0x11010, 0x11020, 0x11030)]
            self.assertEqual([row and (row.start, row.end) for row in rows], [(0x1004, 0x1020), (0x1010, 0x1030), None])
            with self.assertRaises(dwcheck.Refused) as caught:
                process.add_both(WORKED, eh_frame[:-1], 0)
            self.assertEqual((caught.exception.name, caught.exception.within), ("Truncated", "eh_frame"))

    def test_a_range_without_addresses_is_refused(self):
        with self.assertRaises(ValueError):
            dwcheck.Process().add(WORKED, addresses=(0, 0))

    def test_a_removed_module_has_no_rows(self):
        process = dwcheck.Process()
        number = process.add(WORKED)
        self.assertTrue(process.remove(number))
        self.assertFalse(process.remove(number))
        self.assertIsNone(process.row(0x1000))

    def test_rows_of_ls_are_those_of_pyelftools(self):
        with open("/bin/ls", "rb") as file, dwcheck.Process() as process:
            elf = ELFFile(file)
            section = elf.get_section_by_name(".eh_frame")
            process.add(section.data(), eh_frame=section["sh_addr"])
            compared = 0
            for entry in elf.get_dwarf_info().EH_CFI_entries():
                if not isinstance(entry, FDE):
                    continue
                for theirs in entry.get_decoded().table:
                    ours = process.row(theirs["pc"])
                    if ours is None:  # a row that covers no address
                        continue
                    compared += self.compare(ours, theirs)
            self.assertGreater(compared, 1000)

    def test_rows_of_ls_in_place_are_those_of_a_process(self):
        with open("/bin/ls", "rb") as file, dwcheck.Process() as process:
            elf = ELFFile(file)
            frame, header = (elf.get_section_by_name(name) for name in (".eh_frame", ".eh_frame_hdr"))
            process.add(frame.data(), eh_frame=frame["sh_addr"])
            section = dwcheck.Section(frame.data(), eh_frame=frame["sh_addr"])
            table = (header.data(), header["sh_addr"])
            starts = [record.start for record in section if record.kind == "fde"]
            self.assertGreater(len(starts), 100)
            for address in starts + [start - 1 for start in starts]:
                added, found = process.row(address), section.row(address, *table)
                if added is not None:
                    added.module = 0
                self.assertEqual(found, added)
            with self.assertRaises(dwcheck.Error):
                section.row(starts[0], table[0][:-1], table[1])

    def compare(self, ours, theirs):
        cfa = theirs["cfa"]
        if cfa.expr is None:
            self.assertEqual((ours.cfa.register, ours.cfa.offset), (cfa.reg, cfa.offset))
        else:
            self.assertEqual(ours.cfa.expression, bytes(cfa.expr))
        saved = {number: rule.arg for number, rule in theirs.items() if isinstance(number, int) and rule.type == "OFFSET"}
        self.assertEqual({number: rule.offset for number, rule in ours.rules.items() if rule.kind == "offset"}, saved)
        return 1


class Abis(unittest.TestCase):
    def test_callee_saved_registers_are_those_of_rust(self):
        source = (pathlib.Path(__file__).parent.parent / "rust/dwcheck-types/src/abi.rs").read_text(encoding="utf-8")
        lists = dict(re.findall(r"pub const (\w+): \[u16; \d+\] = \[([\d, ]+)\];", source))
        in_rust = {name: tuple(map(int, numbers.split(","))) for name, numbers in lists.items()}
        self.assertEqual(dwcheck.X86_64.kept, in_rust["X86_64"])
        self.assertEqual(dwcheck.I386.kept, in_rust["I386"])
        self.assertEqual(dwcheck.AARCH64.kept, in_rust["AARCH64"] + tuple(range(72, 80)))


class Walks(unittest.TestCase):
    """Two frames of the worked section: after 0x1004, CFA is r6 + 16, the return address at CFA - 8."""

    MEMORY = {0x7000: 0x7100, 0x7008: 0x1010, 0x7100: 0, 0x7108: 0x9999}

    def read(self, address, length):
        found = self.MEMORY.get(address)
        return found.to_bytes(8, "little") if found is not None and length == 8 else None

    def walk(self, **rest):
        process = dwcheck.Process()
        process.add(WORKED)
        return process.walk(0x1010, {6: 0x7000, 7: 0x6ff0}, rest.pop("read", self.read), **rest)

    def test_frames_and_why_they_end(self):
        walk = self.walk()
        self.assertEqual(walk.frames, [(0x1010, 0x7010), (0x1010, 0x7110), (0x9999, None)])
        self.assertEqual(walk.stop, "not covered")

    def test_memory_that_cant_be_read_ends_a_walk(self):
        walk = self.walk(read=lambda address, length: None)
        self.assertEqual((len(walk.frames), walk.stop), (1, "return unreadable"))

    def test_a_limit(self):
        self.assertEqual((len(self.walk(limit=2).frames), self.walk(limit=2).stop), (2, "limit"))

    def test_an_exception_of_read_comes_out(self):
        with self.assertRaises(ZeroDivisionError):
            self.walk(read=lambda address, length: 1 // 0)
        with self.assertRaises(KeyboardInterrupt):
            self.walk(read=self.interrupted)
        with self.assertRaises(TypeError):
            self.walk(read=lambda address, length: "12345678")

    @staticmethod
    def interrupted(address, length):
        raise KeyboardInterrupt

    def test_memory_is_anything_like_bytes(self):
        for kind in (bytearray, memoryview):
            walk = self.walk(read=lambda address, length: kind(self.read(address, length) or b""))
            self.assertEqual(walk.frames, self.walk().frames)

    def test_read_cant_change_the_process(self):
        process = dwcheck.Process()
        number = process.add(WORKED)
        for change in (process.close, lambda: process.remove(number), lambda: process.add(WORKED)):
            with self.assertRaises(dwcheck.Error):
                process.walk(0x1010, {6: 0x7000, 7: 0x6ff0}, lambda address, length: change())
        self.assertIsNotNone(process.row(0x1010))


if __name__ == "__main__":
    unittest.main()
