//! Tests of rules, over sections that are written field by field.

use super::{FaultKind, SframeError, SframeSection, RULES};
use crate::cfi::row::{Cfa, Rule};
use crate::elf::program::Section;
use dwcheck_types::target::{Order, Target};
use object::elf::{EM_AARCH64, EM_X86_64};
use std::borrow::Cow;

/// Where the sections are, and the code.
const ADDRESS: u64 = 0x5000;
const CODE: u64 = 0x1000;

/// The fields of a section of AMD64.
#[derive(Clone)]
struct Written {
    version: u8,
    flags: u8,
    abi: u8,
    fixed: [i8; 2],
    counts: Option<(u32, u32)>,
    functions: Vec<WrittenFunction>,
    target: Target,
}

/// A function, with the bytes of its row entries.
#[derive(Clone)]
struct WrittenFunction {
    begin: u64,
    size: u32,
    count: u32,
    info: u8,
    more_info: u8,
    block: u8,
    rows: Vec<u8>,
}

impl Written {
    fn new(version: u8) -> Self {
        let rows = vec![0, 0x03, 8, 1, 0x05, 16, -16i8 as u8];
        let function = WrittenFunction { begin: CODE, size: 16, count: 2, info: 0, more_info: 0, block: 0, rows };
        let (flags, target) = (if version == 3 { 5 } else { 1 }, Target::LITTLE_64);
        Written { version, flags, abi: 3, fixed: [0, -8], counts: None, functions: vec![function], target }
    }

    fn with(mut self, change: impl FnOnce(&mut WrittenFunction)) -> Self {
        change(&mut self.functions[0]);
        self
    }

    fn bytes(&self) -> Vec<u8> {
        let number = |number: u64, size| {
            let mut bytes = Vec::new();
            self.target.push(&mut bytes, number, size);
            bytes
        };
        let (mut index, mut rows) = (Vec::new(), Vec::new());
        for function in &self.functions {
            let at = if self.flags & 4 == 0 { ADDRESS } else { ADDRESS + 28 + index.len() as u64 };
            let begin = function.begin.wrapping_sub(at);
            let size = if self.version == 3 { 8 } else { 4 };
            index.extend([number(begin, size), number(function.size.into(), 4), number(rows.len() as u64, 4)].concat());
            let tail = match self.version {
                1 => [number(function.count.into(), 4), vec![function.info]].concat(),
                2 => [number(function.count.into(), 4), vec![function.info, function.block, 0, 0]].concat(),
                _ => Vec::new(),
            };
            index.extend(tail);
            if self.version == 3 {
                rows.extend(number(function.count.into(), 2));
                rows.extend([function.info, function.more_info, function.block]);
            }
            rows.extend(&function.rows);
        }
        let sum = self.functions.iter().map(|function| function.count).sum();
        let (functions, entries) = self.counts.unwrap_or((self.functions.len() as u32, sum));
        let mut bytes = number(0xdee2, 2);
        bytes.extend([self.version, self.flags, self.abi, self.fixed[0] as u8, self.fixed[1] as u8, 0]);
        let numbers = [functions, entries, rows.len() as u32, 0, index.len() as u32];
        bytes.extend(numbers.iter().flat_map(|one| number(u64::from(*one), 4)));
        [bytes, index, rows].concat()
    }

    fn section(&self) -> SframeSection<'static> {
        section(self.bytes(), self.target, if self.abi == 3 { EM_X86_64 } else { EM_AARCH64 })
    }

    /// The rule that is broken.
    fn fault(&self) -> Option<FaultKind> {
        fault(&self.section())
    }
}

fn section(bytes: Vec<u8>, target: Target, machine: u16) -> SframeSection<'static> {
    let source = Section { bytes: Cow::Owned(bytes), address: ADDRESS, unresolved: Vec::new() };
    SframeSection { source, target, machine, is_object: false, code: vec![CODE..CODE + 0x1000] }
}

fn fault(section: &SframeSection<'_>) -> Option<FaultKind> {
    match section.check() {
        Ok(_) => None,
        Err(SframeError::Refused(fault)) => Some(fault.kind),
        Err(error) => panic!("{}", error),
    }
}

/// The rows of the first function, as texts.
fn rows(section: &SframeSection<'_>) -> Vec<String> {
    let sframe = section.check().unwrap();
    let text = |row: super::SframeRow| format!("{:#x}..{:#x} {}", row.row.begin, row.row.end, row);
    sframe.rows(&sframe.functions()[0]).map(text).collect()
}

#[test]
fn the_page_lists_the_rules() {
    let page = std::fs::read_to_string(concat!(env!("CARGO_MANIFEST_DIR"), "/../../docs/SFRAME.md")).unwrap();
    for (kind, rule) in RULES {
        let row = format!("| {} | {} | {} |", kind.number(), kind, rule);
        assert!(page.lines().any(|line| line == row), "{}", kind);
    }
}

#[test]
fn all_versions_say_the_same() {
    for version in [1, 2, 3] {
        let section = Written::new(version).section();
        assert_eq!(
            rows(&section),
            ["0x1000..0x1001 cfa=r7+8 r16=[c-8]", "0x1001..0x1010 cfa=r7+16 r6=[c-16] r16=[c-8]"]
        );
        let sframe = section.check().unwrap();
        assert_eq!(sframe.row(0x100f).map(|row| row.row.begin), Some(0x1001));
        assert_eq!((sframe.row(0xfff), sframe.row(0x1010)), (None, None));
    }
}

#[test]
fn each_rule_is_broken_by_a_section() {
    use FaultKind::*;
    let new = Written::new;
    let twice = |begin, other: u64| {
        let mut written = new(2).with(|one| one.begin = begin);
        let second = WrittenFunction { begin: other, ..written.functions[0].clone() };
        written.functions.push(second);
        written
    };
    let cases = [
        (Written { version: 4, ..new(2) }, Version),
        (Written { flags: 4, ..new(1) }, Flags),
        (Written { flags: 8, ..new(3) }, Flags),
        (Written { abi: 3, ..new(2) }.with(|one| one.info = 0x80), FunctionInfo),
        (new(3).with(|one| one.info = 0x40), FunctionInfo),
        (new(3).with(|one| one.more_info = 2), FunctionInfo),
        (new(2).with(|one| one.info = 3), FunctionInfo),
        (new(2).with(|one| one.info = 0x10), BlockSize),
        (Written { fixed: [8, -8], ..new(2) }, FixedOffsets),
        (Written { fixed: [0, 0], ..new(2) }, FixedOffsets),
        (Written { counts: Some((u32::MAX, 2)), ..new(2) }, IndexPastEnd),
        (Written { counts: Some((1, u32::MAX)), ..new(2) }, RowCount),
        (new(3).with(|one| one.begin = u64::MAX - 3), FunctionRange),
        (new(2).with(|one| one.begin = CODE - 1), OutsideOfCode),
        (new(2).with(|one| one.size = 0x1001), OutsideOfCode),
        (twice(CODE + 16, CODE), FunctionOrder),
        (twice(CODE, CODE + 15), FunctionOverlap),
        (new(2).with(|one| one.count = 3), RowTruncated),
        (new(2).with(|one| one.size = 1), RowOutside),
        (new(2).with(|one| one.rows[3] = 0), RowOrder),
        (new(2).with(|one| one.rows[1] = 0x63), RowInfo),
        (new(2).with(|one| one.rows[1] = 0x83), RowInfo),
        (new(2).with(|one| one.rows[1] = 0x01), WordCount),
        (new(2).with(|one| (one.rows, one.count) = (vec![0, 0x07, 8, 8, 8], 1)), WordCount),
    ];
    for (written, kind) in cases {
        assert_eq!(written.fault(), Some(kind), "{:x?}", written.bytes());
    }
    let abi = section(new(2).bytes(), Target::LITTLE_64, EM_AARCH64);
    assert_eq!(fault(&abi), Some(Abi));
}

#[test]
fn headers_that_lie_are_refused() {
    use FaultKind::*;
    let bytes = Written::new(2).bytes();
    let with = |place: usize, byte: u8| {
        let mut bytes = bytes.clone();
        bytes[place] = byte;
        fault(&section(bytes, Target::LITTLE_64, EM_X86_64))
    };
    assert_eq!(with(0, 0), Some(Magic));
    assert_eq!(with(7, 0xff), Some(Truncated));
    assert_eq!(with(16, 8), Some(RowsPastEnd));
    assert_eq!(with(24, 19), Some(IndexOverRows));
    // The row entries of the function begin where they end.
    assert_eq!(with(28 + 8, 7), Some(RowsOffset));
    assert_eq!(fault(&section(bytes[..27].to_vec(), Target::LITTLE_64, EM_X86_64)), Some(Truncated));
    let mut shared = Written::new(2);
    shared.functions.push(WrittenFunction { begin: CODE + 16, ..shared.functions[0].clone() });
    let mut bytes = shared.bytes();
    bytes[28 + 20 + 8] = 0;
    assert_eq!(fault(&section(bytes, Target::LITTLE_64, EM_X86_64)), Some(RowsShared));
}

#[test]
fn flexible_rows_say_where_each_value_is() {
    // The CFA is in memory at rbp-8, the return address in rax, rbp at r10+8 in memory.
    let rows_of = |words: &[u8]| {
        let info = (words.len() as u8) << 1;
        let rows = [&[0, info][..], words].concat();
        Written::new(3).with(|one| (one.more_info, one.count, one.rows) = (1, 1, rows))
    };
    let whole = rows_of(&[6 << 3 | 3, -8i8 as u8, 1, 0, 10 << 3 | 3, 8]);
    let section = whole.section();
    let sframe = section.check().unwrap();
    let row = sframe.row(CODE).unwrap().row;
    assert_eq!(row.cfa, Cfa::Expression(Cow::Borrowed(&[0x76, 0x78, 0x06])));
    assert_eq!(row.rules, [(6, Rule::Expression(Cow::Borrowed(&[0x7a, 8]))), (16, Rule::Register(0))]);
    // The return address has no item of its own; a control word is unsigned.
    assert_eq!(
        rows(&rows_of(&[7 << 3 | 1, 8, 0, 2, -16i8 as u8]).section()),
        ["0x1000..0x1010 cfa=r7+8 r6=[c-16] r16=[c-8]"]
    );
    assert_eq!(rows(&rows_of(&[17 << 3 | 1, 8]).section()), ["0x1000..0x1010 cfa=r17+8 r16=[c-8]"]);
    assert_eq!(rows(&rows_of(&[]).section()), ["0x1000..0x1010 cfa=u r16=u"]);
    for wrong in
        [&[0, 0][..], &[7 << 3 | 1], &[7 << 3 | 5, 8], &[2, 8], &[7 << 3 | 1, 8, 7 << 3, 8], &[9, 0, 9, 0, 9, 0, 9, 0]]
    {
        assert_eq!(rows_of(wrong).fault(), Some(FaultKind::ControlWord), "{:x?}", wrong);
    }
}

#[test]
fn big_endian_sections_of_aarch64_are_read() {
    let target = Target { order: Order::Big, ..Target::LITTLE_64 };
    let rows_of = |one: &mut WrittenFunction| (one.rows, one.count) = (vec![0, 0xa7, 0, 32, 0xff, 0xe8, 0xff, 0xe0], 1);
    let written = Written { abi: 1, fixed: [0, 0], target, ..Written::new(2) }.with(rows_of);
    assert_eq!(rows(&written.section()), ["0x1000..0x1010 cfa=r31+32 r29=[c-32] r30=[c-24] signed"]);
    assert_eq!(fault(&section(written.bytes(), Target::LITTLE_64, EM_AARCH64)), Some(FaultKind::Magic));
}

#[test]
fn blocks_have_the_same_rows() {
    let rows_of = |one: &mut WrittenFunction| {
        (one.info, one.block, one.size, one.rows) = (0x10, 16, 40, vec![0, 3, 8, 11, 3, 16]);
    };
    for version in [1, 2, 3] {
        let section = Written::new(version).with(rows_of).section();
        let sframe = section.check().unwrap();
        let at = |address| {
            sframe
                .row(address)
                .map(|row| (row.row.begin, row.row.end, row.row.cfa == sframe.row(CODE).unwrap().row.cfa))
        };
        assert_eq!(at(CODE + 16), Some((CODE + 16, CODE + 27, true)));
        assert_eq!(at(CODE + 31), Some((CODE + 27, CODE + 32, false)));
        // The last block is cut off.
        assert_eq!(at(CODE + 39), Some((CODE + 32, CODE + 40, true)));
    }
}
