//! Makes random cases from real sections. A case is a section with a few CIEs and FDEs or lists, or
//! an expression, encoded for a byte order and an address size, and then some bytes are changed.
//! Some programs begin with instructions that come near one of the limits in docs/PROFILE.md.

use crate::encoded::{Encoded, little, push_uleb, uleb};
use crate::limits;
use crate::random::Random;
use crate::target::Target;

/// A generated section or expression. `inner` has the ranges of bytes of programs, list entries and
/// expressions, where a changed byte tests most.
pub struct Case {
    pub bytes: Vec<u8>,
    inner: Vec<(usize, usize)>,
}

impl Case {
    fn new() -> Self {
        Case { bytes: Vec::new(), inner: Vec::new() }
    }

    /// Appends a program or an expression, and notes its range.
    fn push_inner(&mut self, bytes: &[u8]) {
        let start = self.bytes.len();
        self.bytes.extend(bytes);
        if !bytes.is_empty() {
            self.inner.push((start, self.bytes.len()));
        }
    }

    /// A case with these bytes, all of which are most worth changing.
    pub fn of(bytes: Vec<u8>) -> Self {
        let mut case = Case::new();
        case.push_inner(&bytes);
        case
    }

    /// Changes some bytes, or none. Most of the changed bytes are in the ranges `inner`. Returns
    /// whether the case is different afterwards.
    pub fn change(&mut self, random: &mut Random) -> bool {
        let before = self.bytes.clone();
        let count = *random.of(&[0, 1, 1, 1, 1, 2, 2, 2, 3, 5]);
        for _ in 0..count.min(self.bytes.len()) {
            let place = if !self.inner.is_empty() && !random.one_of(5) {
                let &(start, end) = random.of(&self.inner);
                start + random.below(end - start)
            } else {
                random.below(self.bytes.len())
            };
            self.bytes[place] = match random.below(6) {
                0 => self.bytes[place] ^ 1 << random.below(8),
                1 => self.bytes[place].wrapping_add(1),
                2 => self.bytes[place].wrapping_sub(1),
                3 => self.bytes[random.below(self.bytes.len())],
                4 => *random.of(&[0, 1, 2, 8, 0x0a, 0x0b, 0x0f, 0x10, 0x11, 0x16, 0x40, 0x7f, 0x80, 0xc0, 0xff]),
                _ => random.next() as u8,
            };
        }
        self.bytes != before
    }
}

struct Cie {
    /// The bytes of the alignment factors and the return address register.
    fields: Vec<u8>,
    program: Encoded,
}

struct Fde {
    cie: usize,
    start: u64,
    range: u64,
    program: Encoded,
}

/// The CIEs and FDEs of real sections.
#[derive(Default)]
pub struct Frames {
    cies: Vec<Cie>,
    fdes: Vec<Fde>,
    /// The places in `fdes` of FDEs with an expression in their own program or in their CIE's.
    with_expressions: Vec<usize>,
}

/// The length of a CIE's alignment factors and return address register: three LEB128 numbers.
fn factors(body: &[u8]) -> Option<usize> {
    (0..3).try_fold(0, |at, _| Some(at + uleb(body.get(at..)?)?.1))
}

impl Frames {
    /// Adds the CIEs and FDEs of a little-endian section with addresses of 8 bytes. A CIE is left
    /// out if its version isn't 4, or if it has an augmentation or a program with an unknown
    /// opcode; its FDEs are left out too. An FDE is also left out if its own program has an unknown
    /// opcode.
    pub fn add(&mut self, section: &[u8]) {
        let mut cies = Vec::new();
        let mut at = 0;
        while let Some(length) = little(&section[at..], 4) {
            let body = &section[at + 4..at + 4 + length as usize];
            let id = little(body, 4).expect("an id");
            if id == 0xffff_ffff {
                if let Some(cie) = Self::cie(body) {
                    cies.push((at as u64, self.cies.len()));
                    self.cies.push(cie);
                }
            } else if let Some((_, cie)) = cies.iter().find(|(place, _)| *place == id) {
                self.add_fde(*cie, body);
            }
            at += 4 + length as usize;
        }
    }

    fn cie(body: &[u8]) -> Option<Cie> {
        // version 4, no augmentation, addresses of 8 bytes, no segments
        if body.get(4..8)? != [4, 0, 8, 0] {
            return None;
        }
        let end = 8 + factors(&body[8..])?;
        Some(Cie { fields: body[8..end].to_vec(), program: Encoded::program(&body[end..])? })
    }

    fn add_fde(&mut self, cie: usize, body: &[u8]) {
        let (start, range) = (little(&body[4..], 8).expect("an address"), little(&body[12..], 8).expect("a range"));
        if let Some(program) = Encoded::program(&body[20..]) {
            if program.has_expression() || self.cies[cie].program.has_expression() {
                self.with_expressions.push(self.fdes.len());
            }
            self.fdes.push(Fde { cie, start, range, program });
        }
    }

    /// A case with a CIE and one to three of its FDEs, each in the 32-bit or 64-bit format.
    pub fn case(&self, random: &mut Random, target: Target) -> Case {
        let first = if !self.with_expressions.is_empty() && random.one_of(3) {
            *random.of(&self.with_expressions)
        } else {
            random.below(self.fdes.len())
        };
        let cie = self.fdes[first].cie;
        let count = 1 + random.below(3);
        let fdes = self.fdes[first..].iter().filter(|fde| fde.cie == cie).take(count);
        let mut case = Case::new();
        push_cie(&mut case, random, target, &self.cies[cie]);
        for fde in fdes {
            push_fde(&mut case, random, target, fde);
        }
        case
    }
}

/// Appends a CIE or an FDE: its length, then the bytes `head`, which are its fields before the
/// program, then its program. It is in the 64-bit format if `wide` is true.
fn push_record(case: &mut Case, wide: bool, target: Target, head: &[u8], program: &[u8]) {
    let length = (head.len() + program.len()) as u64;
    if wide {
        case.bytes.extend([0xff; 4]);
        case.bytes.extend(target.number(length, 8));
    } else {
        case.bytes.extend(target.number(length, 4));
    }
    case.bytes.extend(head);
    case.push_inner(program);
}

fn push_cie(case: &mut Case, random: &mut Random, target: Target, cie: &Cie) {
    let wide = random.one_of(8);
    let mut head = target.number(u64::MAX, if wide { 8 } else { 4 });
    head.extend([4, 0, target.size(), 0]);
    head.extend(&cie.fields);
    push_record(case, wide, target, &head, &cie.program.bytes(target));
}

fn push_fde(case: &mut Case, random: &mut Random, target: Target, fde: &Fde) {
    let wide = random.one_of(8);
    // the CIE is the first record
    let mut head = target.number(0, if wide { 8 } else { 4 });
    head.extend(target.number(fde.start, target.size().into()));
    head.extend(target.number(fde.range, target.size().into()));
    let mut program = if random.one_of(12) { limits::program(random) } else { Vec::new() };
    program.extend(fde.program.bytes(target));
    push_record(case, wide, target, &head, &program);
}

struct Entry {
    code: u8,
    operands: Operands,
    expression: Encoded,
}

enum Operands {
    None,
    Base(u64),
    Pair(u64, u64),
    Addresses(u64, u64),
    Length(u64, u64),
}

/// The location lists of real sections.
#[derive(Default)]
pub struct Lists {
    lists: Vec<Vec<Entry>>,
}

/// The list entry at the start of `bytes`, and its length in bytes. `None` if its kind isn't known,
/// or if its expression has an unknown operation.
fn entry(bytes: &[u8]) -> Option<(Entry, usize)> {
    let code = *bytes.first()?;
    let (operands, mut at) = match code {
        0 => (Operands::None, 1),
        4 => {
            let (begin, first) = uleb(&bytes[1..])?;
            let (end, second) = uleb(&bytes[1 + first..])?;
            (Operands::Pair(begin, end), 1 + first + second)
        }
        5 => (Operands::None, 1),
        6 => (Operands::Base(little(&bytes[1..], 8)?), 9),
        7 => (Operands::Addresses(little(&bytes[1..], 8)?, little(&bytes[9..], 8)?), 17),
        8 => {
            let (length, size) = uleb(&bytes[9..])?;
            (Operands::Length(little(&bytes[1..], 8)?, length), 9 + size)
        }
        _ => return None,
    };
    let mut expression = Encoded::default();
    if !matches!(code, 0 | 6) {
        let (length, size) = uleb(&bytes[at..])?;
        at += size;
        expression = Encoded::expression(bytes.get(at..at + length as usize)?)?;
        at += length as usize;
    }
    Some((Entry { code, operands, expression }, at))
}

impl Lists {
    /// Adds the lists of a little-endian section with addresses of 8 bytes.
    pub fn add(&mut self, section: &[u8]) {
        let mut at = 0;
        while let Some(length) = little(&section[at..], 4) {
            let end = at + 4 + length as usize;
            let count = little(&section[at + 8..], 4).expect("a count") as usize;
            at += 12 + 4 * count;
            let mut list = Vec::new();
            while at < end {
                let (entry, length) = entry(&section[at..end]).expect("an entry of the profile");
                at += length;
                let last = entry.code == 0;
                list.push(entry);
                if last {
                    self.lists.push(std::mem::take(&mut list));
                }
            }
        }
    }

    /// A case with one or two tables of one to three lists each, some with an offset array.
    pub fn case(&self, random: &mut Random, target: Target) -> Case {
        let mut case = Case::new();
        for _ in 0..1 + usize::from(random.one_of(4)) {
            self.push_table(&mut case, random, target);
        }
        case
    }

    fn push_table(&self, case: &mut Case, random: &mut Random, target: Target) {
        let first = random.below(self.lists.len());
        let lists: Vec<_> = self.lists[first..].iter().take(1 + random.below(3)).collect();
        let (wide, array) = (random.one_of(8), random.one_of(3));
        let size = if wide { 8 } else { 4 };
        let count = if array { lists.len() } else { 0 };
        let mut body = Case::new();
        let mut offsets = Vec::new();
        for list in lists {
            offsets.push((count * size + body.bytes.len()) as u64);
            for entry in list.iter().take(6).chain(list.iter().skip(6).filter(|entry| entry.code == 0)) {
                push_entry(&mut body, target, entry);
            }
        }
        if wide {
            case.bytes.extend([0xff; 4]);
        }
        case.bytes.extend(target.number((8 + count * size + body.bytes.len()) as u64, size));
        case.bytes.extend(target.number(5, 2));
        case.bytes.extend([target.size(), 0]);
        case.bytes.extend(target.number(count as u64, 4));
        for offset in offsets.into_iter().take(count) {
            case.bytes.extend(target.number(offset, size));
        }
        let start = case.bytes.len();
        case.inner.extend(body.inner.iter().map(|(begin, end)| (start + begin, start + end)));
        case.bytes.extend(body.bytes);
    }

    /// The bytes of one to three expressions of list entries, one after another.
    pub fn expression(&self, random: &mut Random, target: Target) -> Vec<u8> {
        let mut bytes = Vec::new();
        for _ in 0..1 + random.below(3) {
            let list = random.of(&self.lists);
            bytes.extend(random.of(list).expression.bytes(target));
        }
        bytes
    }
}

fn push_entry(case: &mut Case, target: Target, entry: &Entry) {
    let start = case.bytes.len();
    case.bytes.push(entry.code);
    let size = target.size().into();
    match entry.operands {
        Operands::None => {}
        Operands::Base(base) => case.bytes.extend(target.number(base, size)),
        Operands::Pair(begin, end) => {
            push_uleb(&mut case.bytes, begin);
            push_uleb(&mut case.bytes, end);
        }
        Operands::Addresses(begin, end) => {
            case.bytes.extend(target.number(begin, size));
            case.bytes.extend(target.number(end, size));
        }
        Operands::Length(begin, length) => {
            case.bytes.extend(target.number(begin, size));
            push_uleb(&mut case.bytes, length);
        }
    }
    case.inner.push((start, case.bytes.len()));
    if !matches!(entry.code, 0 | 6) {
        let expression = entry.expression.bytes(target);
        push_uleb(&mut case.bytes, expression.len() as u64);
        case.push_inner(&expression);
    }
}

/// A random expression of constants, registers and operations on them. Most of these expressions
/// leave an entry on the stack.
pub fn made_expression(random: &mut Random, target: Target) -> Vec<u8> {
    let mut bytes = vec![0x30 + random.below(32) as u8];
    let mut height = 1;
    for _ in 0..random.below(12) {
        match random.below(if height > 1 { 7 } else { 5 }) {
            0 => {
                push_constant(&mut bytes, random, target);
                height += 1;
            }
            1 => {
                bytes.push(*random.of(&[0x19, 0x1f, 0x20, 0x06, 0x96]));
            }
            2 => {
                bytes.push(0x23);
                push_uleb(&mut bytes, random.next() >> random.below(64));
            }
            3 => {
                bytes.extend([0x70 + random.below(32) as u8, random.below(128) as u8]);
                height += 1;
            }
            4 => {
                // a drop of the constant, or a branch that skips at most `count` nops
                push_constant(&mut bytes, random, target);
                let count = random.below(3);
                bytes.push(if random.one_of(4) { 0x13 } else { 0x28 });
                if bytes.last() == Some(&0x28) {
                    bytes.extend(target.number(random.below(count + 1) as u64, 2));
                }
                bytes.extend(vec![0x96; count]);
            }
            5 => {
                bytes.push(*random.of(&[
                    0x1a, 0x1b, 0x1b, 0x1c, 0x1d, 0x1d, 0x1e, 0x21, 0x22, 0x24, 0x25, 0x26, 0x27, 0x29, 0x2a, 0x2b, 0x2c,
                    0x2d, 0x2e,
                ]));
                height -= 1;
            }
            _ => {
                bytes.push(*random.of(&[0x12, 0x14, 0x16]));
                height += usize::from(bytes.last() != Some(&0x16));
            }
        }
    }
    if random.one_of(3) {
        bytes.push(0x9f);
    }
    bytes
}

fn push_constant(bytes: &mut Vec<u8>, random: &mut Random, target: Target) {
    let number = *random.of(&[0, 1, 0x7f, 0x80, 0x7fff_ffff, 0x8000_0000, 0xffff_ffff, 1 << 63, u64::MAX]);
    let number = if random.one_of(2) { random.next() >> random.below(64) } else { number };
    let (code, size) = *random.of(&[(0x08, 1), (0x09, 1), (0x0a, 2), (0x0b, 2), (0x0c, 4), (0x0d, 4), (0x0e, 8), (0x0f, 8)]);
    bytes.push(code);
    bytes.extend(target.number(number, size));
}
