//! The rows of a function: its row entries, read one after another.

use super::function::Function;
use super::header::{Abi, Header, Version};
use super::rules::{Fault, FaultKind};
use crate::cfi::row::{Cfa, Row, Rule};
use dwcheck_types::codes::op;
use dwcheck_types::cursor::{push_sleb, push_uleb, Cursor};
use std::borrow::Cow;
use std::fmt;

/// The CFA is relative to the stack pointer; else to the frame pointer.
const BY_STACK_POINTER: u8 = 1;
/// The return address is signed.
const SIGNED: u8 = 0x80;

/// The item is relative to a register; else to the CFA.
const BY_REGISTER: u32 = 1;
/// The value is in memory, at the sum; else it is the sum.
const IN_MEMORY: u32 = 2;
/// The bit of a control word that has no meaning.
const UNUSED: u32 = 4;
/// What follows these bits is the number of the register.
const REGISTER_SHIFT: u32 = 3;

/// The most words of a row: 4 bits say how many.
const MOST_WORDS: usize = 15;

/// A row of an SFrame section. It speaks of the CFA, the return address and the frame pointer; of no other register.
#[derive(Clone, Debug, Default, PartialEq, Eq)]
pub struct SframeRow {
    /// The addresses and the rules, with DWARF's numbers of registers. The CFA of an outermost frame has no meaning.
    pub row: Row<'static>,
    /// Whether the frame is the outermost one: neither the CFA nor the return address is known.
    pub is_outermost: bool,
    /// Whether the return address is signed (AArch64).
    pub is_signed: bool,
}

/// A row entry, read and checked by the rules 16 to 21.
#[derive(Clone, Copy)]
pub(super) struct RowEntry {
    /// The distance of its first address from that of its function or its block.
    pub start: u64,
    info: u8,
    words: Words,
}

/// The words of a row entry.
#[derive(Clone, Copy, Default)]
struct Words {
    all: [i32; MOST_WORDS],
    count: usize,
    /// The bytes of each.
    size: u8,
}

/// Where the value of a register or the CFA is, as a flexible row says.
#[derive(Clone, Copy)]
struct Item {
    control: u32,
    offset: i64,
}

/// The items of a flexible row.
#[derive(Clone, Copy)]
struct Items {
    cfa: Item,
    return_address: Option<Item>,
    frame_pointer: Option<Item>,
}

/// The row entries of a function, one after another.
pub(super) struct RowEntries<'a> {
    header: &'a Header,
    function: &'a Function,
    cursor: Cursor<'a>,
    left: u64,
    last: Option<u64>,
}

impl<'a> RowEntries<'a> {
    /// `bytes` are those of the section up to the end of the row entries.
    pub fn new(header: &'a Header, function: &'a Function, mut cursor: Cursor<'a>) -> Self {
        // That they begin inside is a rule that was checked.
        let left = if cursor.take(function.rows).is_ok() { function.row_count } else { 0 };
        RowEntries { header, function, cursor, left, last: None }
    }

    /// The offset in the section of the next entry.
    pub fn at(&self) -> u64 {
        self.cursor.at() as u64
    }

    /// The next entry. `None` after the last one.
    pub fn next(&mut self) -> Option<Result<RowEntry, Fault>> {
        self.left = self.left.checked_sub(1)?;
        let offset = self.at();
        let read = self.read();
        if read.is_err() {
            self.left = 0;
        }
        Some(read.map_err(|kind| Fault::of_function(kind, offset, self.function.offset)))
    }

    fn read(&mut self) -> Result<RowEntry, FaultKind> {
        let (start, info) = self.head().ok_or(FaultKind::RowTruncated)?;
        let function = self.function;
        let end = function.block.unwrap_or(function.end - function.begin);
        if start >= end && start > 0 {
            return Err(FaultKind::RowOutside);
        }
        if self.last.replace(start).map_or(false, |last| start <= last) {
            return Err(FaultKind::RowOrder);
        }
        let size = 1u8 << (info >> 5 & 3);
        if size > 4 || info & SIGNED != 0 && self.header.abi != Abi::Aarch64 {
            return Err(FaultKind::RowInfo);
        }
        let count = usize::from(info >> 1 & 0xf);
        let words = self.words(count, size).ok_or(FaultKind::RowTruncated)?;
        self.check_words(&words)?;
        Ok(RowEntry { start, info, words })
    }

    fn head(&mut self) -> Option<(u64, u8)> {
        Some((self.cursor.number(self.function.start_size).ok()?, self.cursor.byte().ok()?))
    }

    fn words(&mut self, count: usize, size: u8) -> Option<Words> {
        let mut words = Words { count, size, ..Words::default() };
        for word in words.all.iter_mut().take(count) {
            *word = self.cursor.signed(size).ok()? as i32;
        }
        Some(words)
    }

    fn check_words(&self, words: &Words) -> Result<(), FaultKind> {
        let most = match self.header.abi {
            Abi::Amd64 => 2,
            Abi::Aarch64 => 3,
        };
        match words.count {
            0 if self.header.version == Version::Three => Ok(()),
            0 => Err(FaultKind::WordCount),
            _ if self.function.is_flexible => words.items().map(|_| ()).ok_or(FaultKind::ControlWord),
            count if count > most => Err(FaultKind::WordCount),
            _ => Ok(()),
        }
    }
}

impl Words {
    fn all(&self) -> &[i32] {
        self.all.get(..self.count).unwrap_or(&[])
    }

    /// The items of a flexible row, in the order in which they are written. `None` if they aren't well formed.
    fn items(&self) -> Option<Items> {
        let mut items = [None; 3];
        let mut words = self.all().iter();
        let mut place = 0;
        while let Some(control) = words.next() {
            // Control words are unsigned numbers of as many bytes as words have.
            let control = *control as u32 & (u32::MAX >> (32 - 8 * u32::from(self.size)));
            let item = items.get_mut(place)?;
            place += 1;
            if control == 0 {
                continue;
            }
            let register = control >> REGISTER_SHIFT;
            let is_known = control & UNUSED == 0 && register <= u32::from(u16::MAX);
            if !is_known || control & BY_REGISTER == 0 && register != 0 {
                return None;
            }
            *item = Some(Item { control, offset: i64::from(*words.next()?) });
        }
        let [cfa, return_address, frame_pointer] = items;
        // A CFA can't be relative to itself.
        let cfa = cfa.filter(|item: &Item| item.control & BY_REGISTER != 0)?;
        Some(Items { cfa, return_address, frame_pointer })
    }
}

impl Item {
    fn register(self) -> u16 {
        (self.control >> REGISTER_SHIFT) as u16
    }

    fn is_in_memory(self) -> bool {
        self.control & IN_MEMORY != 0
    }

    /// The operation that pushes the register plus the offset.
    fn sum(self) -> Vec<u8> {
        let mut bytes = Vec::with_capacity(4);
        match self.register() {
            register @ 0..=31 => bytes.push(op::BREG0 + register as u8),
            register => {
                bytes.push(op::BREGX);
                push_uleb(&mut bytes, u64::from(register));
            }
        }
        push_sleb(&mut bytes, self.offset);
        bytes
    }

    fn cfa(self) -> Cfa<'static> {
        let (register, offset) = (self.register(), self.offset);
        if !self.is_in_memory() {
            return Cfa::RegisterOffset { register, offset };
        }
        let mut bytes = self.sum();
        bytes.push(op::DEREF);
        Cfa::Expression(Cow::Owned(bytes))
    }

    fn rule(self) -> Rule<'static> {
        match (self.control & BY_REGISTER != 0, self.is_in_memory(), self.offset) {
            (false, true, offset) => Rule::Offset(offset),
            (false, false, offset) => Rule::ValOffset(offset),
            (true, true, _) => Rule::Expression(Cow::Owned(self.sum())),
            (true, false, 0) => Rule::Register(self.register()),
            (true, false, _) => Rule::ValExpression(Cow::Owned(self.sum())),
        }
    }
}

impl RowEntry {
    /// The row, which is at these addresses.
    pub fn row(&self, header: &Header, function: &Function, begin: u64, end: u64) -> SframeRow {
        let abi = header.abi;
        let is_signed = self.info & SIGNED != 0;
        let words = self.words.all();
        let cfa_offset = match words.first() {
            Some(offset) => i64::from(*offset),
            None => return outermost(abi, begin, end),
        };
        let flexible = if function.is_flexible { self.words.items() } else { None };
        let offset = |place: usize| words.get(place).map(|offset| Rule::Offset(i64::from(*offset)));
        let (cfa, return_address, frame_pointer) = match (flexible, abi) {
            (Some(items), _) => {
                (items.cfa.cfa(), items.return_address.map(Item::rule), items.frame_pointer.map(Item::rule))
            }
            (None, Abi::Amd64) => (self.cfa(abi, cfa_offset), None, offset(1)),
            (None, Abi::Aarch64) => (self.cfa(abi, cfa_offset), offset(1), offset(2)),
        };
        let fixed = Some(header.fixed_return_address).filter(|offset| *offset != 0).map(Rule::Offset);
        let pointer = frame_pointer.map(|rule| (abi.frame_pointer(), rule));
        let address = return_address.or(fixed).map(|rule| (abi.return_address(), rule));
        let row = Row { begin, end, cfa, rules: pointer.into_iter().chain(address).collect() };
        SframeRow { row, is_outermost: false, is_signed }
    }

    fn cfa(&self, abi: Abi, offset: i64) -> Cfa<'static> {
        let is_by_stack_pointer = self.info & BY_STACK_POINTER != 0;
        let register = if is_by_stack_pointer { abi.stack_pointer() } else { abi.frame_pointer() };
        Cfa::RegisterOffset { register, offset }
    }
}

/// The row of a frame that has no caller.
fn outermost(abi: Abi, begin: u64, end: u64) -> SframeRow {
    let rules = vec![(abi.return_address(), Rule::Undefined)];
    let cfa = Cfa::RegisterOffset { register: abi.stack_pointer(), offset: 0 };
    SframeRow { row: Row { begin, end, cfa, rules }, is_outermost: true, is_signed: false }
}

/// The rules without the addresses: `cfa=r7+16 r6=[c-16] r16=[c-8]`, or `cfa=u r16=u` for an outermost frame.
impl fmt::Display for SframeRow {
    fn fmt(&self, f: &mut fmt::Formatter<'_>) -> fmt::Result {
        match self.is_outermost {
            true => f.write_str("cfa=u")?,
            false => write!(f, "cfa={}", self.row.cfa)?,
        }
        self.row.rules.iter().try_for_each(|(register, rule)| write!(f, " r{}={}", register, rule))?;
        f.write_str(if self.is_signed { " signed" } else { "" })
    }
}
