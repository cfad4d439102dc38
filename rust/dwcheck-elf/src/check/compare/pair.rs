//! Walks through two tables together.

use super::cfa::{is_for_one_address, Values};
use super::difference::{Difference, Kind, Place, Support};
use super::rules::{compared, Found, Speech};
use crate::cfi::sframe::Abi;
use crate::cfi::table::{Covered, Table, TableName};
use crate::cfi::table_row::TableRow;
use crate::elf::format::Name;
use std::collections::BTreeMap;
use std::fmt;
use std::ops::Range;

/// At how many addresses at most rows are compared that have another value at each of them. They are in procedure
/// linkage tables.
const MOST_SINGLE: u64 = 1 << 24;

/// How many places of a difference are judged by the code at most.
const MOST_KEPT: usize = 64;

/// Why something isn't compared.
#[derive(Clone, Copy, Debug, PartialEq, Eq, PartialOrd, Ord)]
pub enum NotSaid {
    /// A table has an expression for it whose value isn't known.
    Expression,
    /// One table has no rule for it, so that the ABI decides.
    Unspecified,
    /// SFrame speaks of no register but the frame pointer, and a symbol file of no others than general ones.
    Registers,
    /// SFrame can't say that the frame pointer is lost.
    Undefined,
    /// Versions 1 and 2 of SFrame, `.debug_frame` and symbol files can't say that a frame is a signal frame.
    SignalFrame,
    /// A symbol file can't say that the return address is signed.
    Signed,
    /// The return address has another register.
    ReturnRegister,
    /// There are too many addresses at which an expression has another value at each.
    Single,
}

/// Two tables that were compared.
#[derive(Clone, Debug)]
pub struct Pair {
    /// The tables.
    pub tables: [TableName; 2],
    /// How many addresses both cover.
    pub bytes: u64,
    /// How many only the first, and only the second covers.
    pub only: [u64; 2],
    /// How many addresses have rows that differ, though the code shows that both are right.
    pub both_right: u64,
    /// At how many addresses something isn't compared, by the reason.
    pub not_said: BTreeMap<NotSaid, u64>,
    /// What differs, ascending by address.
    pub differences: Vec<Difference>,
}

impl Pair {
    /// Compares two tables. This takes time in proportion to their rows, and to the addresses of procedure linkage
    /// tables.
    pub(super) fn of(first: &mut Table<'_>, second: &mut Table<'_>, values: Option<&Values>) -> Self {
        let size = |table: &Table<'_>| -> u64 {
            table.covered.iter().map(|one| one.range.end - one.range.start).fold(0, u64::saturating_add)
        };
        let sizes = [size(first), size(second)];
        let speech = match (second.name, second.of_general_registers()) {
            (TableName::Section(Name::Sframe), _) => Speech::Frame(frame_pointer(first, second)),
            (_, Some(architecture)) => Speech::General(architecture),
            _ => Speech::All,
        };
        let pair = Pair {
            tables: [first.name, second.name],
            bytes: 0,
            only: [0, 0],
            both_right: 0,
            not_said: BTreeMap::new(),
            differences: Vec::new(),
        };
        let mut walk = Walk { pair, speech, values, open: Vec::new(), left: MOST_SINGLE };
        walk.run(first, second);
        let mut pair = walk.pair;
        pair.only = sizes.map(|size| size.saturating_sub(pair.bytes));
        pair
    }

    /// Whether nothing differs.
    pub fn is_clean(&self) -> bool {
        self.differences.is_empty()
    }
}

/// The DWARF number of the frame pointer of which SFrame rows speak.
fn frame_pointer(first: &mut Table<'_>, second: &mut Table<'_>) -> u16 {
    let begin = second.covered.first().map_or(0, |one| one.range.start);
    let register = |row: Result<&TableRow, u64>| row.map(|row| row.return_register).ok();
    let return_register = register(second.row(begin)).or_else(|| register(first.row(begin)));
    let abi = [Abi::Amd64, Abi::Aarch64].into_iter().find(|abi| Some(abi.return_address()) == return_register);
    abi.unwrap_or(Abi::Amd64).frame_pointer()
}

/// A walk through two tables.
struct Walk<'v> {
    pair: Pair,
    speech: Speech,
    values: Option<&'v Values>,
    /// The differences in the current FDE of the first table.
    open: Vec<Difference>,
    /// At how many addresses single ones may still be compared.
    left: u64,
}

impl Walk<'_> {
    fn run(&mut self, first: &mut Table<'_>, second: &mut Table<'_>) {
        let (ones, others) = (first.covered.clone(), second.covered.clone());
        let mut others = others.iter().peekable();
        for one in &ones {
            while others.next_if(|other| other.range.end <= one.range.start).is_some() {}
            while let Some(other) = others.peek().filter(|other| other.range.start < one.range.end) {
                self.overlap(first, second, one, other);
                // One that goes on past this FDE is needed for the next one, too.
                if other.range.end > one.range.end {
                    break;
                }
                others.next();
            }
            self.pair.differences.append(&mut self.open);
        }
    }

    /// Compares the addresses that an FDE of the first table shares with one of the second.
    fn overlap(&mut self, first: &mut Table<'_>, second: &mut Table<'_>, one: &Covered, other: &Covered) {
        let (mut at, end) = (one.range.start.max(other.range.start), one.range.end.min(other.range.end));
        self.pair.bytes = self.pair.bytes.saturating_add(end - at);
        let is_said = first.has_signal_frames && second.has_signal_frames;
        let is_different = one.is_signal_frame != other.is_signal_frame;
        if is_different && !is_said {
            self.note(NotSaid::SignalFrame, end - at);
        }
        let mut has_signal_difference = is_different && is_said;
        while at < end {
            let (ours, theirs) = match (first.row(at), second.row(at)) {
                (Ok(ours), Ok(theirs)) => (ours, theirs),
                (ours, theirs) => {
                    // There is no row, up to this address.
                    let next = ours.err().into_iter().chain(theirs.err()).min().unwrap_or(end);
                    at = next.max(at + 1);
                    continue;
                }
            };
            if std::mem::take(&mut has_signal_difference) {
                self.add(Kind::SignalFrame, Vec::new(), one, at..end, [ours, theirs]);
            }
            let next = ours.row.end.min(theirs.row.end).min(end);
            at = self.rows(one, at..next, [ours, theirs]);
        }
    }

    /// Compares two rows at these addresses, and returns the address up to which they were compared.
    fn rows(&mut self, one: &Covered, range: Range<u64>, rows: [&TableRow; 2]) -> u64 {
        let [ours, theirs] = rows;
        let mut end = range.end;
        if is_for_one_address(&ours.row.cfa, &theirs.row.cfa, self.values) {
            if self.left == 0 {
                self.note(NotSaid::Single, end - range.start);
                return end;
            }
            self.left -= 1;
            end = range.start + 1;
        }
        let Found { different, not_said } = compared(rows, range.start, self.speech, self.values);
        not_said.into_iter().for_each(|why| self.note(why, end - range.start));
        if let Some((kind, registers)) = different {
            self.add(kind, registers, one, range.start..end, rows);
        }
        end
    }

    fn note(&mut self, why: NotSaid, bytes: u64) {
        *self.pair.not_said.entry(why).or_insert(0) += bytes;
    }

    /// Adds what differs at these addresses to what differs in the same way in the FDE.
    fn add(&mut self, kind: Kind, registers: Vec<u16>, one: &Covered, range: Range<u64>, rows: [&TableRow; 2]) {
        let bytes = range.end - range.start;
        match self.open.iter_mut().find(|known| known.kind == kind && known.registers == registers) {
            Some(known) => {
                known.bytes += bytes;
                known.places += usize::from(known.end != range.start);
                known.end = range.end;
                let goes_on = known.kept.last().map_or(false, |last| last.goes_on(&range, rows));
                let has_room = known.kept.len() < MOST_KEPT;
                match known.kept.last_mut() {
                    Some(last) if goes_on => last.range.end = range.end,
                    _ if has_room => known.kept.push(place(range, rows)),
                    _ => known.is_cut = true,
                }
            }
            None => self.open.push(Difference {
                kind,
                fde: one.range.start,
                address: range.start,
                bytes,
                places: 1,
                registers,
                rows: rows.map(TableRow::clone),
                support: Support::Unknown,
                code: None,
                end: range.end,
                kept: vec![place(range, rows)],
                is_cut: false,
            }),
        }
    }
}

/// A place at which two rows differ.
fn place(range: Range<u64>, rows: [&TableRow; 2]) -> Place {
    Place { range, rows: rows.map(TableRow::clone) }
}

impl fmt::Display for NotSaid {
    fn fmt(&self, f: &mut fmt::Formatter<'_>) -> fmt::Result {
        f.write_str(match self {
            NotSaid::Expression => "expression",
            NotSaid::Unspecified => "unspecified",
            NotSaid::Registers => "registers",
            NotSaid::Undefined => "undefined",
            NotSaid::SignalFrame => "signal-frame",
            NotSaid::Signed => "signed",
            NotSaid::ReturnRegister => "return-register",
            NotSaid::Single => "too-many",
        })
    }
}
