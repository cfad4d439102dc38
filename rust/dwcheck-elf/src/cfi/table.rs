//! The tables with rows of a program, whatever their format, and their rows.

use crate::cfi::frames::{Frames, Kind};
use crate::cfi::row::{Cfa, Row, Rule};
use crate::cfi::sframe::{Sframe, SframeRow};
use crate::cfi::stack_cfi::row_of_symbols;
use crate::cfi::table_row::TableRow;
use crate::elf::format::Name;
use dwcheck::{CfaRule, Process, Rows};
use dwcheck_symbols::{Architecture, SymbolFile};
use std::borrow::Cow;
use std::fmt;
use std::ops::Range;

/// Which table it is.
#[derive(Clone, Copy, Debug, PartialEq, Eq)]
pub enum TableName {
    /// A section of the program.
    Section(Name),
    /// A section of its separate file of debug information.
    Separate(Name),
    /// The rows of a symbol file of Breakpad's.
    SymbolFile,
}

/// A range of addresses that a table covers as one.
#[derive(Clone, Debug)]
pub(crate) struct Covered {
    pub range: Range<u64>,
    pub is_signal_frame: bool,
}

/// A table, and its rows, which are looked up with ascending addresses.
pub(crate) struct Table<'a> {
    pub name: TableName,
    /// Whether it can say that frames are signal frames.
    pub has_signal_frames: bool,
    /// The FDEs or functions, ascending, without two that share an address.
    pub covered: Vec<Covered>,
    /// Where the return address is signed, ascending. Not used for SFrame, whose rows say it.
    signed: Vec<Range<u64>>,
    source: Source<'a>,
    row: TableRow,
}

enum Source<'a> {
    Frames {
        process: &'a Process,
        rows: Rows<'a>,
    },
    Sframe {
        sframe: &'a Sframe<'a>,
        function: Range<u64>,
        rows: Vec<SframeRow>,
    },
    /// `image` is the address to which those of the symbol file are relative, and `rows` are those of the frame that was
    /// looked up last.
    Symbols {
        symbols: &'a SymbolFile<'a>,
        architecture: Architecture,
        image: u64,
        rows: Vec<dwcheck_symbols::Row<'a>>,
    },
}

impl<'a> Table<'a> {
    /// The table of a checked frame section. In a linked file, FDEs at address 0 are left out: those of functions that
    /// the linker dropped.
    pub fn of_frames(frames: &'a Frames<'_>, process: &'a Process, is_separate: bool, is_linked: bool) -> Self {
        let covered = frames.used().filter_map(|record| match record.kind {
            Kind::Fde { begin, end, is_signal_frame, .. } => Some(Covered { range: begin..end, is_signal_frame }),
            _ => None,
        });
        let covered = covered.filter(|one| one.range.start != 0 || !is_linked);
        let mut signed = frames.signed();
        signed.sort_by_key(|range| range.start);
        let name = if is_separate { TableName::Separate(frames.name()) } else { TableName::Section(frames.name()) };
        let has_signal_frames = frames.name() == Name::EhFrame;
        Table::new(name, has_signal_frames, covered, signed, Source::Frames { process, rows: process.rows() })
    }

    /// The table of a checked SFrame section.
    pub fn of_sframe(sframe: &'a Sframe<'a>) -> Self {
        let covered = sframe
            .by_address()
            .map(|function| Covered { range: function.addresses(), is_signal_frame: function.is_signal_frame });
        let name = TableName::Section(Name::Sframe);
        let source = Source::Sframe { sframe, function: 0..0, rows: Vec::new() };
        Table::new(name, sframe.has_signal_frames(), covered, Vec::new(), source)
    }

    /// The rows of a symbol file, whose addresses are relative to `image`.
    pub fn of_symbols(symbols: &'a SymbolFile<'a>, architecture: Architecture, image: u64) -> Self {
        let mut covered: Vec<_> = symbols.covered().collect();
        covered.sort_by_key(|range| range.start);
        let mut end = 0;
        covered.retain(|range| {
            let is_free = range.start >= end;
            end = end.max(range.end);
            is_free
        });
        let loaded = |range: Range<u64>| range.start.wrapping_add(image)..range.end.wrapping_add(image);
        let covered = covered.into_iter().map(|range| Covered { range: loaded(range), is_signal_frame: false });
        let source = Source::Symbols { symbols, architecture, image, rows: Vec::new() };
        Table::new(TableName::SymbolFile, false, covered, Vec::new(), source)
    }

    fn new(
        name: TableName,
        has_signal_frames: bool,
        covered: impl Iterator<Item = Covered>,
        signed: Vec<Range<u64>>,
        source: Source<'a>,
    ) -> Self {
        let mut covered: Vec<_> = covered.filter(|one| !one.range.is_empty()).collect();
        covered.sort_by_key(|one| one.range.start);
        Table { name, has_signal_frames, covered, signed, source, row: TableRow::default() }
    }

    /// The machine of a symbol file, which speaks of its general registers alone.
    pub fn of_general_registers(&self) -> Option<Architecture> {
        match self.source {
            Source::Symbols { architecture, .. } => Some(architecture),
            _ => None,
        }
    }

    /// Whether it covers nothing.
    pub fn is_empty(&self) -> bool {
        self.covered.is_empty()
    }

    /// The row of an address. Without one, the address where the next row may begin.
    pub fn row(&mut self, address: u64) -> Result<&TableRow, u64> {
        if !(self.row.row.begin..self.row.row.end).contains(&address) {
            self.find(address)?;
        }
        Ok(&self.row)
    }

    fn find(&mut self, address: u64) -> Result<(), u64> {
        let TableRow { row, return_register, is_outermost, is_signed } = &mut self.row;
        (row.begin, row.end) = (0, 0);
        match &mut self.source {
            Source::Frames { process, rows } => {
                let found = rows.row(address).filter(|found| found.addresses.end > address).ok_or(u64::MAX)?;
                fill(row, process, found).ok_or(found.addresses.end)?;
                (*return_register, *is_outermost) = (found.return_register, false);
                *is_signed = bound_by_signing(&self.signed, address, row);
            }
            Source::Sframe { sframe, function, rows } => {
                if !function.contains(&address) {
                    let next = sframe.function(address).ok_or(u64::MAX)?;
                    *function = next.addresses();
                    *rows = sframe.rows(next).collect();
                }
                let found = sframe_row(sframe, function.start, rows, address)?;
                *return_register = sframe.header().abi.return_address();
                (*is_outermost, *is_signed) = (found.is_outermost, found.is_signed);
                *row = found.row;
            }
            Source::Symbols { symbols, architecture, image, rows } => {
                self.row = symbol_row(symbols, *architecture, rows, address.wrapping_sub(*image))
                    .map_err(|next| next.saturating_add(*image))?;
                let Row { begin, end, .. } = &mut self.row.row;
                (*begin, *end) = (begin.wrapping_add(*image), end.wrapping_add(*image));
            }
        }
        Ok(())
    }
}

/// The row of a symbol file for an address that is relative to the beginning of the program. `rows` are those of the
/// last frame that was looked up. Without one, where the next row may begin.
fn symbol_row<'a>(
    symbols: &'a SymbolFile<'a>,
    architecture: Architecture,
    rows: &mut Vec<dwcheck_symbols::Row<'a>>,
    address: u64,
) -> Result<TableRow, u64> {
    let is_known = |rows: &[dwcheck_symbols::Row<'_>]| {
        rows.first().map_or(false, |row| row.begin <= address) && rows.last().map_or(false, |row| address < row.end)
    };
    if !is_known(rows) {
        *rows = symbols.rows_of_frame(address);
    }
    let before = rows.partition_point(|row| row.end <= address);
    let found = rows.get(before).ok_or_else(|| symbols.end_of_frame(address).unwrap_or(u64::MAX))?;
    if found.begin > address {
        return Err(found.begin);
    }
    row_of_symbols(found, architecture).ok_or(found.end)
}

/// The row of an address in the rows of its function, or of the first one of its blocks. Without one, where the next
/// row begins.
fn sframe_row(sframe: &Sframe<'_>, begin: u64, rows: &[SframeRow], address: u64) -> Result<SframeRow, u64> {
    let function = sframe.function(begin).ok_or(u64::MAX)?;
    let (block, end) = function.block_at(address);
    let distance = block - begin;
    let after = rows.partition_point(|row| row.row.begin + distance <= address);
    let found = after.checked_sub(1).and_then(|last| rows.get(last));
    let mut found = found.cloned().ok_or_else(|| rows.first().map_or(end, |row| row.row.begin + distance))?;
    found.row.begin += distance;
    found.row.end = (found.row.end + distance).min(end);
    Ok(found)
}

/// Cuts a row where the return address begins or ceases to be signed, and says whether it is at an address of the row.
fn bound_by_signing(signed: &[Range<u64>], address: u64, row: &mut Row<'_>) -> bool {
    let after = signed.partition_point(|range| range.end <= address);
    match signed.get(after) {
        Some(range) if range.start <= address => {
            (row.begin, row.end) = (row.begin.max(range.start), row.end.min(range.end));
            true
        }
        Some(range) => {
            row.end = row.end.min(range.start);
            false
        }
        None => false,
    }
}

/// Copies a row of the library's. `None` if it isn't known what a rule is.
fn fill(row: &mut Row<'static>, process: &Process, found: &dwcheck::Row) -> Option<()> {
    let at = found.addresses.start;
    let bytes = |register| process.rule_bytes(at, register).map(Cow::Owned);
    row.cfa = match found.cfa {
        CfaRule::RegisterAndOffset { register, offset } => Cfa::RegisterOffset { register, offset },
        CfaRule::Expression(_) => Cfa::Expression(bytes(None)?),
        _ => return None,
    };
    row.rules.clear();
    for (register, rule) in &found.rules {
        let rule = match *rule {
            dwcheck::Rule::Undefined => Rule::Undefined,
            dwcheck::Rule::SameValue => Rule::SameValue,
            dwcheck::Rule::Offset(offset) => Rule::Offset(offset),
            dwcheck::Rule::ValOffset(offset) => Rule::ValOffset(offset),
            dwcheck::Rule::Register(other) => Rule::Register(other),
            dwcheck::Rule::Expression(_) => Rule::Expression(bytes(Some(*register))?),
            dwcheck::Rule::ValExpression(_) => Rule::ValExpression(bytes(Some(*register))?),
            _ => return None,
        };
        row.rules.push((*register, rule));
    }
    (row.begin, row.end) = (at, found.addresses.end);
    Some(())
}

impl TableName {
    /// The name of the section, without a space in it.
    pub fn word(&self) -> String {
        match self {
            TableName::Section(section) | TableName::Separate(section) => section.to_string(),
            TableName::SymbolFile => "symbols".to_string(),
        }
    }
}

impl fmt::Display for TableName {
    fn fmt(&self, f: &mut fmt::Formatter<'_>) -> fmt::Result {
        match self {
            TableName::Section(section) => write!(f, "{}", section),
            TableName::Separate(section) => write!(f, "{} of the separate file", section),
            TableName::SymbolFile => f.write_str("the symbol file"),
        }
    }
}
