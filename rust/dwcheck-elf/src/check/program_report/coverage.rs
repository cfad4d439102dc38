//! Which code of a program has rows, and the gaps that have none.

use super::instructions::Memory;
use crate::elf::covered::Covered;
use crate::elf::function_offset::FunctionOffset;
use crate::elf::functions::Functions;
use crate::elf::program::Program;
use std::ops::Range;

/// Code without rows may be padding only if it has at most this many bytes.
const LONGEST_PADDING: u64 = 128;

/// Which code of a program has rows.
#[derive(Clone, Debug, Default)]
pub struct Coverage {
    /// The sections with code, or the executable segments of a file without sections, ascending. No two share an
    /// address.
    pub code: Vec<(String, Range<u64>)>,
    /// The code without rows, ascending.
    pub gaps: Vec<Gap>,
    /// How many bytes of the code are covered and aren't.
    pub totals: Totals,
}

/// Numbers of bytes of code.
#[derive(Clone, Copy, Debug, Default, PartialEq, Eq)]
pub struct Totals {
    /// All code.
    pub code: u64,
    /// Padding between functions.
    pub padding: u64,
    /// Code of FDEs that are refused.
    pub refused: u64,
    /// Other code without rows.
    pub no_rows: u64,
}

/// Code without rows.
#[derive(Clone, Debug, PartialEq, Eq)]
pub struct Gap {
    /// Its addresses.
    pub addresses: Range<u64>,
    /// Why it has no rows.
    pub kind: GapKind,
    /// The function there, as it is shown. `None` for padding, and if the file has no name for it.
    pub symbol: Option<String>,
}

/// Why code has no rows.
#[derive(Clone, Copy, Debug, PartialEq, Eq)]
pub enum GapKind {
    /// No FDE covers it.
    NoFde,
    /// It is padding between functions.
    Padding,
    /// The FDE that covers it is refused.
    Refused,
}

impl Coverage {
    /// Finds the code without rows. A gap ends where a function begins, so that each has the name of its function.
    pub(super) fn of(
        program: &Program<'_>,
        functions: &Functions<'_>,
        memory: &Memory<'_>,
        covered: &Covered,
        refused: &Covered,
    ) -> Self {
        let mut coverage = Coverage { code: without_shared_addresses(program.code_sections()), ..Coverage::default() };
        coverage.totals.code = coverage.code.iter().map(|(_, section)| section.end - section.start).sum();
        let free = coverage.code.iter().flat_map(|(_, section)| covered.gaps(section.start, section.end));
        for free in free {
            let refused_part = |addresses: Range<u64>| Gap::named(addresses, GapKind::Refused, functions);
            coverage.gaps.extend(refused.parts(free.start, free.end).map(refused_part));
            let others = refused.gaps(free.start, free.end).flat_map(|part| parts_between_functions(part, functions));
            coverage.gaps.extend(others.map(|piece| Gap::without_fde(piece, functions, memory)));
        }
        coverage.gaps.sort_by_key(|gap| gap.addresses.start);
        for gap in &coverage.gaps {
            *coverage.totals.of(gap.kind) += gap.size();
        }
        coverage
    }
}

impl Totals {
    fn of(&mut self, kind: GapKind) -> &mut u64 {
        match kind {
            GapKind::NoFde => &mut self.no_rows,
            GapKind::Padding => &mut self.padding,
            GapKind::Refused => &mut self.refused,
        }
    }

    /// The code that has rows.
    pub fn covered(&self) -> u64 {
        self.code - self.padding - self.refused - self.no_rows
    }
}

impl Gap {
    fn named(addresses: Range<u64>, kind: GapKind, functions: &Functions<'_>) -> Self {
        let symbol = FunctionOffset::at(functions, addresses.start).map(|spot| spot.to_string());
        Gap { addresses, kind, symbol }
    }

    fn without_fde(addresses: Range<u64>, functions: &Functions<'_>, memory: &Memory<'_>) -> Self {
        let is_short = addresses.end - addresses.start <= LONGEST_PADDING;
        if is_short && memory.is_padding(addresses.clone()) {
            return Gap { addresses, kind: GapKind::Padding, symbol: None };
        }
        Gap::named(addresses, GapKind::NoFde, functions)
    }

    /// The number of its bytes.
    pub fn size(&self) -> u64 {
        self.addresses.end - self.addresses.start
    }
}

/// Ranges of which no two share an address: each begins where those before it have ended.
fn without_shared_addresses(mut all: Vec<(String, Range<u64>)>) -> Vec<(String, Range<u64>)> {
    all.sort_by_key(|(_, range)| (range.start, range.end));
    let mut end = 0;
    for (_, range) in &mut all {
        range.start = range.start.max(end);
        end = end.max(range.end);
    }
    all.retain(|(_, range)| range.start < range.end);
    all
}

/// The parts of a range between the functions that begin in it.
fn parts_between_functions<'a>(
    range: Range<u64>,
    functions: &'a Functions<'_>,
) -> impl Iterator<Item = Range<u64>> + 'a {
    let all = functions.all();
    let first = all.partition_point(|function| function.begin <= range.start);
    let last = all.partition_point(|function| function.begin < range.end).max(first);
    let begins = all[first..last].iter().map(|function| function.begin);
    let from = std::iter::once(range.start).chain(begins.clone());
    from.zip(begins.chain([range.end])).map(|(from, to)| from..to).filter(|piece| piece.start < piece.end)
}
