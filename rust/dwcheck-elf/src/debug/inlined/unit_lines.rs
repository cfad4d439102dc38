//! The lines of a unit: which addresses have the code of which line.

use crate::debug::debug_info::{file_path, Slice};
use gimli::{Dwarf, Unit};
use rustc_hash::FxHashMap;
use std::ops::Range;

/// Addresses with the code of a line.
#[derive(Clone, Debug, PartialEq, Eq)]
pub(crate) struct LineRange {
    /// The addresses.
    pub range: Range<u64>,
    /// The number of the file, as the unit counts them.
    pub file: u64,
    /// The number of the line, at least 1.
    pub line: u32,
}

/// The lines of a unit, ascending by address. None shares an address with the one before it.
pub(super) fn lines(unit: &Unit<Slice<'_>>) -> Vec<LineRange> {
    let mut found: Vec<LineRange> = Vec::new();
    let mut rows = match unit.line_program.clone() {
        Some(program) => program.rows(),
        None => return found,
    };
    let mut open: Option<LineRange> = None;
    while let Ok(Some((_, row))) = rows.next_row() {
        let address = row.address();
        if let Some(mut before) = open.take().filter(|before| before.range.start < address) {
            before.range.end = address;
            found.push(before);
        }
        let line = row.line().and_then(|line| u32::try_from(line.get()).ok());
        open = line.filter(|_| !row.end_sequence()).map(|line| LineRange {
            range: address..address,
            file: row.file_index(),
            line,
        });
    }
    without_overlaps(found)
}

fn without_overlaps(mut lines: Vec<LineRange>) -> Vec<LineRange> {
    lines.sort_by_key(|line| line.range.start);
    let mut found: Vec<LineRange> = Vec::with_capacity(lines.len());
    for mut line in lines {
        match found.last_mut() {
            Some(last) if last.range.end == line.range.start && (last.file, last.line) == (line.file, line.line) => {
                last.range.end = line.range.end;
                continue;
            }
            Some(last) => line.range.start = line.range.start.max(last.range.end),
            None => {}
        }
        if !line.range.is_empty() {
            found.push(line);
        }
    }
    found
}

/// The paths of a unit's source files, by their numbers, as they are asked for.
pub(super) fn path_of_file(
    paths: &mut FxHashMap<u64, Option<String>>,
    dwarf: &Dwarf<Slice<'_>>,
    unit: &Unit<Slice<'_>>,
    file: u64,
) -> Option<String> {
    paths.entry(file).or_insert_with(|| file_path(dwarf, unit, file)).clone()
}

#[cfg(test)]
mod tests {
    use super::*;

    #[test]
    fn lines_that_share_addresses_are_cut() {
        let line = |range: Range<u64>, line| LineRange { range, file: 1, line };
        let found = without_overlaps(vec![line(4..8, 2), line(0..4, 2), line(6..7, 3), line(7..12, 4)]);
        assert_eq!(found, [line(0..8, 2), line(8..12, 4)]);
    }
}
