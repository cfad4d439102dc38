//! Writes the rows of frame sections as `STACK CFI`.

use super::SymbolCounts;
use crate::cfi::frames::{Frames, Name};
use crate::cfi::one_by_one::accepted_part_with_rows;
use crate::cfi::stack_cfi::{changed_rules, said, SaidRow, Unsaid};
use crate::cfi::table::{Covered, Table};
use crate::elf::covered::Covered as Addresses;
use crate::elf::program::Program;
use dwcheck_symbols::{Architecture, Expression, Variable, Writer};
use std::io::{self, Write};
use std::ops::Range;

/// At how many addresses at most rows are computed that have another value at each of them. They are in procedure
/// linkage tables.
const MOST_SINGLE: u64 = 1 << 24;

/// Writes rows.
pub(super) struct FrameWriter<W> {
    out: Writer<W>,
    architecture: Architecture,
    /// The address to which addresses are relative.
    image: u64,
    /// The addresses of which rows were written.
    written: Addresses,
    /// At how many addresses rows may still be computed.
    left: u64,
}

/// Rows without a gap that haven't been written yet.
struct Run {
    begin: u64,
    first: SaidRow,
    /// The rows after the first one: their addresses, and their rules as far as they are other ones.
    changes: Vec<(u64, Vec<(Variable, Expression)>)>,
    last: SaidRow,
}

impl<W: Write> FrameWriter<W> {
    /// Writes rows whose addresses are relative to `image`.
    pub fn new(out: Writer<W>, architecture: Architecture, image: u64) -> Self {
        FrameWriter { out, architecture, image, written: Addresses::default(), left: MOST_SINGLE }
    }

    /// Where it writes to.
    pub fn into_inner(self) -> W {
        self.out.into_inner()
    }

    /// Writes the rows of the frame sections of a program. Where two have an address, those of `.eh_frame` count, as
    /// for programs that run.
    pub fn write_all(&mut self, program: &Program<'_>, counts: &mut SymbolCounts) -> io::Result<()> {
        let mut sections: Vec<_> = Frames::all(program).collect();
        sections.sort_by_key(|frames| !matches!(frames, Ok(frames) if frames.name() == Name::EhFrame));
        for frames in sections {
            let accepted = frames.map_err(|error| error.to_string());
            match accepted.and_then(|frames| accepted_part_with_rows(frames).map_err(|error| error.to_string())) {
                Ok((frames, process, problem)) => {
                    counts.unused.extend(problem);
                    self.write_table(&mut Table::of_frames(&frames, &process, false, true), counts)?;
                }
                Err(why) => counts.unused.push(why),
            }
        }
        Ok(())
    }

    fn write_table(&mut self, table: &mut Table<'_>, counts: &mut SymbolCounts) -> io::Result<()> {
        let covered = table.covered.clone();
        for Covered { range, is_signal_frame } in &covered {
            if *is_signal_frame {
                count(counts, Unsaid::SignalFrame);
            }
            let gaps: Vec<_> = self.written.gaps(range.start, range.end).collect();
            for gap in gaps {
                self.write_range(table, &gap, counts)?;
            }
        }
        covered.iter().for_each(|one| self.written.insert(one.range.start, one.range.end));
        Ok(())
    }

    /// Writes the rows of a range of addresses.
    fn write_range(&mut self, table: &mut Table<'_>, range: &Range<u64>, counts: &mut SymbolCounts) -> io::Result<()> {
        let (mut at, mut run): (u64, Option<Run>) = (range.start, None);
        while at < range.end {
            let row = match table.row(at) {
                Ok(row) => row,
                Err(next) => {
                    self.write_run(run.take(), at, counts)?;
                    at = next.max(at.saturating_add(1));
                    continue;
                }
            };
            let end = row.row.end.min(range.end);
            match said(row, at, self.architecture) {
                Ok(said) if said.is_for_one_address && self.left == 0 => {
                    count(counts, Unsaid::Cfa);
                    self.write_run(run.take(), at, counts)?;
                    at = end;
                }
                Ok(said) => {
                    self.left -= u64::from(said.is_for_one_address);
                    let next = if said.is_for_one_address { at + 1 } else { end };
                    said.unsaid.iter().for_each(|unsaid| count(counts, *unsaid));
                    run = Some(Run::with(run, at, said));
                    at = next;
                }
                Err(unsaid) => {
                    count(counts, unsaid);
                    self.write_run(run.take(), at, counts)?;
                    at = end;
                }
            }
        }
        self.write_run(run, range.end, counts)
    }

    /// Writes rows that end at an address.
    fn write_run(&mut self, run: Option<Run>, end: u64, counts: &mut SymbolCounts) -> io::Result<()> {
        let Run { begin, first, changes, .. } = match run {
            Some(run) => run,
            None => return Ok(()),
        };
        let relative = |address: u64| address.wrapping_sub(self.image);
        counts.frames += 1;
        counts.rows += changes.len();
        self.out.frame(&(relative(begin)..relative(end)), &first.rules)?;
        changes.iter().try_for_each(|(address, rules)| self.out.row(relative(*address), rules))
    }
}

impl Run {
    /// The run with another row, or one that begins with it.
    fn with(run: Option<Run>, begin: u64, row: SaidRow) -> Self {
        let mut run = match run {
            Some(run) => run,
            None => return Run { begin, last: row.clone(), first: row, changes: Vec::new() },
        };
        let changes = changed_rules(&run.last, &row);
        if !changes.is_empty() {
            run.changes.push((begin, changes));
        }
        Run { last: row, ..run }
    }
}

fn count(counts: &mut SymbolCounts, unsaid: Unsaid) {
    *counts.unsaid.entry(unsaid).or_insert(0) += 1;
}
