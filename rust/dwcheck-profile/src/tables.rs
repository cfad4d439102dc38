//! The unwind tables of files, one for each FDE, compiled when they are first needed.
//!
//! There is one table for each FDE, at the addresses as linked, wherever and however often processes mapped the
//! file. An FDE is checked and compiled when a frame first needs it, by whichever thread walks there first.

use super::error::Error;
use dwcheck::Process;
use dwcheck_elf::internal::{add_fde, SectionTable};
use dwcheck_types::target::Target;
use once_cell::sync::OnceCell;
use std::ops::Range;

/// Where a table is among those of a file.
#[derive(Clone, Copy, Debug, PartialEq, Eq)]
pub(super) struct TableId {
    section: u32,
    fde: u32,
}

/// An FDE that was needed.
#[derive(Debug)]
struct Compiled {
    /// Its table, or why it is refused.
    table: Result<Process, Error>,
    /// The number of the round of walks that needed it first.
    round: u32,
}

/// A frame section, with those tables of it that were needed.
#[derive(Debug)]
struct Section {
    table: SectionTable<'static>,
    /// For each record its table.
    compiled: Vec<OnceCell<Box<Compiled>>>,
}

/// The tables of a file, or of code that was made at run time.
#[derive(Debug, Default)]
pub(super) struct Tables {
    sections: Vec<Section>,
    /// Which section counts at which addresses, ascending. `None` if the first one that covers an address counts there.
    ranges: Option<Vec<(Range<u64>, usize)>>,
}

impl Tables {
    /// The tables of frame sections, of which the first one that covers an address counts there.
    pub fn of(sections: Vec<SectionTable<'static>>) -> Tables {
        let section = |table: SectionTable<'static>| {
            let compiled = std::iter::repeat_with(OnceCell::new).take(table.count()).collect();
            Section { table, compiled }
        };
        Tables { sections: sections.into_iter().map(section).collect(), ranges: None }
    }

    /// The tables of frame sections, each of which counts at some addresses. These are ascending.
    pub fn of_ranges(sections: Vec<SectionTable<'static>>, ranges: Vec<(Range<u64>, usize)>) -> Tables {
        Tables { ranges: Some(ranges), ..Tables::of(sections) }
    }

    /// The sections that may count at an address, with their indices.
    fn sections_at(&self, address: u64) -> impl Iterator<Item = (usize, &Section)> {
        let indices = match &self.ranges {
            Some(ranges) => {
                let next = ranges.partition_point(|(range, _)| range.start <= address);
                let range = next.checked_sub(1).and_then(|last| ranges.get(last));
                range.filter(|(range, _)| range.contains(&address)).map_or(0..0, |(_, index)| *index..*index + 1)
            }
            None => 0..self.sections.len(),
        };
        indices.filter_map(|index| Some((index, self.sections.get(index)?)))
    }

    /// Whether a table covers an address.
    pub fn covers(&self, address: u64) -> bool {
        self.sections_at(address).any(|(_, section)| section.table.find(address).is_some())
    }

    /// The table with rows for an address, which is compiled if nobody has asked for it before, and whether an
    /// earlier round of walks needed it too.
    pub fn find(&self, address: u64, round: u32) -> Option<(TableId, bool)> {
        self.sections_at(address).find_map(|(place, section)| {
            let (fde, since) = section.fde(address, round)?;
            Some((TableId { section: place.try_into().ok()?, fde: fde.try_into().ok()? }, since < round))
        })
    }

    /// Whether the FDE of a table begins at an address.
    pub fn begins_at(&self, id: TableId, address: u64) -> bool {
        let section = self.sections.get(id.section as usize);
        section.map_or(false, |section| section.table.addresses(id.fde as usize).start == address)
    }

    /// A table that was found, if its rows are for tasks of this kind.
    pub fn get(&self, id: TableId, target: Target) -> Option<&Process> {
        let compiled = self.sections.get(id.section as usize)?.compiled.get(id.fde as usize)?.get()?;
        compiled.table.as_ref().ok().filter(|process| process.target() == target)
    }

    /// What is refused of those FDEs that frames needed.
    pub fn problems(&self) -> impl Iterator<Item = String> + '_ {
        self.sections.iter().flat_map(|section| {
            let refused = section.compiled.iter().enumerate();
            refused.filter_map(move |(fde, compiled)| {
                let why = compiled.get()?.table.as_ref().err()?;
                Some(section.table.problem(fde, &why.to_string()))
            })
        })
    }
}

impl Section {
    /// The FDE that covers an address, if it can be used, and the round that needed it first.
    fn fde(&self, address: u64, round: u32) -> Option<(usize, u32)> {
        let fde = self.table.find(address)?.fde;
        let compile = || Box::new(Compiled { table: self.compile(fde), round });
        let compiled = self.compiled.get(fde)?.get_or_init(compile);
        compiled.table.is_ok().then_some((fde, compiled.round))
    }

    /// Checks and compiles an FDE.
    fn compile(&self, fde: usize) -> Result<Process, Error> {
        let one = self.table.table_of_one_fde(fde).map_err(Error::Fde)?;
        let mut process = Process::new(one.format.target);
        let addresses = self.table.addresses(fde);
        let module = one.format.module(&one.bytes, 0).range(addresses.start..=addresses.end.saturating_sub(1));
        add_fde(&mut process, &one, &module, addresses.start).map_err(Error::Library)?;
        Ok(process)
    }
}
