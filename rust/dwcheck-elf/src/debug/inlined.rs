//! Finds the functions that are inlined at addresses which are known beforehand, by the debug information of a
//! program. Of the sections only what these addresses need is decompressed, and lines aren't read.

mod covers;
mod sections;
mod unit_functions;
mod unit_lines;
mod whole_units;

pub(crate) use covers::Covers;
pub(crate) use unit_lines::LineRange;
pub(crate) use whole_units::{UnitFunction, UnitSource, WholeUnit, WholeUnits};

use crate::debug::debug_info::Slice;
use crate::elf::program::Program;
use gimli::{Dwarf, UnitHeader, UnitSectionOffset, UnitType};
use rayon::prelude::*;
use rustc_hash::FxHashMap;
use sections::Sections;
use std::sync::atomic::{AtomicBool, Ordering};
use unit_functions::Reader;

/// The names of the functions at an address, the innermost first. The last one is that of the function that isn't
/// inlined. `None` where the debug information has no name.
pub(crate) type Functions = Vec<Option<String>>;

/// The functions at addresses, which are ascending. `shared` is the file that the program's `.gnu_debugaltlink`
/// names. An address of no function isn't in the result.
pub(crate) fn functions_at(
    program: &Program<'_>,
    shared: Option<&Program<'_>>,
    addresses: &[u64],
) -> FxHashMap<u64, Functions> {
    if addresses.is_empty() || !program.has_section(".debug_info") {
        return FxHashMap::default();
    }
    let listed = Covers::listed(program);
    let shared = shared.map(|shared| Sections::read(shared, None));
    let read = |end: Option<usize>| Search::of(&Sections::read(program, end), shared.as_ref(), &listed, end, addresses);
    match listed.end_of(addresses) {
        Some(end) => read(Some(end)).or_else(|| read(None)),
        None => read(None),
    }
    .unwrap_or_default()
}

/// The units of `.debug_info`.
pub(crate) struct Info<'s> {
    pub dwarf: Dwarf<Slice<'s>>,
    /// Their headers, in ascending order of their offsets.
    pub headers: Vec<UnitHeader<Slice<'s>>>,
}

impl<'s> Info<'s> {
    /// The units up to one that can't be read.
    pub fn of(dwarf: Dwarf<Slice<'s>>) -> Info<'s> {
        Info::of_each(dwarf, |_| {})
    }

    /// The same. `note` is told of each unit.
    pub fn of_each(dwarf: Dwarf<Slice<'s>>, mut note: impl FnMut(&UnitHeader<Slice<'s>>)) -> Info<'s> {
        let mut units = dwarf.units();
        let headers = std::iter::from_fn(|| units.next().ok().flatten()).inspect(|header| note(header)).collect();
        Info { dwarf, headers }
    }

    /// The unit that begins at an offset of `.debug_info`.
    pub fn header_at(&self, offset: usize) -> Option<&UnitHeader<Slice<'s>>> {
        self.headers.get(self.headers.binary_search_by_key(&offset, unit_begin).ok()?)
    }

    /// The addresses of all units: those that are listed, and those that units say themselves.
    pub fn covers(&self, listed: &Covers) -> Covers {
        let others =
            self.headers.par_iter().filter(|header| is_unit_with_code(header) && !listed.has(unit_begin(header)));
        let said = others.flat_map_iter(|header| {
            let unit = unit_functions::read_unit_without_lines(&self.dwarf, *header).ok();
            let ranges = unit.and_then(|unit| self.dwarf.unit_ranges(&unit).ok());
            let ranges = ranges.map_or_else(Vec::new, crate::debug::debug_info::ranges_of);
            ranges.into_iter().map(move |range| (range, unit_begin(header)))
        });
        listed.with(said.collect())
    }

    /// The index of the unit that has an offset of `.debug_info`. `None` if no unit does.
    fn unit_at(&self, offset: usize) -> Option<usize> {
        let next = self.headers.partition_point(|header| unit_begin(header) <= offset);
        let header = self.headers.get(next.checked_sub(1)?)?;
        Some(next - 1).filter(|_| offset - unit_begin(header) < header.length_including_self())
    }
}

/// The offset at which a unit begins.
fn unit_begin(header: &UnitHeader<Slice<'_>>) -> usize {
    match header.offset() {
        UnitSectionOffset::DebugInfoOffset(offset) => offset.0,
        UnitSectionOffset::DebugTypesOffset(_) => usize::MAX,
    }
}

/// The units that may have functions at the addresses.
struct Search<'s> {
    info: Info<'s>,
    shared: Option<Info<'s>>,
    /// Whether a name is in the part of `.debug_info` that wasn't decompressed.
    lacks: AtomicBool,
}

/// A function with an address: the place of its unit among those that cover the address, and the names.
type Found = (u64, usize, Functions);

impl<'s> Search<'s> {
    /// The functions at addresses. `end` is the end of the part of `.debug_info` that was decompressed. `None` if
    /// that isn't enough, or the sections can't be read.
    fn of(
        sections: &'s Sections<'s>,
        shared: Option<&'s Sections<'s>>,
        listed: &Covers,
        end: Option<usize>,
        addresses: &[u64],
    ) -> Option<FxHashMap<u64, Functions>> {
        let info = Info::of(sections.dwarf(shared)?);
        let shared = shared.and_then(|shared| Some(Info::of(shared.dwarf(None)?)));
        let search = Search { info, shared, lacks: AtomicBool::new(false) };
        let covers = match end {
            Some(_) => listed.clone(),
            None => search.info.covers(listed),
        };
        let found = search.functions(&covers, addresses);
        (end.is_none() || !search.lacks.load(Ordering::Relaxed)).then_some(found)
    }

    /// The functions at addresses: each unit is read once, and different ones in parallel.
    fn functions(&self, covers: &Covers, addresses: &[u64]) -> FxHashMap<u64, Functions> {
        let mut by_unit: FxHashMap<usize, Vec<(u64, usize)>> = FxHashMap::default();
        for address in addresses {
            for (place, unit) in covers.at(*address).enumerate() {
                by_unit.entry(unit).or_default().push((*address, place));
            }
        }
        let by_unit: Vec<_> = by_unit.into_iter().collect();
        let found: Vec<Found> =
            by_unit.par_iter().flat_map_iter(|(unit, wanted)| self.of_unit(*unit, wanted)).collect();
        let mut best: FxHashMap<u64, (usize, Functions)> = FxHashMap::default();
        for (address, place, functions) in found {
            if best.get(&address).map_or(true, |(other, _)| place < *other) {
                best.insert(address, (place, functions));
            }
        }
        best.into_iter().map(|(address, (_, functions))| (address, functions)).collect()
    }

    /// The functions of a unit at these addresses, which are ascending.
    fn of_unit(&self, unit: usize, wanted: &[(u64, usize)]) -> Vec<Found> {
        let addresses: Vec<u64> = wanted.iter().map(|(address, _)| *address).collect();
        let mut reader = Reader::new(self);
        let found = self.info.unit_at(unit).and_then(|unit| reader.functions(unit, &addresses).ok());
        let found = found.unwrap_or_default().into_iter().zip(wanted);
        found.filter_map(|(functions, (address, place))| Some((*address, *place, functions?))).collect()
    }
}

/// Whether a unit has code, and not only types.
fn is_unit_with_code(header: &UnitHeader<Slice<'_>>) -> bool {
    !matches!(header.type_(), UnitType::Type { .. } | UnitType::SplitType { .. })
}
