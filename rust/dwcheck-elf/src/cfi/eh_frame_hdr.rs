//! Holds the sorted table of `.eh_frame_hdr` against the section that it is for.
//!
//! Unwinders find FDEs by this table, so an FDE that it doesn't lead to isn't found while a program runs. Here only
//! `stack` and `vars` use it, for their first look-ups in a file.

use crate::cfi::frames::{Frames, Kind, Name};
use crate::elf::program::Program;
use gimli::{BaseAddresses, EhFrameHdr, Pointer};
use std::collections::{BTreeMap, HashSet};
use std::fmt;

/// How an entry of the table, or an FDE, can be wrong.
#[derive(Clone, Copy, Debug, PartialEq, Eq, PartialOrd, Ord)]
pub enum Mismatch {
    /// The entry leads to no FDE of the section.
    NoFde,
    /// The FDE that the entry leads to begins at another address than the entry says.
    OtherAddress,
    /// The entry's address is lower than that of the entry before it, so a binary search may miss it.
    OutOfOrder,
    /// The FDE covers addresses, and no entry leads to it.
    Missing,
}

/// How often the table is wrong in the same way.
#[derive(Clone, Copy, Debug, PartialEq, Eq)]
pub struct Mismatches {
    /// How it is wrong.
    pub kind: Mismatch,
    /// How many entries or FDEs are.
    pub count: usize,
    /// The address that the first of these entries has, or the first address of the first of these FDEs.
    pub first: u64,
}

/// What the sorted table of a program's `.eh_frame_hdr` has that its `.eh_frame` hasn't, and the other way around.
/// Empty if it has no such table, or if `frames` is another section. FDEs that are exact copies of one that is in
/// the table may be missing. This takes time in proportion to the section's length.
///
/// # Errors
///
/// Why gimli can't read the table.
pub fn mismatches(program: &Program<'_>, frames: &Frames<'_>) -> gimli::Result<Vec<Mismatches>> {
    let entries = match program.eh_frame_header().filter(|_| frames.name() == Name::EhFrame) {
        Some((address, bytes)) => search_table_entries(address, bytes, frames)?,
        None => None,
    };
    Ok(entries.map_or_else(Vec::new, |entries| compare_entries(&entries, frames)))
}

/// An entry of the table: the first address of an FDE, and the FDE's own address.
type Entry = (u64, u64);

/// The entries of the table. `None` if the header has no table.
fn search_table_entries(address: u64, bytes: &[u8], frames: &Frames<'_>) -> gimli::Result<Option<Vec<Entry>>> {
    let target = frames.target();
    let bases = BaseAddresses::default().set_eh_frame_hdr(address);
    let header = EhFrameHdr::new(bytes, target.gimli_order()).parse(&bases, target.address_size.bytes())?;
    let table = match header.table() {
        Some(table) => table,
        None => return Ok(None),
    };
    let pointer = |pointer| match pointer {
        Pointer::Direct(address) | Pointer::Indirect(address) => target.wrap(address),
    };
    let mut entries = Vec::new();
    let mut all = table.iter(&bases);
    while let Some((begin, fde)) = all.next()? {
        entries.push((pointer(begin), pointer(fde)));
    }
    Ok(Some(entries))
}

fn compare_entries(entries: &[Entry], frames: &Frames<'_>) -> Vec<Mismatches> {
    let target = frames.target();
    let mut found: BTreeMap<Mismatch, Mismatches> = BTreeMap::new();
    let mut add = |kind, first| found.entry(kind).or_insert(Mismatches { kind, count: 0, first }).count += 1;
    let mut named = HashSet::new();
    for (begin, fde) in entries {
        let offset = target.wrap(fde.wrapping_sub(frames.format().address));
        named.insert(offset);
        match frames.record(offset).and_then(|record| record.addresses()) {
            Some(addresses) if addresses.start == *begin => {}
            Some(_) => add(Mismatch::OtherAddress, *begin),
            None => add(Mismatch::NoFde, *begin),
        }
    }
    let disordered = entries.windows(2).filter(|pair| pair[1].0 < pair[0].0);
    disordered.for_each(|pair| add(Mismatch::OutOfOrder, pair[1].0));
    let is_missing =
        |kind: &Kind, offset| matches!(kind, Kind::Fde { begin, end, .. } if begin < end && !named.contains(offset));
    let missing = frames.used().filter(|record| is_missing(&record.kind, &record.offset));
    missing.filter_map(|record| record.addresses()).for_each(|addresses| add(Mismatch::Missing, addresses.start));
    found.into_values().collect()
}

impl fmt::Display for Mismatches {
    fn fmt(&self, f: &mut fmt::Formatter<'_>) -> fmt::Result {
        let what = match self.kind {
            Mismatch::NoFde => "entries lead to no FDE",
            Mismatch::OtherAddress => "entries have another address than their FDE",
            Mismatch::OutOfOrder => "entries are out of order",
            Mismatch::Missing => "FDEs have no entry",
        };
        write!(f, "{} {}, the first one is for {:#x}", self.count, what, self.first)
    }
}
