//! Look-ups in a program's `.eh_frame` where it lies, beside gimli's by the same `.eh_frame_hdr`.

use crate::ours::{self, Way};
use gimli::{BaseAddresses, CieOrFde, EhFrame, EhFrameHdr, LittleEndian, UnwindContext, UnwindSection};
use object::{Object, ObjectSection};
use std::time::Instant;

/// How many addresses are looked up, and how often.
const ADDRESSES: usize = 200_000;
const RUNS: usize = 7;

/// A section with its address.
struct Section {
    bytes: Vec<u8>,
    address: u64,
}

impl Section {
    fn of(file: &object::File<'_>, name: &str) -> Section {
        let section = file.section_by_name(name).expect(name);
        Section { bytes: section.data().expect(name).to_vec(), address: section.address() }
    }
}

/// Addresses at random in FDEs chosen at random, the same in each run.
fn some_addresses(frame: &EhFrame<gimli::EndianSlice<'_, LittleEndian>>, bases: &BaseAddresses) -> Vec<u64> {
    let mut ranges = Vec::new();
    let mut entries = frame.entries(bases);
    while let Some(entry) = entries.next().expect("a record") {
        if let CieOrFde::Fde(partial) = entry {
            let fde = partial.parse(|section, bases, at| section.cie_from_offset(bases, at)).expect("an FDE");
            if fde.len() > 0 {
                ranges.push((fde.initial_address(), fde.len()));
            }
        }
    }
    let mut seed = 42u64;
    let mut next = || {
        seed = seed.wrapping_mul(0x5851_f42d_4c95_7f2d).wrapping_add(0x1405_7b7e_f767_814f);
        seed >> 20
    };
    (0..ADDRESSES)
        .map(|_| {
            let (first, length) = ranges[next() as usize % ranges.len()];
            first + next() % length
        })
        .collect()
}

/// The least time of several runs, in nanoseconds for an address, and the sum.
fn least(mut sum_ends: impl FnMut() -> u64) -> (f64, u64) {
    let mut best = f64::MAX;
    let mut sum = 0;
    for _ in 0..RUNS {
        let start = Instant::now();
        sum = sum_ends();
        best = best.min(start.elapsed().as_nanos() as f64 / ADDRESSES as f64);
    }
    (best, sum)
}

/// Prints what a look-up takes in a program, and whether both find the same rows.
fn time(path: &str) {
    let data = std::fs::read(path).expect("a program");
    let file = object::File::parse(&*data).expect("an ELF file");
    let frame = Section::of(&file, ".eh_frame");
    let header = Section::of(&file, ".eh_frame_hdr");
    let bases = BaseAddresses::default().set_eh_frame(frame.address).set_eh_frame_hdr(header.address);
    let parsed = EhFrameHdr::new(&header.bytes, LittleEndian).parse(&bases, 8).expect("a header");
    let table = parsed.table().expect("a table");
    let section = EhFrame::new(&frame.bytes, LittleEndian);
    let addresses = some_addresses(&section, &bases);
    let ours = |way| {
        least(|| {
            ours::look_up_in_place(
                (&frame.bytes, frame.address),
                (&header.bytes, header.address),
                &addresses,
                way,
            )
        })
    };
    let (alone, ends_alone) = ours(Way::Alone);
    let (kept, ends_kept) = ours(Way::Kept);
    let (compact, ends_compact) = ours(Way::Compact);
    let mut context = UnwindContext::new();
    let (theirs, ends) = least(|| {
        addresses.iter().fold(0, |sum, address| {
            let row = table
                .unwind_info_for_address(&section, &bases, &mut context, *address, |section, bases, at| {
                    section.cie_from_offset(bases, at)
                })
                .expect("a row");
            sum.wrapping_add(row.end_address())
        })
    });
    let same = if [ends_alone, ends_kept, ends_compact].iter().all(|sum| *sum == ends) { "the same rows" } else { "OTHER ROWS" };
    println!(
        "{path}: {compact:.0} ns as compact rows ({:.2}), {kept:.0} with CIEs kept ({:.2}), {alone:.0} without ({:.2}), \
         gimli {theirs:.0}; {same}",
        compact / theirs,
        kept / theirs,
        alone / theirs
    );
}

pub fn run(paths: &[String]) {
    for path in paths {
        time(path);
    }
}
