//! Memory (`MINIDUMP_MEMORY_LIST`, `MINIDUMP_MEMORY64_LIST`).

use crate::directory::Directory;
use crate::file::{entries, fields, read_location, File, Location};
use crate::problem::{Problem, Problems, StreamKind};
use dwcheck_types::cursor::ReadError;

/// The size of an entry of both lists.
const ENTRY: usize = 16;

/// The most ranges that are kept: twice as many as Linux lets a process map (`vm.max_map_count`).
const MOST_RANGES: usize = 1 << 17;

/// A range of memory.
#[derive(Clone, Copy, Debug, PartialEq, Eq)]
pub struct Range<'data> {
    /// The address of the first byte.
    pub address: u64,
    /// The bytes, as far as the file has them.
    pub bytes: &'data [u8],
    /// How many bytes the file should have.
    pub size: u64,
    /// Whether it is the stack of a thread, as the list of threads has it.
    pub is_stack: bool,
}

impl<'data> Range<'data> {
    /// The range at an address whose bytes are in a part of the file. What of it is past the highest address is left
    /// out.
    pub(crate) fn of(
        file: File<'data>,
        kind: StreamKind,
        address: u64,
        place: Location,
        problems: &mut Problems,
    ) -> Self {
        let bytes = file.held(place);
        let most = usize::try_from(u64::MAX - address).unwrap_or(usize::MAX);
        if (bytes.len() as u64) < place.size || bytes.len() > most {
            problems.add_part(kind, place.offset);
        }
        let bytes = bytes.get(..most).unwrap_or(bytes);
        Range { address, bytes, size: place.size, is_stack: kind == StreamKind::Threads }
    }
}

/// Adds a range, unless there are too many.
pub(crate) fn add_range<'data>(
    ranges: &mut Vec<Range<'data>>,
    kind: StreamKind,
    range: Range<'data>,
    problems: &mut Problems,
) {
    match ranges.len() < MOST_RANGES {
        true => ranges.push(range),
        false => problems.add(Problem::Most(kind, MOST_RANGES)),
    }
}

/// Adds the ranges of both lists.
pub(crate) fn read_ranges<'data>(
    file: File<'data>,
    directory: &Directory,
    ranges: &mut Vec<Range<'data>>,
    problems: &mut Problems,
) {
    if let Some(bytes) = directory.bytes(file, StreamKind::Memory) {
        let (listed, is_whole) = entries(bytes, ENTRY);
        if !is_whole {
            problems.add(Problem::Count(StreamKind::Memory));
        }
        for (address, place) in listed.filter_map(|entry| parse_entry(entry).ok()) {
            let range = Range::of(file, StreamKind::Memory, address, place, problems);
            add_range(ranges, StreamKind::Memory, range, problems);
        }
    }
    if let Some(bytes) = directory.bytes(file, StreamKind::Memory64) {
        if read_ranges_64(file, bytes, ranges, problems).is_err() {
            problems.add(Problem::Count(StreamKind::Memory64));
        }
    }
}

fn parse_entry(entry: &[u8]) -> Result<(u64, Location), ReadError> {
    let mut entry = fields(entry);
    Ok((entry.number(8)?, read_location(&mut entry)?))
}

/// Adds the ranges of the 64-bit list, whose bytes follow one another in the file. An error if the list has fewer
/// entries than it counts.
fn read_ranges_64<'data>(
    file: File<'data>,
    bytes: &'data [u8],
    ranges: &mut Vec<Range<'data>>,
    problems: &mut Problems,
) -> Result<(), ReadError> {
    let mut list = fields(bytes);
    let (count, mut offset) = (list.number(8)?, list.number(8)?);
    for _ in 0..count {
        let (address, size) = (list.number(8)?, list.number(8)?);
        let range = Range::of(file, StreamKind::Memory64, address, Location { offset, size }, problems);
        add_range(ranges, StreamKind::Memory64, range, problems);
        offset = offset.saturating_add(size);
    }
    Ok(())
}
