//! Accounts for every byte of a section of location lists: what is a list, what are view numbers, and
//! what nothing refers to.

use super::unit::TABLE_HEADER;
use dwcheck_types::cursor::{Cursor, ReadError};
use dwcheck_types::target::Target;
use std::ops::Range;

/// What bytes of a section are.
#[derive(Clone, Copy, Debug, PartialEq, Eq, PartialOrd, Ord)]
pub(crate) enum Part {
    /// The header of a table of `.debug_loclists`, with its offsets.
    Header,
    /// A list.
    List,
    /// View numbers.
    Views,
}

/// The parts of a section that are known.
#[derive(Debug, Default)]
pub(crate) struct Coverage(Vec<(Range<usize>, Part)>);

/// How many bytes of a section are what.
#[derive(Clone, Copy, Debug, Default, PartialEq, Eq)]
pub struct Bytes {
    /// Headers of tables, with their offsets.
    pub headers: usize,
    /// Lists.
    pub lists: usize,
    /// View numbers.
    pub views: usize,
    /// Bytes that nothing refers to.
    pub unused: usize,
    /// The parts of the section that nothing refers to.
    pub gaps: usize,
}

impl Coverage {
    /// Adds a part.
    pub fn add(&mut self, range: Range<usize>, part: Part) {
        self.0.push((range, part));
    }

    /// Counts the bytes of a section with this length. Bytes in several parts count for the first one.
    pub fn bytes(mut self, length: usize) -> Bytes {
        self.0.sort_unstable_by_key(|(range, part)| (range.start, *part));
        let mut bytes = Bytes::default();
        let mut end = 0;
        for (range, part) in self.0 {
            bytes.add_gap(end..range.start);
            let count = range.end.saturating_sub(range.start.max(end));
            match part {
                Part::Header => bytes.headers += count,
                Part::List => bytes.lists += count,
                Part::Views => bytes.views += count,
            }
            end = end.max(range.end);
        }
        bytes.add_gap(end..length);
        bytes
    }
}

impl Bytes {
    fn add_gap(&mut self, gap: Range<usize>) {
        self.unused += gap.len();
        self.gaps += usize::from(!gap.is_empty());
    }
}

/// A table of `.debug_loclists`.
#[derive(Clone, Debug, PartialEq, Eq)]
pub(crate) struct Table {
    /// Its header with its offsets.
    pub header: Range<usize>,
    /// The version, the sizes of an address and of a segment selector: 4 bytes.
    pub fields: Range<usize>,
}

/// The tables of a `.debug_loclists` section, up to the first that can't be read.
pub(crate) fn read_list_tables(section: &[u8], target: Target) -> Vec<Table> {
    let mut cursor = Cursor::new(section, target);
    let mut tables = Vec::new();
    while let (false, Ok(table)) = (cursor.is_at_end(), read_list_table(&mut cursor)) {
        tables.push(table);
    }
    tables
}

fn read_list_table(cursor: &mut Cursor<'_>) -> Result<Table, ReadError> {
    let begin = cursor.at();
    let (length, offset_size) = match cursor.number(4)? {
        0xffff_ffff => (cursor.number(8)?, 8),
        length => (length, 4),
    };
    let mut table = cursor.split(length)?;
    let fields = table.at()..table.at() + 4;
    table.take(4)?;
    let count = table.number(4)?;
    table.take(count * offset_size)?;
    Ok(Table { header: begin..table.at(), fields })
}

/// The headers of tables, each as a table of its own without offsets and lists, so that `dwcheck` can check
/// them. Each has [`TABLE_HEADER`] bytes.
pub(crate) fn headers_without_lists(section: &[u8], tables: &[Table], target: Target) -> Vec<u8> {
    let mut bytes = Vec::with_capacity(tables.len() * TABLE_HEADER);
    for table in tables {
        target.push(&mut bytes, (TABLE_HEADER - 4) as u64, 4);
        bytes.extend_from_slice(section.get(table.fields.clone()).unwrap_or(&[]));
        target.push(&mut bytes, 0, 4);
    }
    bytes
}
