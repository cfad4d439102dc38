//! Where the records of a symbol file are: sorted tables with entries of a fixed size, which can be kept in a file.

use crate::error::SymbolsError;
use crate::record::{FrameRecord, FunctionRecord, Lines, NumberedRecord, PublicRecord};
use std::borrow::Cow;
use std::ops::Range;

/// How an index begins. The last digit is the version of its form.
const MAGIC: &[u8; 8] = b"dwsymix1";

/// The numbers after that: the size of the symbol file, its stamp, the sum of a part of it, how many lines can't be
/// read, and how many entries each table has.
const NUMBERS: usize = 4 + Table::ALL.len();

/// How many bytes at each end of the symbol file are summed up.
const SUMMED: usize = 4096;

/// When a file was changed last, in nanoseconds since 1970. It is what an index is for, beside the file's size.
#[derive(Clone, Copy, Debug, Default, PartialEq, Eq)]
pub struct Stamp(pub u64);

/// Where the records of a symbol file are.
///
/// Its entries are numbers of 8 bytes: what they are sorted by, and the offset of the record. A kept index may be
/// damaged; so its entries only say where to look, and the record there says what it is.
#[derive(Clone, Debug)]
pub struct Index<'i> {
    bytes: Cow<'i, [u8]>,
}

/// A table of an index.
#[derive(Clone, Copy, Debug, PartialEq, Eq)]
pub(crate) enum Table {
    /// `FUNC` by address.
    Functions,
    /// `PUBLIC` by address.
    Publics,
    /// `STACK CFI INIT` by address.
    Frames,
    /// `FILE` by number.
    Files,
    /// `INLINE_ORIGIN` by number.
    Origins,
}

impl Table {
    const ALL: [Table; 5] = [Table::Functions, Table::Publics, Table::Frames, Table::Files, Table::Origins];
}

/// The bytes of an entry.
const ENTRY: usize = 16;

/// What is found in one pass over a symbol file.
#[derive(Default)]
struct Found {
    tables: [Vec<(u64, u64)>; Table::ALL.len()],
    unread: u64,
}

impl Found {
    fn of(text: &[u8]) -> Self {
        let mut found = Found::default();
        for (offset, line) in Lines::from(text, 0) {
            found.add(offset as u64, line);
        }
        found.tables.iter_mut().for_each(|table| table.sort());
        found
    }

    /// Adds the record of a line, if it is one of those that are looked up.
    fn add(&mut self, offset: u64, line: &[u8]) {
        let key = match line.first() {
            Some(b'F') if line.starts_with(b"FUNC ") => {
                (Table::Functions, FunctionRecord::parse(line).map(|record| record.begin))
            }
            Some(b'F') if line.starts_with(b"FILE ") => {
                (Table::Files, NumberedRecord::file(line).map(|record| record.number))
            }
            Some(b'P') if line.starts_with(b"PUBLIC ") => {
                (Table::Publics, PublicRecord::parse(line).map(|record| record.address))
            }
            Some(b'S') if line.starts_with(b"STACK CFI INIT ") => {
                (Table::Frames, FrameRecord::parse(line).map(|record| record.begin))
            }
            Some(b'I') if line.starts_with(b"INLINE_ORIGIN ") => {
                (Table::Origins, NumberedRecord::origin(line).map(|record| record.number))
            }
            _ => return,
        };
        match key {
            (table, Some(key)) => self.tables[table as usize].push((key, offset)),
            (_, None) => self.unread += 1,
        }
    }
}

impl Index<'static> {
    /// Finds the records of a symbol file, which takes time in proportion to its size.
    pub fn of(text: &[u8], stamp: Stamp) -> Self {
        let found = Found::of(text);
        let count = |table: Table| found.tables[table as usize].len();
        let entries: usize = Table::ALL.into_iter().map(count).sum();
        let mut bytes = Vec::with_capacity(MAGIC.len() + 8 * NUMBERS + ENTRY * entries);
        bytes.extend_from_slice(MAGIC);
        let counts = Table::ALL.into_iter().map(|table| count(table) as u64);
        for number in [text.len() as u64, stamp.0, sum(text), found.unread].into_iter().chain(counts) {
            bytes.extend_from_slice(&number.to_le_bytes());
        }
        for (key, offset) in found.tables.iter().flatten() {
            bytes.extend_from_slice(&key.to_le_bytes());
            bytes.extend_from_slice(&offset.to_le_bytes());
        }
        Index { bytes: Cow::Owned(bytes) }
    }
}

impl<'i> Index<'i> {
    /// An index that was kept, of a symbol file with this text and stamp.
    ///
    /// # Errors
    ///
    /// If it isn't one, or that of another file.
    pub fn kept(bytes: &'i [u8], text: &[u8], stamp: Stamp) -> Result<Self, SymbolsError> {
        let index = Index { bytes: Cow::Borrowed(bytes) };
        let expected = [text.len() as u64, stamp.0, sum(text)];
        let is_of = expected.into_iter().enumerate().all(|(place, number)| index.number(place) == Some(number));
        let entries = Table::ALL.into_iter().try_fold(0_usize, |sum, table| sum.checked_add(index.count(table)));
        let size = entries.and_then(|entries| entries.checked_mul(ENTRY)?.checked_add(MAGIC.len() + 8 * NUMBERS));
        if bytes.starts_with(MAGIC) && is_of && size == Some(bytes.len()) {
            Ok(index)
        } else {
            Err(SymbolsError::OtherIndex)
        }
    }

    /// The bytes to keep.
    pub fn bytes(&self) -> &[u8] {
        &self.bytes
    }

    /// How many lines begin as a record that is looked up, and can't be read.
    pub fn unread_lines(&self) -> u64 {
        self.number(3).unwrap_or(0)
    }

    /// A number of the header.
    fn number(&self, place: usize) -> Option<u64> {
        self.word(MAGIC.len() + 8 * place)
    }

    fn word(&self, offset: usize) -> Option<u64> {
        let bytes = self.bytes.get(offset..offset.checked_add(8)?)?;
        Some(u64::from_le_bytes(bytes.try_into().ok()?))
    }

    /// How many entries a table has.
    pub(crate) fn count(&self, table: Table) -> usize {
        self.number(4 + table as usize).and_then(|count| usize::try_from(count).ok()).unwrap_or(0)
    }

    /// An entry: what it is sorted by, and the offset of the record.
    pub(crate) fn entry(&self, table: Table, place: usize) -> Option<(u64, usize)> {
        let before: usize = Table::ALL.into_iter().take(table as usize).map(|other| self.count(other)).sum();
        let offset = MAGIC.len() + 8 * NUMBERS + ENTRY * (before + place);
        let (key, record) = (self.word(offset)?, self.word(offset + 8)?);
        (place < self.count(table)).then_some((key, usize::try_from(record).ok()?))
    }

    /// How many entries of a table have at most this key.
    pub(crate) fn count_up_to(&self, table: Table, key: u64) -> usize {
        let Range { mut start, mut end } = 0..self.count(table);
        while start < end {
            let middle = start + (end - start) / 2;
            match self.entry(table, middle) {
                Some((found, _)) if found <= key => start = middle + 1,
                _ => end = middle,
            }
        }
        start
    }

    /// The offset of the first record with this key.
    pub(crate) fn first(&self, table: Table, key: u64) -> Option<usize> {
        let before = key.checked_sub(1).map_or(0, |less| self.count_up_to(table, less));
        self.entry(table, before).filter(|(found, _)| *found == key).map(|(_, offset)| offset)
    }
}

/// A sum of the ends of a file (FNV-1a). It tells files apart that were written by mistake under the same name, and is
/// no protection.
fn sum(text: &[u8]) -> u64 {
    let head = &text[..text.len().min(SUMMED)];
    let tail = &text[text.len().saturating_sub(SUMMED)..];
    head.iter()
        .chain(tail)
        .fold(0xcbf2_9ce4_8422_2325, |sum, byte| (sum ^ u64::from(*byte)).wrapping_mul(0x0000_0100_0000_01b3))
}

#[cfg(test)]
mod tests {
    use super::*;

    const TEXT: &[u8] =
        b"MODULE Linux x86_64 00 a\nFILE 1 b.c\nFILE 0 a.c\nFUNC 20 4 0 g\nFUNC 10 4 0 f\nFUNC x 4 0 h\n";

    #[test]
    fn a_kept_index_is_that_of_its_file_alone() {
        let index = Index::of(TEXT, Stamp(7));
        let kept = Index::kept(index.bytes(), TEXT, Stamp(7)).unwrap();
        assert_eq!(kept.entry(Table::Functions, 0), Some((0x10, 61)));
        assert_eq!((kept.count(Table::Functions), kept.unread_lines()), (2, 1));
        assert!(Index::kept(index.bytes(), TEXT, Stamp(8)).is_err());
        assert!(Index::kept(index.bytes(), &TEXT[..TEXT.len() - 1], Stamp(7)).is_err());
        assert!(Index::kept(&TEXT.to_ascii_uppercase(), TEXT, Stamp(7)).is_err());
        let cut = &index.bytes()[..index.bytes().len() - 1];
        assert!(Index::kept(cut, TEXT, Stamp(7)).is_err());
        assert!(Index::kept(&[], TEXT, Stamp(7)).is_err());
    }

    #[test]
    fn counts_of_a_hostile_index_are_no_sizes() {
        let mut bytes = Index::of(TEXT, Stamp(0)).bytes().to_vec();
        for place in 4..NUMBERS {
            let at = MAGIC.len() + 8 * place;
            bytes[at..at + 8].copy_from_slice(&u64::MAX.to_le_bytes());
        }
        assert!(Index::kept(&bytes, TEXT, Stamp(0)).is_err());
    }

    #[test]
    fn records_are_found_by_their_keys() {
        let index = Index::of(TEXT, Stamp(0));
        assert_eq!(index.first(Table::Files, 0), Some(36));
        assert_eq!(index.first(Table::Files, 2), None);
        assert_eq!(index.count_up_to(Table::Functions, 0x1f), 1);
        assert_eq!(index.count_up_to(Table::Functions, 0xf), 0);
    }
}
