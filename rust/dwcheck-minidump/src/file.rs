//! The bytes of a file, whose offsets and sizes are checked.

use crate::budget::Budget;
use dwcheck_types::cursor::{Cursor, ReadError};
use dwcheck_types::target::{AddressSize, Order, Target};

/// Numbers of minidumps are little-endian. Addresses have 8 bytes on each machine.
const TARGET: Target = Target { order: Order::Little, address_size: AddressSize::Eight };

/// The most bytes of a text that is read: the longest path of Linux in UTF-16. Longer texts aren't what they should be.
const LONGEST_TEXT: usize = 2 * 4096;

/// A part of the file (`MINIDUMP_LOCATION_DESCRIPTOR`).
#[derive(Clone, Copy, Debug, Default, PartialEq, Eq)]
pub(crate) struct Location {
    /// Its offset from the beginning of the file.
    pub offset: u64,
    /// How many bytes it should have.
    pub size: u64,
}

/// The bytes of a file.
#[derive(Clone, Copy, Debug)]
pub(crate) struct File<'data> {
    bytes: &'data [u8],
}

impl<'data> File<'data> {
    /// A file with these bytes.
    pub fn new(bytes: &'data [u8]) -> Self {
        File { bytes }
    }

    /// The bytes of a part, or as many of them as the file has.
    pub fn held(self, Location { offset, size }: Location) -> &'data [u8] {
        let rest = usize::try_from(offset).ok().and_then(|offset| self.bytes.get(offset..)).unwrap_or(&[]);
        usize::try_from(size).ok().and_then(|size| rest.get(..size)).unwrap_or(rest)
    }

    /// The bytes of a part. `None` if the file doesn't have all of them.
    pub fn whole(self, location: Location) -> Option<&'data [u8]> {
        Some(self.held(location)).filter(|held| held.len() as u64 == location.size)
    }

    /// A cursor from an offset to the end of the file.
    pub fn from(self, offset: u64) -> Cursor<'data> {
        fields(self.held(Location { offset, size: u64::MAX }))
    }

    /// The bytes that follow a number of 4 bytes, which says how many they are. `None` if the file doesn't have them.
    pub fn counted(self, offset: u64) -> Option<&'data [u8]> {
        let mut cursor = self.from(offset);
        let size = cursor.number(4).ok()?;
        cursor.take(size).ok()
    }

    /// A text in UTF-16 (`MINIDUMP_STRING`). `None` if it isn't in the file, is too long to be a path, or is over the
    /// budget.
    pub fn utf16(self, offset: u64, budget: &mut Budget) -> Option<String> {
        let bytes = self.counted(offset).filter(|bytes| bytes.len() <= LONGEST_TEXT && budget.take(bytes.len()))?;
        let units = bytes.chunks_exact(2).map(|pair| u16::from_le_bytes([pair[0], pair[1]]));
        let text: String = char::decode_utf16(units).map(|one| one.unwrap_or(char::REPLACEMENT_CHARACTER)).collect();
        Some(text.trim_end_matches('\0').to_string())
    }

    /// A text in UTF-8 (`MinidumpUTF8String`). `None` in the same cases.
    pub fn utf8(self, offset: u64, budget: &mut Budget) -> Option<String> {
        let bytes = self.counted(offset).filter(|bytes| bytes.len() <= LONGEST_TEXT && budget.take(bytes.len()))?;
        Some(String::from_utf8_lossy(bytes).trim_end_matches('\0').to_string())
    }
}

/// A cursor over the fields of a structure.
pub(crate) fn fields(bytes: &[u8]) -> Cursor<'_> {
    Cursor::new(bytes, TARGET)
}

/// Reads the size and the offset of a part.
pub(crate) fn read_location(cursor: &mut Cursor<'_>) -> Result<Location, ReadError> {
    let size = cursor.number(4)?;
    Ok(Location { size, offset: cursor.number(4)? })
}

/// The entries of a list that begins with their count in 4 bytes, each with `size` bytes, and whether that are all that
/// the count says. Some writers leave 4 bytes between the count and the first entry, so that its addresses are aligned.
pub(crate) fn entries(bytes: &[u8], size: usize) -> (impl Iterator<Item = &[u8]>, bool) {
    let count = fields(bytes).number(4).map_or(0, |count| usize::try_from(count).unwrap_or(usize::MAX));
    let listed = count.saturating_mul(size);
    let begin = if bytes.len() == listed.saturating_add(8) { 8 } else { 4 };
    let rest = bytes.get(begin..).unwrap_or(&[]);
    (rest.chunks_exact(size).take(count), bytes.len() >= 4 && rest.len() >= listed)
}

#[cfg(test)]
mod tests {
    use super::*;

    #[test]
    fn a_part_past_the_end_is_cut_or_lost() {
        let file = File::new(&[1, 2, 3, 4]);
        assert_eq!(file.held(Location { offset: 2, size: 9 }), [3, 4]);
        assert_eq!(file.held(Location { offset: 5, size: 1 }), []);
        assert_eq!(file.held(Location { offset: u64::MAX, size: u64::MAX }), []);
        assert_eq!(file.whole(Location { offset: 2, size: 3 }), None);
        assert_eq!(file.whole(Location { offset: 1, size: 3 }), Some(&[2, 3, 4][..]));
    }

    #[test]
    fn texts_are_bounded_by_the_file_and_by_the_budget() {
        let text = [4, 0, 0, 0, b'a', 0, b'b', 0];
        assert_eq!(File::new(&text).utf16(0, &mut Budget::new(8)).as_deref(), Some("ab"));
        assert_eq!(File::new(&text).utf16(0, &mut Budget::new(3)), None);
        assert_eq!(File::new(&[0, 0, 0, 0x40, b'a', 0]).utf16(0, &mut Budget::new(100)), None);
        assert_eq!(File::new(&text).utf16(7, &mut Budget::new(100)), None);
    }

    #[test]
    fn a_list_has_no_more_entries_than_its_bytes() {
        let count = |bytes: &[u8]| {
            let (entries, is_whole) = entries(bytes, 2);
            (entries.count(), is_whole)
        };
        assert_eq!(count(&[2, 0, 0, 0, 1, 1, 2, 2]), (2, true));
        assert_eq!(count(&[2, 0, 0, 0, 0, 0, 0, 0, 1, 1, 2, 2]), (2, true));
        assert_eq!(count(&[0xff, 0xff, 0xff, 0xff, 1, 1, 2, 2]), (2, false));
        assert_eq!(count(&[1, 0]), (0, false));
    }
}
