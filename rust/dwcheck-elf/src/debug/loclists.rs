//! Finds the tables of a `.debug_loclists` section.

use dwcheck_types::cursor::{Cursor, ReadError};
use dwcheck_types::target::Target;

fn read_initial_length(cursor: &mut Cursor<'_>) -> Result<(u64, u64), ReadError> {
    match cursor.number(4)? {
        0xffff_ffff => Ok((cursor.number(8)?, 8)),
        length => Ok((length, 4)),
    }
}

/// The offset of the table that contains `offset` or ends there. A table that can't be read is
/// taken to reach to the section's end. `None` if `offset` is past all tables.
pub fn table_of(section: &[u8], target: Target, offset: usize) -> Option<u64> {
    let mut cursor = Cursor::new(section, target);
    while !cursor.is_at_end() {
        let start = cursor.at();
        let read = read_initial_length(&mut cursor).and_then(|(length, _)| cursor.take(length).map(|_| ()));
        if offset <= cursor.at() || read.is_err() {
            return Some(start as u64);
        }
    }
    None
}
