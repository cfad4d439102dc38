//! What a checked frame section has, counted.

use dwcheck::Contents;

/// How much an accepted frame section has.
#[derive(Clone, Copy, Debug, Default, PartialEq, Eq)]
pub struct Counts {
    /// Common information entries.
    pub cies: usize,
    /// Frame description entries, without exact copies.
    pub fdes: usize,
    /// Their rows. Rows that cover no address aren't counted.
    pub rows: usize,
}

impl Counts {
    /// What the library's check has counted.
    pub(crate) fn of(contents: Contents) -> Self {
        let Contents { cies, fdes, rows, .. } = contents;
        Counts { cies: cies as usize, fdes: fdes as usize, rows: rows as usize }
    }
}
