//! Looking up the rows of many addresses, with buffers that all look-ups use.

use crate::ffi;
use crate::process::Process;
use crate::row::Row;
use std::fmt;

/// For looking up the rows of many addresses. [`Process::rows`] makes this.
///
/// [`Process::row`] gives the same rows, but allocates memory for each. Here all look-ups share the
/// same buffers.
///
/// ```
/// # const SECTION: &[u8] = &[
/// #     0x14, 0, 0, 0, 0xff, 0xff, 0xff, 0xff, 4, 0, 8, 0, 1, 0x78, 0x10, 0x0c, 7, 8, 0x90, 1, 0, 0, 0, 0,
/// #     0x1c, 0, 0, 0, 0, 0, 0, 0, 0, 0x10, 0, 0, 0, 0, 0, 0, 0x20, 0, 0, 0, 0, 0, 0, 0,
/// #     0x41, 0x0e, 0x10, 0x86, 2, 0x43, 0x0d, 6,
/// # ];
/// use dwcheck::{Module, Process, Target};
///
/// let mut process = Process::new(Target::LITTLE_64);
/// process.add(SECTION, Module::at(0))?;
///
/// // All rows of an FDE: each begins where the one before it ends.
/// let mut rows = process.rows();
/// let mut next = 0x1000;
/// let mut ends = Vec::new();
/// while let Some(row) = rows.row(next) {
///     next = row.addresses.end;
///     ends.push(next);
/// }
/// assert_eq!(ends, [0x1001, 0x1004, 0x1020]);
/// # Ok::<(), dwcheck::Error>(())
/// ```
pub struct Rows<'p> {
    process: &'p Process,
    slots: Vec<ffi::Rule>,
    row: Row,
}

impl<'p> Rows<'p> {
    pub(crate) fn new(process: &'p Process) -> Rows<'p> {
        Rows {
            process,
            slots: vec![ffi::Rule::default(); ffi::MAX_RULES],
            row: Row::empty(),
        }
    }

    /// The row that covers an address, from the module that answers for the address. `None` if there
    /// is no such row. The next look-up overwrites the row.
    pub fn row(&mut self, address: u64) -> Option<&Row> {
        self.process
            .row_into(address, &mut self.slots, &mut self.row)?;
        Some(&self.row)
    }
}

impl fmt::Debug for Rows<'_> {
    fn fmt(&self, f: &mut fmt::Formatter<'_>) -> fmt::Result {
        f.debug_struct("Rows").finish_non_exhaustive()
    }
}
