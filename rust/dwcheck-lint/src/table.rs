//! Unwind tables, as the lint takes them: FDEs and their rows.

use crate::error::Error;
use crate::instruction::Key;
use crate::register::Register;
use dwcheck_types::row;
use std::ops::Range;

/// A frame description entry: a range of code that has rows.
#[derive(Clone, Debug, Default, PartialEq, Eq)]
pub struct Fde {
    /// Its first address.
    pub begin: u64,
    /// The address after its last one.
    pub end: u64,
    /// Whether its frame is one that a signal interrupted.
    pub is_signal: bool,
    /// Whether a function that is called begins with it, whatever its first row says.
    pub is_called: bool,
    /// Where calls that throw go on, ascending.
    pub landings: Vec<Landing>,
    /// From which address on how many bytes of arguments are on the stack
    /// (`DW_CFA_GNU_args_size`), ascending.
    pub argument_bytes: Vec<(u64, u64)>,
    /// At which addresses the return address is signed (`DW_CFA_AARCH64_negate_ra_state`), ascending.
    pub signed: Vec<Range<u64>>,
    /// With which key it is signed there. `None` if the table doesn't say that, as `.debug_frame`.
    pub key: Option<Key>,
}

/// A range of code whose calls go on at a landing pad if they throw.
#[derive(Clone, Copy, Debug, PartialEq, Eq)]
pub struct Landing {
    /// The first address.
    pub begin: u64,
    /// The address after the last one.
    pub end: u64,
    /// The address of the landing pad.
    pub pad: u64,
}

/// A row: the rules for a range of addresses, with the bytes of expressions.
pub type Row<'a> = row::Row<&'a [u8], Register>;

/// How the CFA is computed.
pub type Cfa<'a> = row::Cfa<&'a [u8], Register>;

/// Where the caller's value of a register is.
pub type Rule<'a> = row::Rule<&'a [u8], Register>;

/// Gives the rows of a module.
pub trait Rows {
    /// The rows of an FDE, ascending, without gaps.
    ///
    /// # Errors
    ///
    /// If they can't be read.
    fn rows(&self, fde: &Fde) -> Result<Vec<Row<'_>>, Error>;

    /// The row of an address.
    fn row(&self, address: u64) -> Option<Row<'_>>;
}

impl Fde {
    /// Whether an address is in the FDE.
    pub fn contains(&self, address: u64) -> bool {
        (self.begin..self.end).contains(&address)
    }

    /// Whether the return address is signed at an address, as the FDE says.
    pub fn is_signed(&self, address: u64) -> bool {
        let count = self.signed.partition_point(|range| range.start <= address);
        count.checked_sub(1).map_or(false, |last| address < self.signed[last].end)
    }

    /// The landing pad of a call at an address.
    pub fn landing(&self, address: u64) -> Option<u64> {
        let last = self.landings.partition_point(|landing| landing.begin <= address).checked_sub(1)?;
        self.landings.get(last).filter(|landing| address < landing.end).map(|landing| landing.pad)
    }

    /// How many bytes of arguments are on the stack at an address, as the FDE says.
    pub fn arguments_at(&self, address: u64) -> u64 {
        let count = self.argument_bytes.partition_point(|(from, _)| *from <= address);
        count.checked_sub(1).map_or(0, |last| self.argument_bytes[last].1)
    }
}

/// Finds the row of an address in the rows of an FDE.
pub fn row_at(rows: &[Row<'_>], address: u64) -> Option<usize> {
    let index = rows.partition_point(|row| row.begin <= address).checked_sub(1)?;
    Some(index).filter(|index| address < rows[*index].end)
}
