//! A row of a table, whatever the table's format.

use crate::cfi::row::{Row, Rule};
use std::fmt;

/// A row, with what else tables say of its addresses.
#[derive(Clone, Debug, Default, PartialEq, Eq)]
pub struct TableRow {
    /// The row, with the bytes of its expressions.
    pub row: Row<'static>,
    /// The DWARF number of the register of the return address.
    pub return_register: u16,
    /// Whether SFrame says that the frame is the outermost one. The row has no CFA then.
    pub is_outermost: bool,
    /// Whether the return address is signed (aarch64).
    pub is_signed: bool,
}

impl TableRow {
    /// The rule of a register.
    pub(crate) fn rule(&self, register: u16) -> Option<&Rule<'static>> {
        self.row.rules.iter().find(|(other, _)| *other == register).map(|(_, rule)| rule)
    }
}

/// The rules without the addresses, in the words of `rows`.
impl fmt::Display for TableRow {
    fn fmt(&self, f: &mut fmt::Formatter<'_>) -> fmt::Result {
        match self.is_outermost {
            true => f.write_str("cfa=u")?,
            false => write!(f, "cfa={}", self.row.cfa)?,
        }
        self.row.rules.iter().try_for_each(|(register, rule)| write!(f, " r{}={}", register, rule))?;
        f.write_str(if self.is_signed { " signed" } else { "" })
    }
}
