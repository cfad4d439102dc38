//! Compares the library's rows of a frame section with gimli's rows of the file's section.
//!
//! gimli's CIEs and FDEs are found by their lengths alone, and so every record that was lost by mistake is
//! noticed.

mod comparable;
mod dwcheck_rows;
mod gimli_rows;

use crate::cfi::frames::Name;
use crate::cfi::row::Row;
use dwcheck_types::cursor::Cursor;
use gimli::constants as dw;
use gimli::Error::UnknownCallFrameInstruction;
use std::fmt;

pub(crate) use comparable::comparable_bytes;
pub use dwcheck_rows::{validate_rows, DwcheckRows};
pub use gimli_rows::GimliRows;

/// The first difference between what gimli reads and what the library reads.
#[derive(Clone, Debug, PartialEq, Eq)]
pub struct Difference {
    /// The name of the section.
    pub section: Name,
    /// The offset in the section of the CIE or FDE that differs.
    pub record: u64,
    /// What differs.
    pub what: What,
}

/// What differs between a CIE or FDE as gimli reads it, and as the library does.
#[derive(Clone, Debug, PartialEq, Eq)]
pub enum What {
    /// gimli can't read the CIE or FDE, or one of its instructions.
    Unreadable(String),
    /// The library has no CIE or FDE there.
    Missing,
    /// For one of the two it is a CIE, and for the other one an FDE.
    Kind,
    /// The return address registers differ.
    Numbers,
    /// The FDEs cover different addresses.
    Range {
        /// The first address and the address after the last one, as gimli reads them.
        gimli: (u64, u64),
        /// The same, as the library reads them.
        library: (u64, u64),
    },
    /// A row of the FDE differs.
    Row {
        /// The row's number in the FDE, counted from 0.
        number: usize,
        /// gimli's row, or that there are no more rows, or an error.
        gimli: String,
        /// The library's row, or that there are no more rows, or an error.
        library: String,
    },
}

/// Why a row can't be read.
#[derive(Clone, Debug, PartialEq, Eq)]
pub enum RowError {
    /// No row covers this address.
    NoRow(u64),
    /// The row ends at this address, which isn't after the one that was looked up.
    EndsAt(u64),
    /// The row of this address lacks the expression of one of its rules.
    NoExpression(u64),
    /// A rule of a register isn't known.
    Rule(dwcheck::Rule),
    /// The rule of the CFA isn't known.
    CfaRule(dwcheck::CfaRule),
    /// gimli can't read it.
    Gimli(gimli::Error),
}

impl fmt::Display for RowError {
    fn fmt(&self, f: &mut fmt::Formatter<'_>) -> fmt::Result {
        match self {
            RowError::NoRow(address) => write!(f, "no row for {:#x}", address),
            RowError::EndsAt(address) => write!(f, "a row that ends at {:#x}", address),
            RowError::NoExpression(address) => write!(f, "the row of {:#x} has no such expression", address),
            RowError::Rule(rule) => write!(f, "a rule that isn't known: {:?}", rule),
            RowError::CfaRule(rule) => write!(f, "a rule that isn't known: {:?}", rule),
            RowError::Gimli(error) => error.fmt(f),
        }
    }
}

impl std::error::Error for RowError {
    fn source(&self) -> Option<&(dyn std::error::Error + 'static)> {
        match self {
            RowError::Gimli(error) => Some(error),
            _ => None,
        }
    }
}

/// Gives the rows of an FDE one by one.
///
/// A source that is compared with [`GimliRows`] has to leave out what is missing there: each
/// [`crate::cfi::row::Rule::Undefined`], because gimli doesn't distinguish an undefined register from a
/// register without a rule; and each row that covers no address.
pub trait RowSource<'a> {
    /// Writes the next row to `row`. Returns false after the last row, or an error if no more rows
    /// can be read.
    fn next_row(&mut self, row: &mut Row<'a>) -> Result<bool, RowError>;
}

/// Compares the rows of two sources one by one. Returns the number of equal rows. If rows differ, or one of the
/// sources can't be read, the error has the first such pair. `rows` is a buffer for one row of each source.
pub fn compare_rows<'a, 'b>(
    gimli: &mut impl RowSource<'a>,
    library: &mut impl RowSource<'b>,
    rows: &mut (Row<'a>, Row<'b>),
) -> Result<usize, What> {
    let (left, right) = rows;
    let mut number = 0;
    loop {
        let (one, other) = (gimli.next_row(left), library.next_row(right));
        match (&one, &other) {
            (Ok(true), Ok(true)) if is_same_row(left, right) => number += 1,
            (Ok(false), Ok(false)) => return Ok(number),
            // It can't be rewritten for gimli: with DW_CFA_offset_extended_sf it may take more bytes.
            (Err(RowError::Gimli(error @ UnknownCallFrameInstruction(dw::DW_CFA_GNU_negative_offset_extended))), _) => {
                return Err(What::Unreadable(error.to_string()));
            }
            _ => {
                return Err(What::Row {
                    number,
                    gimli: shown_row_outcome(&one, left),
                    library: shown_row_outcome(&other, right),
                })
            }
        }
    }
}

fn is_same_row<'r>(one: &Row<'r>, other: &Row<'r>) -> bool {
    one == other
}

fn shown_row_outcome(outcome: &Result<bool, RowError>, row: &Row<'_>) -> String {
    match outcome {
        Ok(true) => row.to_string(),
        Ok(false) => "no more rows".to_string(),
        Err(error) => error.to_string(),
    }
}

/// Moves past the next CIE or FDE, which is a record whose length isn't 0, and returns its offset.
/// `None` if there is no further one, or if a length can't be read.
fn skip_record(cursor: &mut Cursor<'_>) -> Option<usize> {
    while !cursor.is_at_end() {
        let record = cursor.at();
        let length = cursor.initial_length()?;
        cursor.take(length).ok()?;
        if length != 0 {
            return Some(record);
        }
    }
    None
}

impl What {
    /// What gimli's error for a record that should be a CIE means.
    fn of_cie(error: gimli::Error) -> Self {
        match error {
            gimli::Error::NotCieId => What::Kind,
            error => What::Unreadable(error.to_string()),
        }
    }
}

impl fmt::Display for What {
    fn fmt(&self, f: &mut fmt::Formatter<'_>) -> fmt::Result {
        match self {
            What::Unreadable(error) => write!(f, "not compared, because gimli can't read it: {}", error),
            What::Missing => f.write_str("the record was lost"),
            What::Kind => f.write_str("one record is a CIE, the other an FDE"),
            What::Numbers => f.write_str("the return address registers differ"),
            What::Range { gimli, library } => write!(
                f,
                "the ranges differ: gimli {:#x}..{:#x}, library {:#x}..{:#x}",
                gimli.0, gimli.1, library.0, library.1
            ),
            What::Row { number, gimli, library } => {
                write!(f, "row {} differs: gimli {}, library {}", number, gimli, library)
            }
        }
    }
}

impl Difference {
    /// Whether nothing is known to differ, but gimli can't read one of the records.
    pub fn is_unread(&self) -> bool {
        matches!(self.what, What::Unreadable(_))
    }
}

impl fmt::Display for Difference {
    fn fmt(&self, f: &mut fmt::Formatter<'_>) -> fmt::Result {
        write!(f, "{} record {:#x}: {}", self.section, self.record, self.what)
    }
}

impl std::error::Error for Difference {}
