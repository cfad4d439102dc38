//! What is wrong with the library's answer to a case.

use crate::beside::Difference;
use dwcheck::{Contents, Error, Fault, ModuleId, Record};
use std::fmt;
use std::time::Duration;

/// What is wrong with the library's answer.
#[derive(Debug)]
pub enum Problem {
    /// A call panicked.
    Panic,
    /// The calls took this long.
    TooSlow(Duration),
    /// The record doesn't begin where the one before it ends.
    Misplaced(Record),
    /// No record begins here, where the last one ends, and the section goes on.
    NoRecord(u64),
    /// The fault has no known number, or its offset isn't in the section.
    StrayFault(Fault),
    /// Three calls say different things of one section: the check, adding it, and the number of its records.
    Disagreement { checked: Result<Contents, Error>, added: Result<ModuleId, Error>, records: Result<usize, Error> },
    /// An FDE has no CIE before it.
    NoCie,
    /// The FDE at this offset has other rows than gimli's.
    Rows(u64, Difference),
    /// So many CIEs and FDEs were read, and the check counts others.
    Counts { cies: u64, fdes: u64, checked: Contents },
}

impl fmt::Display for Problem {
    fn fmt(&self, f: &mut fmt::Formatter<'_>) -> fmt::Result {
        match self {
            Problem::Panic => f.write_str("a panic"),
            Problem::TooSlow(took) => write!(f, "it took {:?}", took),
            Problem::Misplaced(record) => write!(f, "a record isn't where the one before it ends: {:?}", record),
            Problem::NoRecord(offset) => write!(f, "no record at {:#x}", offset),
            Problem::StrayFault(fault) => write!(f, "the fault {} isn't in the section", fault),
            Problem::Disagreement { checked, added, records } => {
                write!(f, "checked {:?}, added {:?}, records {:?}", checked, added, records)
            }
            Problem::NoCie => f.write_str("an FDE has no CIE before it"),
            Problem::Rows(offset, difference) => write!(f, "FDE {:#x}: {}", offset, difference),
            Problem::Counts { cies, fdes, checked } => write!(f, "{} CIEs and {} FDEs, but {:?}", cies, fdes, checked),
        }
    }
}

impl std::error::Error for Problem {
    fn source(&self) -> Option<&(dyn std::error::Error + 'static)> {
        match self {
            Problem::Rows(_, difference) => Some(difference),
            _ => None,
        }
    }
}
