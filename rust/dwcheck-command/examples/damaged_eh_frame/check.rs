//! Checks a damaged section by the library, and whether the answer can be right.

use crate::beside::{Beside, Compared, Limit};
use crate::problem::Problem;
use crate::sections::Section;
use dwcheck::{Contents, Error, Fault, FaultKind, Module, Process, Record, RecordKind};
use std::collections::BTreeMap;

/// What a section turned out to be.
pub enum Outcome {
    /// It is accepted.
    Accepted(Accepted),
    /// It is refused with this fault.
    Refused(Fault),
}

/// What is in an accepted section.
#[derive(Default)]
pub struct Accepted {
    /// FDEs all of whose rows are gimli's.
    pub fdes: u64,
    /// Their rows.
    pub rows: u64,
    /// FDEs that gimli can't read.
    pub unread: BTreeMap<Limit, u64>,
}

/// Checks a section, and compares its rows with gimli's if it is accepted.
///
/// # Errors
///
/// What is wrong with the library's answer.
pub fn outcome(section: &Section, process: &mut Process) -> Result<Outcome, Problem> {
    let frames = section.frames();
    let checked = frames.check();
    let module = Module::at(0).range(0..=section.top()).eh_frame(section.eh_frame.clone());
    let added = process.add(&section.bytes, module);
    let records: Result<Vec<_>, _> = frames.records().collect();
    if let Ok(records) = &records {
        follow_one_another(section, records)?;
    }
    match (checked, added, records) {
        (Ok(contents), Ok(_), Ok(records)) => compare_rows(section, process, contents, &records).map(Outcome::Accepted),
        (Err(Error::Refused(fault)), Err(Error::Refused(same)), records) if fault == same => {
            if let Err(Error::Refused(other)) = records {
                check_fault(section, other)?;
            }
            check_fault(section, fault).map(|()| Outcome::Refused(fault))
        }
        (checked, added, records) => {
            Err(Problem::Disagreement { checked, added, records: records.map(|all| all.len()) })
        }
    }
}

/// Records follow one another up to the section's end.
fn follow_one_another(section: &Section, records: &[Record]) -> Result<(), Problem> {
    let mut next = 0;
    for record in records {
        let is_inside = record.offset == next && record.next > next && record.program <= record.next;
        if !is_inside || record.next > section.bytes.len() as u64 {
            return Err(Problem::Misplaced(record.clone()));
        }
        next = record.next;
    }
    if next == section.bytes.len() as u64 {
        Ok(())
    } else {
        Err(Problem::NoRecord(next))
    }
}

/// A fault has a known number, and an offset in the section or at its end.
fn check_fault(section: &Section, fault: Fault) -> Result<(), Problem> {
    let is_known = !matches!(fault.kind, FaultKind::Other(_) | FaultKind::Memory);
    if is_known && fault.offset as usize <= section.bytes.len() {
        Ok(())
    } else {
        Err(Problem::StrayFault(fault))
    }
}

/// Compares the rows of an accepted section with gimli's.
fn compare_rows(
    section: &Section,
    process: &Process,
    contents: Contents,
    records: &[Record],
) -> Result<Accepted, Problem> {
    let mut beside = Beside::new(section, process);
    let mut accepted = Accepted::default();
    let (mut cies, mut fdes) = (0, 0);
    for record in records {
        let cie = match record.kind {
            RecordKind::Fde { cie, .. } => cie,
            RecordKind::Cie { .. } => {
                cies += 1;
                continue;
            }
            _ => continue,
        };
        fdes += 1;
        let cie = records.iter().find(|other| other.offset == cie && other.offset < record.offset);
        match beside.compare(record, cie.ok_or(Problem::NoCie)?) {
            Compared::Equal(rows) => {
                accepted.fdes += 1;
                accepted.rows += rows as u64;
            }
            Compared::Unread(limit) => *accepted.unread.entry(limit).or_default() += 1,
            Compared::Differs(difference) => return Err(Problem::Rows(record.offset, difference)),
        }
    }
    // Exact copies of an FDE count once.
    if cies == contents.cies && fdes >= contents.fdes {
        Ok(accepted)
    } else {
        Err(Problem::Counts { cies, fdes, checked: contents })
    }
}
