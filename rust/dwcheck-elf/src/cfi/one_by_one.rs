//! Checks the CIEs and FDEs of a frame section one by one, after the library has refused the section
//! as a whole.

use crate::cfi::fde_ranges::FdeRanges;
use crate::cfi::frames::{range_of_body, Format, Frames, Kind, Name, Record};
use dwcheck::{Error, Fault, FaultKind, Process, Section};
use std::collections::{HashMap, HashSet};
use std::fmt;

/// A section that has only one FDE and its CIE, or only one CIE.
#[derive(Clone, Debug)]
pub(crate) struct OwnSection {
    /// The bytes of the CIE, followed by those of the FDE.
    pub bytes: Vec<u8>,
    /// What has to be known to read them. The record that the section is made for has the address that it
    /// has in the whole section.
    pub format: Format,
    /// The records: the CIE, and the FDE.
    pub records: Vec<Record>,
}

impl OwnSection {
    /// A section that has only this CIE of a section with these bytes.
    pub fn cie(format: &Format, bytes: &[u8], cie: &Record) -> Option<Self> {
        let records = vec![cie.at(0)];
        Some(OwnSection { bytes: bytes.get(cie.range())?.to_vec(), format: format.moved_by(cie.offset), records })
    }

    /// A section that has only this FDE of a section with these bytes, and its CIE. The FDE's pointer to the CIE
    /// is changed to where the CIE is then.
    pub fn fde(format: &Format, bytes: &[u8], cie: &Record, fde: &Record) -> Option<Self> {
        let mut alone = bytes.get(cie.range())?.to_vec();
        let start = alone.len();
        alone.extend_from_slice(bytes.get(fde.range())?);
        let pointer = range_of_body(&alone, start as u64, format.target)?.start;
        let is_long = pointer - start > 4;
        let mut written = Vec::with_capacity(8);
        match format.is_eh_frame() {
            // It says how far before itself the CIE begins.
            true => format.target.push(&mut written, pointer as u64, 4),
            false => format.target.push(&mut written, 0, if is_long { 8 } else { 4 }),
        }
        alone.get_mut(pointer..pointer + written.len())?.copy_from_slice(&written);
        let records = vec![cie.at(0), fde.at(start as u64)];
        Some(OwnSection { bytes: alone, format: format.moved_by(fde.offset.wrapping_sub(start as u64)), records })
    }

    /// The first fault, if it is refused, with its offset in the whole section, where the last record is at
    /// offset `to`.
    fn fault(&self, to: u64) -> Option<Fault> {
        let fault = self.format.section(&self.bytes).check().err()?.fault()?;
        let start = self.records.last().map_or(0, |record| record.offset);
        Some(Fault { offset: (u64::from(fault.offset).saturating_sub(start) + to) as u32, ..fault })
    }
}

/// A fault, and the offset of the record that has it.
#[derive(Clone, Copy, Debug, PartialEq, Eq)]
pub struct Found {
    /// The offset of the CIE or FDE, or of the bytes that are neither.
    pub record: u64,
    /// The fault.
    pub fault: Fault,
}

/// Lists the first fault of each CIE and of each FDE of a refused section, and every overlap of
/// FDEs. Each CIE is checked as a section of its own. Each FDE is checked as a section that has
/// only its CIE and itself. Then FDEs that share addresses are found.
///
/// An FDE whose CIE is refused isn't checked. `first` is the fault that the check of the whole
/// section gave. It is always in the result, even if no CIE or FDE has that fault when it is
/// checked on its own.
pub fn every_fault(frames: &Frames<'_>, first: Fault) -> Vec<Found> {
    let judge = Judge { frames };
    let cies = frames.used().filter(|record| record.is_cie());
    let judged: HashMap<u64, (&Record, Option<Fault>)> = cies.map(|cie| (cie.offset, (cie, judge.cie(cie)))).collect();
    let fault = |record: &Record| match record.kind {
        Kind::Cie { .. } => judged.get(&record.offset)?.1,
        Kind::Fde { cie, .. } => match judged.get(&cie) {
            Some((cie, None)) => judge.fde(cie, record),
            Some((_, Some(_))) => None,
            None => judge.orphan(record, cie),
        },
        Kind::Unread(fault) => Some(fault).filter(|_| !judge.has_lost_cie(record, &fault)),
        Kind::Empty => None,
    };
    let found = |record: &Record| Some(Found { record: record.offset, fault: fault(record)? });
    let mut faults: Vec<_> = frames.used().filter_map(found).chain(overlapping_fdes(frames)).collect();
    faults.sort_by_key(|found| (found.fault.offset, found.fault.number()));
    faults.dedup_by_key(|found| (found.fault.offset, found.fault.kind));
    if !faults.iter().any(|found| found.fault.offset == first.offset && found.fault.kind == first.kind) {
        let record = frames.record_of(&first).map_or(0, |record| record.offset);
        faults.insert(0, Found { record, fault: first });
    }
    faults
}

/// Leaves out of a section the CIEs and FDEs that have one of these faults, and FDEs whose CIE has one,
/// so that the others can still be used. `faults` are those that [`every_fault`] lists.
pub fn accepted_part<'data>(frames: &Frames<'data>, faults: &[Found]) -> Frames<'data> {
    let unread = frames.used().filter(|record| matches!(record.kind, Kind::Unread(_))).map(|record| record.offset);
    let (shared, refused): (Vec<&Found>, Vec<&Found>) =
        faults.iter().partition(|found| found.fault.kind == FaultKind::Overlap);
    let refused: HashSet<u64> = refused.iter().map(|found| found.record).chain(unread).collect();
    frames.without(&refused, &shared.iter().map(|found| found.record).collect())
}

/// Why nothing of a section is used.
#[derive(Clone, Debug, PartialEq, Eq)]
pub(crate) enum NotUsed {
    /// The section has this fault, and what is left of it without what is refused is refused too.
    Refused(Name, Fault),
    /// The library has returned this error.
    Library(Name, Error),
}

impl fmt::Display for NotUsed {
    fn fmt(&self, f: &mut fmt::Formatter<'_>) -> fmt::Result {
        match self {
            NotUsed::Refused(name, fault) => write!(f, "{}: {}: not used", name, fault.name()),
            NotUsed::Library(name, error) => write!(f, "{}: {}", name, error),
        }
    }
}

impl std::error::Error for NotUsed {
    fn source(&self) -> Option<&(dyn std::error::Error + 'static)> {
        match self {
            NotUsed::Refused(..) => None,
            NotUsed::Library(_, error) => Some(error),
        }
    }
}

/// A section without the CIEs and FDEs that are refused, and its rows. If there are such, the last part of the
/// result says how many.
pub(crate) fn accepted_part_with_rows(frames: Frames<'_>) -> Result<(Frames<'_>, Process, Option<String>), NotUsed> {
    let name = frames.name();
    let (frames, process, fault) = match frames.process(0) {
        Ok(process) => (frames, process, None),
        Err(Error::Refused(fault)) => {
            let rest = accepted_part(&frames, &every_fault(&frames, fault));
            let process = rest.process(0).map_err(|_| NotUsed::Refused(name, fault))?;
            (rest, process, Some(fault.name()))
        }
        Err(error) => return Err(NotUsed::Library(name, error)),
    };
    let reason = fault.or_else(|| Some("Unresolved").filter(|_| !frames.unresolved().is_empty()));
    let left_out = frames.left_out();
    let problem = reason.map(|reason| format!("{}: {}: {} of its records aren't used", name, reason, left_out));
    Ok((frames, process, problem))
}

/// A frame section whose CIEs and FDEs are checked one by one.
struct Judge<'a> {
    frames: &'a Frames<'a>,
}

impl Judge<'_> {
    fn cie(&self, cie: &Record) -> Option<Fault> {
        OwnSection::cie(self.frames.format(), self.frames.whole(), cie)?.fault(cie.offset)
    }

    /// The first fault of a section that has only this CIE and this FDE.
    fn fde(&self, cie: &Record, fde: &Record) -> Option<Fault> {
        OwnSection::fde(self.frames.format(), self.frames.whole(), cie, fde)?.fault(fde.offset)
    }

    /// The fault of an FDE whose CIE pointer leads to an offset where there is no CIE that can be used. If there
    /// is one that can't be read, only that one has a fault.
    fn orphan(&self, fde: &Record, cie: u64) -> Option<Fault> {
        if self.frames.record(cie).map_or(false, |record| matches!(record.kind, Kind::Unread(_))) {
            return None;
        }
        let body = range_of_body(self.frames.whole(), fde.offset, self.frames.target())?;
        Some(Fault { kind: FaultKind::NoSuchCie, offset: body.start as u32, section: Section::Frame })
    }

    /// Whether the library can't read an FDE of `.eh_frame` only because it can't read its CIE, which has a fault
    /// of its own.
    fn has_lost_cie(&self, fde: &Record, fault: &Fault) -> bool {
        let (bytes, target) = (self.frames.whole(), self.frames.target());
        let place = fault.offset as usize;
        let back = bytes.get(place..place + 4).map(|field| target.number(field));
        let cie = back.and_then(|back| (place as u64).checked_sub(back));
        let record = cie.and_then(|cie| self.frames.record(cie)).filter(|cie| cie.offset < fde.offset);
        fault.kind == FaultKind::NoSuchCie && record.map_or(false, |cie| self.is_cie(cie))
    }

    /// Whether a record that can't be read has the id of a CIE of `.eh_frame`.
    fn is_cie(&self, record: &Record) -> bool {
        let (bytes, target) = (self.frames.whole(), self.frames.target());
        let id = range_of_body(bytes, record.offset, target).and_then(|body| bytes.get(body.start..body.start + 4));
        matches!(record.kind, Kind::Unread(_)) && id == Some(&[0; 4])
    }
}

/// The fault Overlap for each FDE that shares an address with an earlier FDE of the section.
fn overlapping_fdes<'a>(frames: &'a Frames<'_>) -> impl Iterator<Item = Found> + 'a {
    let shared = Shared::of(frames);
    let later = frames.used().filter(move |record| shared.first(record.offset).is_some());
    later.map(|record| Found {
        record: record.offset,
        fault: Fault { kind: FaultKind::Overlap, offset: record.offset as u32, section: Section::Frame },
    })
}

/// The FDEs that share an address with an earlier FDE of the section.
#[derive(Clone, Debug, Default)]
pub(crate) struct Shared {
    /// The offset of each such FDE, and the first FDE that it shares an address with.
    first: HashMap<u64, Record>,
}

impl Shared {
    /// This takes O(n log n) time for n FDEs.
    pub fn of(frames: &Frames<'_>) -> Self {
        let fdes: Vec<&Record> = frames.used().collect();
        let ranges: Vec<_> = fdes.iter().map(|record| record.addresses().unwrap_or(0..0)).collect();
        let all = FdeRanges::of(ranges.iter().cloned()).first_in(&ranges);
        let earlier =
            all.into_iter().enumerate().filter_map(|(own, first)| Some((own, first.filter(|first| *first < own)?)));
        let pair = |(own, first): (usize, usize)| Some((fdes.get(own)?.offset, **fdes.get(first)?));
        Shared { first: earlier.filter_map(pair).collect() }
    }

    /// The first FDE of the section that shares an address with the one at this offset. `None` if no earlier one
    /// does.
    pub fn first(&self, offset: u64) -> Option<&Record> {
        self.first.get(&offset)
    }
}
