//! Checks the frame sections and the location lists of a program.

pub use super::sframe::inspect_sframe;
pub use super::verdict::{Check, InspectError, Inspected, Verdict};
use crate::cfi::frames::{range_of_body, Counts, FrameSection, Frames, FramesError, Kind, Name, Record, RecordStatus};
use crate::cfi::one_by_one::{accepted_part, every_fault};
use crate::check::fault::{Defect, Terms};
use crate::elf::debug_files::DebugFiles;

use super::lists;
use crate::cfi::validate::validate_rows;
use crate::elf::program::Program;
use dwcheck::{DebugFrame, DebugLoclists, Error};
use dwcheck_types::target::Target;
use std::fmt;
use std::path::{Path, PathBuf};

/// Checks the sections of a program that have bytes: `.debug_frame`, `.eh_frame`, `.sframe`, `.debug_loc`,
/// `.debug_loclists`.
///
/// The memory that this takes is in proportion to the length of the sections. So is the time, for
/// sections that compilers write. A hostile file can take longer, because gimli runs a CIE's
/// instructions again for each of its FDEs.
///
/// A section that can't be read or checked doesn't keep the others from it: each has a [`Verdict`].
pub fn inspect<'data>(program: &Program<'data>, check: Check) -> Vec<Inspected<'data>> {
    let mut all = inspect_frame_sections(program, check);
    all.extend(inspect_sframe(program));
    all.extend(inspect_lists(program, None, check));
    all
}

/// Checks the location lists of a program that have bytes: those to which `.debug_info` refers, or all of
/// `.debug_loclists` in a file without `.debug_info`. `shared` is the file that `.gnu_debugaltlink` names,
/// which may have names of variables.
pub fn inspect_lists<'data>(
    program: &Program<'data>,
    shared: Option<&Program<'_>>,
    check: Check,
) -> Vec<Inspected<'data>> {
    if program.has_bytes(".debug_info") {
        return lists::inspect_lists(program, shared, None, check);
    }
    let (bytes, verdict) = match program.debug_loclists() {
        Ok(Some(lists)) => (lists.bytes.len(), inspect_section_of_lists(&lists.bytes, program.target())),
        Ok(None) => return Vec::new(),
        Err(error) => (0, Err(InspectError::Program(error))),
    };
    let verdict = verdict.unwrap_or_else(Verdict::Unread);
    vec![Inspected { name: Name::DebugLoclists, bytes, file: None, frames: None, lists: None, verdict }]
}

/// Checks the location lists of a program as [`inspect_lists`] does, but those of its separate file of debug
/// information if it has none of its own. Also returns the path of that file.
///
/// # Errors
///
/// If the separate file can't be used: its path, and why.
pub fn inspect_lists_of_file<'data>(
    path: &Path,
    program: &Program<'data>,
    files: &DebugFiles,
    check: Check,
) -> Result<(Option<PathBuf>, Vec<Inspected<'data>>), (PathBuf, String)> {
    let separate = match program.has_bytes(".debug_info") {
        true => None,
        false => files.find(path, program).map_err(|(path, why)| (path, why.to_string()))?,
    };
    let lists = |path: &Path, program: &Program<'_>| {
        let shared = files.shared(path, program).ok().flatten().and_then(|bytes| Program::read(bytes).ok());
        lists::inspect_lists(program, shared.as_ref(), Some(files), check)
    };
    match separate {
        Some((path, bytes)) => match Program::read(bytes) {
            Ok(separate) => {
                let lists = lists(&path, &separate);
                Ok((Some(path), lists))
            }
            Err(error) => Err((path, error.to_string())),
        },
        None if program.has_bytes(".debug_info") => Ok((None, lists(path, program))),
        None => Ok((None, inspect_lists(program, None, check))),
    }
}

/// Checks the frame sections of a program that have bytes: `.debug_frame`, `.eh_frame`.
pub fn inspect_frame_sections<'data>(program: &Program<'data>, check: Check) -> Vec<Inspected<'data>> {
    let section = |name| match FrameSection::read(program, name) {
        Ok(section) => section.map(|section| inspect_frame_section(program, section, check)),
        Err(error) => Some(unread_frames(FramesError::Program(name, error))),
    };
    [Name::DebugFrame, Name::EhFrame].into_iter().filter_map(section).collect()
}

fn inspect_frame_section<'data>(
    program: &Program<'data>,
    section: FrameSection<'data>,
    check: Check,
) -> Inspected<'data> {
    if check.counts_only && !check.compare {
        if let Some(counts) = section.accepted_counts() {
            let (name, bytes) = (section.format.name, section.source.bytes.len());
            return Inspected { name, file: None, bytes, frames: None, lists: None, verdict: Verdict::Frames(counts) };
        }
    }
    match Frames::of(section) {
        Ok(frames) => inspect_frames(program, frames, check),
        Err(error) => unread_frames(error),
    }
}

/// The result for a frame section that [`Frames::all`] gives an error for: a section that is too long is
/// refused.
fn unread_frames<'data>(error: FramesError) -> Inspected<'data> {
    let (name, verdict) = match error {
        FramesError::Program(name, error) => (name, Verdict::Unread(InspectError::Program(error))),
        FramesError::TooLong(name) => (name, Verdict::Refused(vec![Defect::too_long(name)])),
    };
    Inspected { name, file: None, bytes: 0, frames: None, lists: None, verdict }
}

fn inspect_frames<'data>(program: &Program<'data>, frames: Frames<'data>, check: Check) -> Inspected<'data> {
    let verdict = verdict_on_frames(program, &frames, check).unwrap_or_else(Verdict::Unread);
    Inspected {
        name: frames.name(),
        file: None,
        bytes: frames.source().bytes.len(),
        frames: Some(frames),
        lists: None,
        verdict,
    }
}

fn verdict_on_frames(program: &Program<'_>, frames: &Frames<'_>, check: Check) -> Result<Verdict, InspectError> {
    let fault = match frames.check() {
        Ok(counts) if frames.unresolved().is_empty() => {
            return counts_of_accepted(frames, counts, check).map(Verdict::Frames)
        }
        Ok(_) => None,
        Err(Error::Refused(fault)) => Some(fault),
        Err(error) => return Err(InspectError::Dwcheck(frames.name(), error)),
    };
    let mut defects = unresolved_fdes(frames);
    if let Some(fault) = fault {
        let functions = program.functions();
        let terms = Terms::of(frames, &functions);
        // Beside unresolved FDEs the library's first fault needn't be the one with the lowest offset.
        match check.all || !defects.is_empty() {
            true => defects.extend(every_fault(frames, fault).iter().map(|found| terms.defect(found))),
            false => defects.push(terms.first(fault)),
        }
    }
    if !frames.unresolved().is_empty() {
        defects.sort_by_key(|defect| defect.offset);
    }
    defects.truncate(if check.all { usize::MAX } else { 1 });
    Ok(Verdict::Refused(defects))
}

/// The FDEs whose first address isn't known, as defects.
fn unresolved_fdes(frames: &Frames<'_>) -> Vec<Defect> {
    let (name, target, bytes) = (frames.name(), frames.target(), &frames.source().bytes);
    let defect = |record: &u64| {
        let pointer = range_of_body(bytes, *record, target).map_or(*record, |body| body.start as u64);
        Defect::unresolved(name, *record, pointer + 4)
    };
    frames.unresolved().iter().map(defect).collect()
}

/// What an accepted section has. If it was asked for, the rows of `.eh_frame`, and of a section that had to be
/// changed, are compared with gimli's first.
fn counts_of_accepted(frames: &Frames<'_>, counts: Counts, check: Check) -> Result<Counts, InspectError> {
    if !check.compare || !(frames.name() == Name::EhFrame || frames.is_changed()) {
        return Ok(counts);
    }
    let process = frames.process(0).map_err(|error| InspectError::Dwcheck(frames.name(), error))?;
    validate_rows(frames, &process).map_err(InspectError::Difference)
}

/// What is left of a refused frame section without what is refused.
#[derive(Clone, Debug)]
pub struct Rest<'data> {
    /// The section without the CIEs and FDEs that are refused.
    pub frames: Frames<'data>,
    /// What it has.
    pub counts: Counts,
}

/// How many of the CIEs and FDEs of a section are left out. Its text is such as `2 of 31 records left out`.
#[derive(Clone, Copy, Debug, PartialEq, Eq)]
pub struct LeftOut {
    /// How many are left out, but for copies.
    pub count: usize,
    /// How many there are, but for copies.
    pub of: usize,
}

impl Rest<'_> {
    /// How much isn't in it.
    pub fn left_out(&self) -> LeftOut {
        let is_counted = |record: &&Record| record.kind != Kind::Empty && record.status != RecordStatus::Copy;
        let counted = self.frames.records().iter().filter(is_counted);
        let count = counted.clone().filter(|record| !record.is_used()).count();
        LeftOut { count, of: counted.count() }
    }
}

impl<'data> Inspected<'data> {
    /// What is left of a refused frame section. `None` for any other section, and for one that is too
    /// long. Each FDE is checked alone, as for [`Check::all`].
    pub fn rest(&self) -> Result<Option<Rest<'data>>, InspectError> {
        let frames = match (&self.verdict, &self.frames) {
            (Verdict::Refused(_), Some(frames)) => frames,
            _ => return Ok(None),
        };
        let failed = |error| InspectError::Dwcheck(self.name, error);
        let (frames, counts) = match frames.check() {
            Err(Error::Refused(fault)) => {
                let rest = accepted_part(frames, &every_fault(frames, fault));
                let counts = rest.check().map_err(failed)?;
                (rest, counts)
            }
            counts => (frames.clone(), counts.map_err(failed)?),
        };
        Ok(Some(Rest { frames, counts }))
    }
}

fn inspect_section_of_lists(lists: &[u8], target: Target) -> Result<Verdict, InspectError> {
    match dwcheck::report(DebugFrame(&[]), DebugLoclists(lists), target) {
        Ok(report) => Ok(Verdict::Lists(report)),
        Err(Error::Refused(fault)) => Ok(Verdict::Refused(vec![Defect::of_lists(lists, fault, target)])),
        Err(error) => Err(InspectError::Dwcheck(Name::DebugLoclists, error)),
    }
}

impl fmt::Display for LeftOut {
    fn fmt(&self, f: &mut fmt::Formatter<'_>) -> fmt::Result {
        write!(f, "{} of {} records left out", self.count, self.of)
    }
}
