//! What a frame section holds, for a report.

use crate::cfi::eh_frame_hdr::mismatches;
use crate::cfi::frames::{Counts, Frames, Name, Notes};
use crate::cfi::sframe::SframeCounts;
use crate::check::inspect::{Inspected, LeftOut, Verdict};
use crate::elf::program::Program;

/// A frame section of a program, or its SFrame section.
#[derive(Clone, Debug)]
pub struct Section {
    /// Its name.
    pub name: Name,
    /// The number of its bytes in the file, decompressed.
    pub bytes: usize,
    /// Whether it is accepted.
    pub status: SectionStatus,
    /// What it holds without what is refused. `None` if it can't be read or checked.
    pub held: Option<Held>,
    /// What it has that isn't a rule, what was read in another way, and how the sorted table of `.eh_frame_hdr`
    /// differs from it, as `check --notes` says.
    pub notes: Vec<String>,
}

/// Whether a section is accepted.
#[derive(Clone, Debug, PartialEq, Eq)]
pub enum SectionStatus {
    /// It is.
    Accepted,
    /// It isn't: how many faults it has, and how many of its records are left out.
    Refused(usize, Option<LeftOut>),
    /// It can't be read or checked: why.
    Unread(String),
}

/// How much a section holds.
#[derive(Clone, Copy, Debug, PartialEq, Eq)]
pub struct Held {
    /// Its common information entries.
    pub cies: usize,
    /// Its frame description entries.
    pub fdes: usize,
    /// Their rows.
    pub rows: usize,
    /// The expressions of its CIEs and FDEs.
    pub expressions: usize,
    /// The FDEs of signal frames.
    pub signal_frames: usize,
}

impl Section {
    /// A section that was checked.
    pub(super) fn of(inspected: &Inspected<'_>, program: &Program<'_>) -> Self {
        let (status, held) = match &inspected.verdict {
            Verdict::Refused(defects) => match inspected.rest() {
                Ok(Some(rest)) => {
                    let status = SectionStatus::Refused(defects.len(), Some(rest.left_out()));
                    (status, Some(Held::of(&rest.counts, &rest.frames)))
                }
                Ok(None) => (SectionStatus::Refused(defects.len(), None), None),
                Err(error) => (SectionStatus::Unread(error.to_string()), None),
            },
            Verdict::Unread(error) => (SectionStatus::Unread(error.to_string()), None),
            Verdict::Frames(agreement) => {
                let held = inspected.frames.as_ref().map(|frames| Held::of(agreement, frames));
                (SectionStatus::Accepted, held)
            }
            Verdict::Sframe(SframeCounts { functions, rows, .. }) => {
                let held = Held { cies: 0, fdes: *functions, rows: *rows, expressions: 0, signal_frames: 0 };
                (SectionStatus::Accepted, Some(held))
            }
            Verdict::Lists(_) | Verdict::FoundLists => (SectionStatus::Accepted, None),
        };
        let notes = inspected.frames.as_ref().map_or_else(Vec::new, |frames| notes_on_section(frames, program));
        Section { name: inspected.name, bytes: inspected.bytes, status, held, notes }
    }
}

fn notes_on_section(frames: &Frames<'_>, program: &Program<'_>) -> Vec<String> {
    let own = Notes::of(frames).texts().map(|(count, what)| format!("{} {}", count, what));
    let header = match mismatches(program, frames) {
        Ok(all) => all.iter().map(|one| format!(".eh_frame_hdr: {}", one)).collect(),
        Err(why) => vec![format!(".eh_frame_hdr: {}", why)],
    };
    own.chain(header).collect()
}

impl Held {
    fn of(agreement: &Counts, frames: &Frames<'_>) -> Self {
        let Counts { cies, fdes, rows, .. } = *agreement;
        let signal_frames = Notes::of(frames).signal_frames;
        Held { cies, fdes, rows, expressions: frames.expressions().count(), signal_frames }
    }
}

impl SectionStatus {
    /// Whether the section, or what isn't refused of it, was checked.
    pub fn is_read(&self) -> bool {
        !matches!(self, SectionStatus::Unread(_))
    }
}
