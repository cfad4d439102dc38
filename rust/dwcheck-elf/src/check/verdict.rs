//! What a check of sections is asked for, and what it finds.

use crate::cfi::defect::Defect;
use crate::cfi::frames::{Counts, Frames};
use crate::cfi::sframe::{SframeCounts, SframeError};
use crate::cfi::validate::Difference;
use crate::debug::lists;
use crate::elf::escaped::Escaped;
use crate::elf::format::Name;
use crate::elf::program::ProgramError;
use dwcheck::{Error, Report};
use std::fmt;
use std::path::PathBuf;

/// How to check a program.
///
/// ```
/// use dwcheck_elf::inspect::Check;
///
/// let check = Check { all: true, ..Check::default() };
/// assert_ne!(check, Check::default());
/// ```
#[derive(Clone, Copy, Debug, Default, PartialEq, Eq)]
pub struct Check {
    /// Whether to report every fault of a frame section, not only the first. See
    /// [`crate::cfi::one_by_one::every_fault`].
    pub all: bool,
    /// Whether to list the entries of location lists that are most likely mistakes
    /// ([`lists::Contents::doubtful`]).
    pub doubtful: bool,
    /// Whether the rows of an accepted frame section are compared with gimli's too.
    pub compare: bool,
    /// Whether the records of a frame section are read only if it isn't accepted as it is in the file. Then
    /// [`Inspected::frames`] of an accepted section may be `None`, and the check takes less time.
    pub counts_only: bool,
}

/// The result of checking a section.
#[derive(Debug)]
pub struct Inspected<'data> {
    /// The name of the section.
    pub name: Name,
    /// The file of a single unit that has the section (`-gsplit-dwarf`). `None` if it is in the program or
    /// in its separate file.
    pub file: Option<PathBuf>,
    /// The number of bytes of the section in the file, decompressed. 0 if it couldn't be read.
    pub bytes: usize,
    /// The frame section. `None` for location lists, for a frame section that couldn't be read, and for an accepted
    /// one of which only counts are wanted ([`Check::counts_only`]).
    pub frames: Option<Frames<'data>>,
    /// What location lists have that were found by `.debug_info`. `None` for any other section.
    pub lists: Option<lists::Contents>,
    /// Whether the section was accepted.
    pub verdict: Verdict,
}

/// Whether a section was accepted.
#[derive(Debug)]
pub enum Verdict {
    /// A well-formed frame section, and what it has. With [`Check::compare`] the rows of `.eh_frame`, and of a
    /// section that had to be changed, are equal to those that gimli finds in the file's section.
    Frames(Counts),
    /// A well-formed SFrame section, and what it has.
    Sframe(SframeCounts),
    /// Well-formed location lists of a file without `.debug_info`, in which the whole section is checked.
    Lists(Report),
    /// Well-formed location lists, but for what [`lists::Contents::not_checked`] says.
    FoundLists,
    /// The section is refused. These are its first fault, or all faults if [`Check::all`] is set.
    /// Never empty. [`Inspected::rest`] has what isn't refused.
    Refused(Vec<Defect>),
    /// The section can't be read or checked. The file's other sections can be, even so.
    Unread(InspectError),
}

/// Why a section can't be checked.
#[derive(Clone, Debug, PartialEq, Eq)]
pub enum InspectError {
    /// The section can't be read from the file.
    Program(ProgramError),
    /// A row differs from the one that gimli finds, or gimli can't read a CIE or FDE.
    Difference(Difference),
    /// `dwcheck` neither accepted nor refused the section, for example because memory ran out.
    Dwcheck(Name, Error),
    /// The SFrame section is for another machine.
    Sframe(SframeError),
    /// `.debug_info` can't be read: the offset of the unit, if it is known, and why.
    DebugInfo(Option<u64>, String),
    /// A location list differs from what gimli reads.
    List(Name, lists::Difference),
    /// No unit refers to location lists, though the file has some.
    NoReferences(Name),
    /// This many units have their debug information in files of their own that aren't there or can't be used,
    /// one of which has this name.
    Split(usize, Option<String>),
}

impl Inspected<'_> {
    /// A section that can't be read or checked.
    pub(crate) fn unread(name: Name, error: InspectError) -> Self {
        Inspected { name, file: None, bytes: 0, frames: None, lists: None, verdict: Verdict::Unread(error) }
    }
}

impl fmt::Display for InspectError {
    fn fmt(&self, f: &mut fmt::Formatter<'_>) -> fmt::Result {
        match self {
            InspectError::Program(error) => error.fmt(f),
            InspectError::Difference(difference) if difference.is_unread() => difference.fmt(f),
            InspectError::Difference(difference) => write!(f, "the rows differ: {}", difference),
            InspectError::Dwcheck(name, error) => write!(f, "{}: {}", name, error),
            InspectError::Sframe(error) => write!(f, "{}: {}", Name::Sframe, error),
            InspectError::DebugInfo(None, error) => write!(f, ".debug_info: {}", error),
            InspectError::DebugInfo(Some(unit), error) => write!(f, ".debug_info: unit {:#x}: {}", unit, error),
            InspectError::List(name, difference) => write!(f, "{}: the lists differ: {}", name, difference),
            InspectError::NoReferences(name) => write!(f, "{}: .debug_info refers to none of its lists", name),
            InspectError::Split(count, name) => {
                let name = name.as_deref().unwrap_or("without a name");
                match count {
                    1 => {
                        write!(
                            f,
                            "1 unit has its location lists in another file, {}, which can't be used",
                            Escaped(name)
                        )
                    }
                    _ => write!(
                        f,
                        "{} units have their location lists in other files, such as {}, which can't be used",
                        count,
                        Escaped(name)
                    ),
                }
            }
        }
    }
}

impl std::error::Error for InspectError {
    fn source(&self) -> Option<&(dyn std::error::Error + 'static)> {
        match self {
            InspectError::Program(error) => Some(error),
            InspectError::Difference(error) => Some(error),
            InspectError::Dwcheck(_, error) => Some(error),
            InspectError::Sframe(error) => Some(error),
            _ => None,
        }
    }
}
