//! What the commands share: they open ELF files, read arguments that are addresses, and write faults and notes.

use crate::end::{shown_path, Done, Failure};
use dwcheck::Process;
use dwcheck_elf::fault::{Defect, Within};
use dwcheck_elf::frames::{Frames, Name};
use dwcheck_elf::functions::Functions;
use dwcheck_elf::inspect::{inspect_frame_sections, Check, InspectError, LeftOut, Rest, Verdict};
use dwcheck_elf::mapped::Bytes;
use dwcheck_elf::names::FunctionOffset;
use dwcheck_elf::program::Program;
use dwcheck_elf::state_file::parse_address;
use dwcheck_elf::target::Target;
use dwcheck_elf::text::Escaped;
use dwcheck_elf::unpacked::read_unpacked;
use std::fmt;
use std::fs::File;
use std::io::{self, Read, Write};
use std::path::Path;

/// Opens an ELF file, which may also be a pipe or another file that isn't regular.
pub fn open_elf(path: &Path) -> Result<Bytes, Failure> {
    Bytes::of_elf(path).map_err(|error| Failure::reading(path, &error))
}

/// Opens a core file or a minidump, which may be compressed.
pub fn open_core(path: &Path) -> Result<Bytes, Failure> {
    read_unpacked(path).map_err(|error| Failure::reading(path, &error))
}

/// Reads a text to its end, even if it is a pipe or another file that isn't regular.
pub fn read_text(path: &Path) -> Result<Vec<u8>, Failure> {
    let content = || -> io::Result<Vec<u8>> {
        let mut bytes = Vec::new();
        File::open(path)?.read_to_end(&mut bytes)?;
        Ok(bytes)
    };
    content().map_err(|error| Failure::reading(path, &error))
}

/// Reads the headers of an ELF file.
pub fn parse_program<'data>(path: &Path, data: &'data [u8]) -> Result<Program<'data>, Failure> {
    Program::read(data).map_err(|error| Failure::File(format!("{}: {}", shown_path(path), error)))
}

/// The frame sections of a program, without the CIEs and FDEs that are refused.
pub struct Opened<'data> {
    /// The sections that have FDEs.
    pub frames: Vec<Frames<'data>>,
    /// What is refused of each section, and how many records are therefore left out.
    pub refused: Vec<(Vec<Defect>, Option<LeftOut>)>,
}

impl<'data> Opened<'data> {
    /// Checks the frame sections of a program. A `.debug_frame` that can't be read is left out, if there is an `.eh_frame`, and a note on standard
    /// error says so.
    pub fn read(path: &Path, program: &Program<'data>) -> Result<Self, Failure> {
        let mut opened = Opened { frames: Vec::new(), refused: Vec::new() };
        let mut unread = Vec::new();
        for section in inspect_frame_sections(program, Check { all: true, ..Check::default() }) {
            let rest = section.rest().map_err(|error| Failure::judging(path, &error))?;
            match section.verdict {
                Verdict::Refused(defects) => {
                    opened.refused.push((defects, rest.as_ref().map(Rest::left_out)));
                    opened.frames.extend(rest.map(|rest| rest.frames).filter(|frames| frames.has_fdes()));
                }
                Verdict::Unread(error) => unread.push((section.name, error)),
                _ => opened.frames.extend(section.frames),
            }
        }
        for (name, error) in unread {
            if name != Name::DebugFrame || opened.frames.is_empty() {
                return Err(Failure::judging(path, &error));
            }
            write_note(path, format_args!("{}; .eh_frame is used", error));
        }
        Ok(opened)
    }

    /// Says on standard error how many records of each section are left out, and why: each fault, or only
    /// the first one.
    pub fn note_refused(&self, path: &Path, all: bool) {
        for (defects, left_out) in &self.refused {
            if let (Some(first), Some(left_out)) = (defects.first(), left_out) {
                write_note(path, format_args!("{}: {}", first.section, left_out));
            }
            let shown = if all { defects.len() } else { 1 };
            defects.iter().take(shown).for_each(|defect| write_note(path, defect));
        }
    }

    /// The fault of the FDE that covers an address, if it is refused.
    pub fn refused_at(&self, address: u64) -> Option<&Defect> {
        let covers = |defect: &&Defect| matches!(&defect.record, Some(Within::Fde(range)) if range.contains(&address));
        self.refused.iter().flat_map(|(defects, _)| defects).find(covers)
    }

    /// How a run ends that gives an answer.
    pub fn done(&self) -> Done {
        if self.refused.is_empty() {
            Done::Accepted
        } else {
            Done::Refused
        }
    }
}

/// A fault in two lines, without the file. The first says where it is, such as in which FDE, and gives its
/// name. The second has its offset, the rule that it breaks, and the hint if there is one.
pub struct DefectText<'a>(pub &'a Defect);

impl fmt::Display for DefectText<'_> {
    fn fmt(&self, f: &mut fmt::Formatter<'_>) -> fmt::Result {
        let DefectText(defect) = self;
        write!(f, "{}\n    at {:#x}: {}", defect, defect.offset, defect.rule)?;
        match defect.hint {
            Some(hint) => write!(f, "; {}", hint),
            None => Ok(()),
        }
    }
}

/// Writes a fault of a file in two lines.
pub fn write_defect(out: &mut impl Write, path: &Path, defect: &Defect) -> io::Result<()> {
    writeln!(out, "{}: {}", shown_path(path), DefectText(defect))
}

/// Makes a process with a frame section as its only module, at the addresses that it is linked for.
pub fn process_of_frames(path: &Path, frames: &Frames<'_>) -> Result<Process, Failure> {
    let failed = |error| Failure::judging(path, &InspectError::Dwcheck(frames.name(), error));
    frames.process(0).map_err(failed)
}

/// Writes a note on standard error.
pub fn write_note(path: &Path, text: impl fmt::Display) {
    // If standard error is closed, nobody can read the note, so it doesn't matter that this fails.
    let _ = writeln!(io::stderr(), "dwcheck-elf: {}: {}", shown_path(path), text);
}

/// The name of the function that contains an address, in parentheses after a space. Empty if the
/// program has no name for the address.
pub fn function_in_parentheses(functions: &Functions<'_>, address: u64) -> String {
    FunctionOffset::at(functions, address).map_or_else(String::new, |spot| format!(" ({})", spot))
}

/// Reads the argument with this name that is a number, such as `0x1130`.
pub fn number_argument(name: &str, text: &str, target: Target) -> Result<u64, Failure> {
    let bad = || format!("bad argument: {} is {}, which isn't an address as 0x1130", name, Escaped(text));
    parse_address(text, target).ok_or_else(|| Failure::Argument(bad()))
}

/// Reads the argument with this name that is an address in the process: a number, or a function of the program with
/// or without an offset, such as `main+4`. `load` is where the program is loaded. It is added to
/// the address of a function, but not to a number.
pub fn address_argument(
    name: &str,
    text: &str,
    target: Target,
    functions: &Functions<'_>,
    load: u64,
) -> Result<u64, Failure> {
    if let Some(number) = parse_address(text, target) {
        return Ok(number);
    }
    if text.starts_with("0x") {
        return number_argument(name, text, target);
    }
    match functions.parse(text) {
        Ok(address) => Ok(target.wrap(address.wrapping_add(load))),
        Err(error) => Err(Failure::Argument(format!("bad argument: {}: {}", name, error))),
    }
}
