//! Checks the SFrame section of a program.

use super::verdict::{InspectError, Inspected, Verdict};
use crate::cfi::defect::{Defect, Within};
use crate::cfi::sframe::{Fault, SframeError, SframeSection};
use crate::elf::format::Name;
use crate::elf::function_offset::FunctionOffset;
use crate::elf::program::Program;

/// Checks the section `.sframe` of a program by the rules of docs/SFRAME.md, up to the first fault. `None` if the program
/// has none, or if it is empty.
pub fn inspect_sframe<'data>(program: &Program<'data>) -> Option<Inspected<'data>> {
    let (bytes, verdict) = match SframeSection::read(program) {
        Ok(section) => {
            let section = section?;
            (section.source.bytes.len(), verdict_on(program, &section))
        }
        Err(error) => (0, Verdict::Unread(InspectError::Program(error))),
    };
    Some(Inspected { name: Name::Sframe, file: None, bytes, frames: None, lists: None, verdict })
}

fn verdict_on(program: &Program<'_>, section: &SframeSection<'_>) -> Verdict {
    match section.check() {
        Ok(sframe) => Verdict::Sframe(sframe.counts()),
        Err(SframeError::Refused(fault)) => Verdict::Refused(vec![Defect::of_sframe(program, section, fault)]),
        Err(error) => Verdict::Unread(InspectError::Sframe(error)),
    }
}

impl Defect {
    /// Describes a fault of an SFrame section.
    pub fn of_sframe(program: &Program<'_>, section: &SframeSection<'_>, fault: Fault) -> Self {
        let range = fault.function.and_then(|function| section.addresses_of(function));
        let function = range.as_ref().and_then(|range| {
            let functions = program.functions();
            FunctionOffset::at(&functions, range.start).map(|spot| spot.to_string())
        });
        let what = match fault.function {
            None => "the header",
            Some(function) if function == fault.offset => "an entry of the function index",
            Some(_) => "a row entry",
        };
        Defect {
            section: Name::Sframe,
            offset: fault.offset,
            at: fault.function.unwrap_or(fault.offset),
            fault: fault.kind.name(),
            what: what.to_string(),
            record: range.map(Within::Fde),
            function,
            rule: fault.kind.rule().to_string(),
            hint: None,
        }
    }
}
