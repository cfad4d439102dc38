//! Shows the rows of the SFrame section of a program, for the commands `rows` and `row`.

use crate::check::write_notes_on;
use crate::end::{Done, Failure};
use crate::opened::{function_in_parentheses, write_note};
use dwcheck_elf::fault::Defect;
use dwcheck_elf::frames::Name;
use dwcheck_elf::functions::Functions;
use dwcheck_elf::inspect::InspectError;
use dwcheck_elf::program::Program;
use dwcheck_elf::sframe::{Function, Sframe, SframeError, SframeRow, SframeSection};
use dwcheck_elf::target::Target;
use dwcheck_elf::text::{Address, Offset};
use std::io::Write;
use std::path::Path;

/// The SFrame section of a program, and what is wrong with it.
pub struct OpenedSframe<'data> {
    section: SframeSection<'data>,
    /// Why it isn't used.
    defect: Option<Defect>,
}

impl<'data> OpenedSframe<'data> {
    /// Reads and checks the SFrame section of a program. `None` if it has none.
    pub fn read(path: &Path, program: &Program<'data>) -> Result<Option<Self>, Failure> {
        let section = SframeSection::read(program);
        let section = section.map_err(|error| Failure::judging(path, &InspectError::Program(error)))?;
        let opened = |section: SframeSection<'data>| {
            let defect = match section.check() {
                Ok(_) => None,
                Err(SframeError::Refused(fault)) => Some(Defect::of_sframe(program, &section, fault)),
                Err(error) => return Err(Failure::judging(path, &InspectError::Sframe(error))),
            };
            Ok(OpenedSframe { section, defect })
        };
        section.map(opened).transpose()
    }

    /// How a run ends. Says on standard error why the section is refused, if it is.
    pub fn done(&self, path: &Path) -> Done {
        match &self.defect {
            Some(defect) => {
                write_note(path, defect);
                Done::Refused
            }
            None => Done::Accepted,
        }
    }

    /// Writes all functions and their rows, unless the section is refused.
    pub fn write_rows(
        &self,
        out: &mut impl Write,
        path: &Path,
        functions: &Functions<'_>,
        has_notes: bool,
    ) -> Result<Done, Failure> {
        if let Ok(sframe) = self.section.check() {
            writeln!(out, "section {}", Name::Sframe)?;
            for function in sframe.functions() {
                write_function(out, &sframe, function, self.section.target, functions)?;
            }
            if has_notes {
                write_notes_on(out, &sframe)?;
            }
        }
        out.flush()?;
        Ok(self.done(path))
    }

    /// Writes the row of an address. `None` if the section has none, or is refused.
    pub fn write_row(
        &self,
        out: &mut impl Write,
        functions: &Functions<'_>,
        address: u64,
    ) -> Result<Option<()>, Failure> {
        let row = self.section.check().ok().and_then(|sframe| sframe.row(address));
        if let Some(row) = &row {
            writeln!(out, "section {}", Name::Sframe)?;
            write_row(out, row, self.section.target)?;
            writeln!(out, "{}", function_in_parentheses(functions, address))?;
        }
        Ok(row.map(|_| ()))
    }
}

fn write_function(
    out: &mut impl Write,
    sframe: &Sframe<'_>,
    function: &Function,
    target: Target,
    functions: &Functions<'_>,
) -> Result<(), Failure> {
    let (begin, end) = (Address(target, function.begin), Address(target, function.end));
    let register = sframe.header().abi.return_address();
    write!(out, "fde {} {}..{} ra r{}", Offset(function.offset), begin, end, register)?;
    if let Some(block) = function.block {
        write!(out, " blocks of {}", block)?;
    }
    let signal = if function.is_signal_frame { " signal frame" } else { "" };
    writeln!(out, "{}{}", signal, function_in_parentheses(functions, function.begin))?;
    for row in sframe.rows(function) {
        write_row(out, &row, target)?;
        writeln!(out)?;
    }
    Ok(())
}

/// Writes a row without a line feed.
fn write_row(out: &mut impl Write, row: &SframeRow, target: Target) -> Result<(), Failure> {
    let (begin, end) = (Address(target, row.row.begin), Address(target, row.row.end));
    Ok(write!(out, "row {}..{} {}", begin, end, row)?)
}
