//! The commands `rows` and `row`: show the rows of unwind tables.

use crate::arguments::{RowArguments, RowsArguments};
use crate::check::write_notes;
use crate::end::{shown_path, Done, Failure};
use crate::opened::{
    self, address_argument, function_in_parentheses, number_argument, open_elf, process_of_frames, write_defect, Opened,
};
use crate::sframe::OpenedSframe;
use dwcheck::Process;
use dwcheck_elf::frames::{Frames, Kind};
use dwcheck_elf::functions::Functions;
use dwcheck_elf::program;
use dwcheck_elf::row::Row;
use dwcheck_elf::text::{Address, Offset, RowLine};
use dwcheck_elf::validate::{DwcheckRows, RowSource};
use std::io::Write;
use std::path::Path;

/// Shows all FDEs and rows of a program, but those of FDEs that are refused, whose faults are shown on
/// standard error.
pub fn rows(arguments: &RowsArguments, out: &mut impl Write) -> Result<Done, Failure> {
    let data = open_elf(&arguments.program)?;
    let program = opened::parse_program(&arguments.program, &data)?;
    let opened = Opened::read(&arguments.program, &program)?;
    let sframe = OpenedSframe::read(&arguments.program, &program)?;
    if opened.frames.is_empty() && opened.refused.is_empty() && sframe.is_none() {
        return Err(no_frame_section(&arguments.program, program.kind()));
    }
    let functions = program.functions();
    for frames in &opened.frames {
        let process = process_of_frames(&arguments.program, frames)?;
        writeln!(out, "section {}", frames.name())?;
        write_rows_of_section(out, frames, &process, &functions)?;
        if arguments.notes.notes {
            write_notes(out, frames)?;
        }
    }
    let mut done = opened.done();
    if let Some(sframe) = &sframe {
        done = done.max(sframe.write_rows(out, &arguments.program, &functions, arguments.notes.notes)?);
    }
    out.flush()?;
    opened.note_refused(&arguments.program, true);
    Ok(done)
}

/// The failure for a file that has no frame section.
fn no_frame_section(path: &Path, kind: program::Kind) -> Failure {
    let hint = match kind {
        program::Kind::Core => "; it is a core file: stack prints its stacks",
        _ => "",
    };
    Failure::File(format!("{}: has no .eh_frame, .debug_frame or .sframe{}", shown_path(path), hint))
}

fn write_rows_of_section(
    out: &mut impl Write,
    frames: &Frames<'_>,
    process: &Process,
    functions: &Functions<'_>,
) -> Result<(), Failure> {
    let target = frames.target();
    for record in frames.used() {
        let (cie, begin, end) = match record.kind {
            Kind::Fde { cie, begin, end, .. } => (cie, begin, end),
            _ => continue,
        };
        let register = match frames.record(cie).map(|cie| cie.kind) {
            Some(Kind::Cie { return_register, .. }) => return_register,
            _ => 0,
        };
        let (offset, cie) = (Offset(record.offset), Offset(cie));
        let (first, last) = (Address(target, begin), Address(target, end));
        writeln!(
            out,
            "fde {} cie {} {}..{} ra r{}{}",
            offset,
            cie,
            first,
            last,
            register,
            function_in_parentheses(functions, begin)
        )?;
        write_rows(out, frames, DwcheckRows::whole(process, begin, end))?;
    }
    Ok(())
}

fn write_rows(out: &mut impl Write, frames: &Frames<'_>, mut rows: DwcheckRows<'_>) -> Result<(), Failure> {
    let mut row = Row::default();
    while rows.next_row(&mut row).map_err(|error| Failure::File(error.to_string()))? {
        writeln!(out, "{}", RowLine(frames.target(), &row))?;
    }
    Ok(())
}

/// Shows the row of an address, from the first frame section that has such a row, and that of `.sframe`. If no section
/// has one, shows the fault of the FDE that covers the address and is refused, or `none`.
pub fn row(arguments: &RowArguments, out: &mut impl Write) -> Result<Done, Failure> {
    let data = open_elf(&arguments.program)?;
    let program = opened::parse_program(&arguments.program, &data)?;
    let functions = program.functions();
    let target = program.target();
    let load = number_argument("--load", &arguments.load, target)?;
    let loaded = address_argument("ADDRESS", &arguments.address, target, &functions, load)?;
    let linked = target.wrap(loaded.wrapping_sub(load));
    let opened = Opened::read(&arguments.program, &program)?;
    let sframe = OpenedSframe::read(&arguments.program, &program)?;
    let has_row = write_row(out, &arguments.program, &opened, &functions, linked)?;
    let mut done = opened.done();
    if has_row {
        opened.note_refused(&arguments.program, false);
    }
    let of_sframe = sframe.as_ref().map_or(Ok(None), |sframe| {
        done = done.max(sframe.done(&arguments.program));
        sframe.write_row(out, &functions, linked)
    })?;
    if has_row || of_sframe.is_some() {
        return Ok(done);
    }
    match opened.refused_at(linked) {
        Some(defect) => write_defect(out, &arguments.program, defect)?,
        None => {
            opened.note_refused(&arguments.program, false);
            writeln!(out, "none")?;
        }
    }
    Ok(done)
}

/// Writes the row of an address from the first frame section that has one, and says whether one has.
fn write_row(
    out: &mut impl Write,
    path: &Path,
    opened: &Opened<'_>,
    functions: &Functions<'_>,
    address: u64,
) -> Result<bool, Failure> {
    for frames in &opened.frames {
        let process = process_of_frames(path, frames)?;
        if process.row(address).is_some() {
            let mut row = Row::default();
            let end = address.saturating_add(1);
            let found = DwcheckRows::whole(&process, address, end).next_row(&mut row);
            found.map_err(|error| Failure::File(error.to_string()))?;
            writeln!(out, "section {}", frames.name())?;
            writeln!(out, "{}{}", RowLine(frames.target(), &row), function_in_parentheses(functions, address))?;
            return Ok(true);
        }
    }
    Ok(false)
}
