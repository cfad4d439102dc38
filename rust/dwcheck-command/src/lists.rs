//! The command `locs`: looks up an address in a location list.

use crate::arguments::LocsArguments;
use crate::end::{shown_path, Done, Failure};
use crate::opened::{address_argument, number_argument, open_elf, parse_program, write_defect};
use crate::walks::read_state_file;
use dwcheck::{evaluate, locations, Error, ExpressionKind, Lookup, Span};
use dwcheck_elf::expression::Measure;
use dwcheck_elf::fault::Defect;
use dwcheck_elf::state_file::StateFile;
use dwcheck_elf::target::Target;
use dwcheck_elf::text::{Offset, Outcomes};
use std::io::Write;

/// Shows each expression that the list has for the address, and the result of the expression. Shows
/// `none` if there is no such expression, and `no list` if no list begins at the offset.
pub fn locs(arguments: &LocsArguments, out: &mut impl Write) -> Result<Done, Failure> {
    let data = open_elf(&arguments.program)?;
    let program = parse_program(&arguments.program, &data)?;
    let target = program.target();
    let functions = program.functions();
    let list = number_argument("LIST", &arguments.list, target)?;
    let list =
        u32::try_from(list).map_err(|_| Failure::Argument("bad argument: LIST is past 0xffffffff".to_string()))?;
    let base = address_argument("BASE", &arguments.base, target, &functions, 0)?;
    let address = address_argument("ADDRESS", &arguments.address, target, &functions, 0)?;
    let state = arguments.state.as_ref().map_or(Ok(StateFile::default()), |path| read_state_file(path, target))?;
    let lists = program
        .debug_loclists()
        .map_err(|error| Failure::File(format!("{}: {}", shown_path(&arguments.program), error)))?;
    let bytes = lists.as_ref().map_or(&[][..], |lists| &lists.bytes);
    let found = match locations(bytes, target, &Lookup { list, base, address }) {
        Ok(found) => found,
        Err(Error::Refused(fault)) => {
            write_defect(out, &arguments.program, &Defect::of_lists(bytes, fault, target))?;
            return Ok(Done::Refused);
        }
        Err(error) => {
            return Err(Failure::File(format!("{}: .debug_loclists: {}", shown_path(&arguments.program), error)))
        }
    };
    match found.as_deref() {
        None => writeln!(out, "no list")?,
        Some([]) => writeln!(out, "none")?,
        Some(found) => {
            for span in found {
                write_list_outcome(out, bytes, *span, target, &state)?;
            }
        }
    }
    Ok(Done::Accepted)
}

fn write_list_outcome(
    out: &mut impl Write,
    lists: &[u8],
    span: Span,
    target: Target,
    file: &StateFile,
) -> Result<(), Failure> {
    let expression = span.of(lists).unwrap_or(&[]);
    let blocks = file.blocks();
    let evaluation = evaluate(expression, ExpressionKind::Location, target, &file.context, &file.state(&blocks));
    let evaluation = evaluation.map_err(|error| Failure::File(error.to_string()))?;
    let depth = Measure::of(expression, 0, target).depth;
    writeln!(out, "expr {}", Offset(span.offset))?;
    write!(out, "{}", Outcomes { target, evaluation: &evaluation, depth })?;
    Ok(())
}
