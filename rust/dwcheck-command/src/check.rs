//! The command `check`: checks the frame sections and the location lists of programs.

use crate::arguments::CheckArguments;
use crate::end::{shown_path, Done, Failure};
use crate::opened::{open_elf, parse_program, write_defect, write_note};
use dwcheck::{CheckedExpression, Report};
use dwcheck_elf::debug_files::DebugFiles;
use dwcheck_elf::eh_frame_hdr::mismatches;
use dwcheck_elf::frames::{Counts, Frames, Measured, Name, Notes};
use dwcheck_elf::inspect::{inspect_frame_sections, inspect_lists_of_file, inspect_sframe, Check, Inspected, Verdict};
use dwcheck_elf::lists::{self, Bytes as ListBytes};
use dwcheck_elf::mapped::Bytes;
use dwcheck_elf::program::Program;
use dwcheck_elf::sframe::{Sframe, SframeCounts, SframeNotes, SframeSection};
use dwcheck_elf::text::Offset;
use std::io::{self, Write};
use std::path::{Path, PathBuf};

/// Checks each program in turn. If there are several and one can't be read or checked, the others
/// are still checked.
pub fn check(arguments: &CheckArguments, out: &mut impl Write) -> Result<Done, Failure> {
    let mut done = Done::Accepted;
    for path in &arguments.programs {
        match check_program(arguments, path, out) {
            Ok(one) => done = done.max(one),
            Err(failure @ Failure::File(_)) if arguments.programs.len() > 1 => {
                out.flush()?;
                let _ = writeln!(io::stderr(), "dwcheck-elf: {}", failure);
                done = Done::Unread;
            }
            Err(failure) => return Err(failure),
        }
    }
    Ok(done)
}

/// Reads a program. If it is a folder, the failure names the command that takes folders.
fn read_program(path: &Path) -> Result<Bytes, Failure> {
    open_elf(path).map_err(|failure| match failure {
        Failure::File(text) if path.is_dir() => Failure::File(format!("{}: survey reads folders", text)),
        failure => failure,
    })
}

fn check_program(arguments: &CheckArguments, path: &Path, out: &mut impl Write) -> Result<Done, Failure> {
    let data = read_program(path)?;
    let program = parse_program(path, &data)?;
    let CheckArguments { all, doubtful, compare, .. } = *arguments;
    let check = Check { all, doubtful, compare, counts_only: false };
    let mut sections = inspect_frame_sections(&program, check);
    sections.extend(inspect_sframe(&program));
    let mut done = Done::Accepted;
    let mut separate = None;
    let mut names = ".debug_frame, .eh_frame or .sframe";
    if !arguments.no_lists {
        names = ".debug_frame, .eh_frame, .sframe, .debug_loc or .debug_loclists";
        separate = add_lists(&mut sections, path, &program, check);
    }
    if sections.is_empty() {
        writeln!(out, "{}: no {}", shown_path(path), names)?;
    }
    for section in &sections {
        let file = section.file.as_deref().or(separate.as_deref()).filter(|_| section.lists.is_some());
        done = done.max(write_verdict(out, path, file, section)?);
        if matches!(section.verdict, Verdict::Unread(_)) {
            continue;
        }
        write_doubtful_entries(out, file.unwrap_or(path), section)?;
        if let Some(frames) = &section.frames {
            write_eh_frame_hdr(out, path, &program, frames)?;
            if arguments.notes.notes {
                write_notes(out, frames)?;
            }
        }
        if arguments.notes.notes && section.name == Name::Sframe {
            write_sframe_notes(out, &program)?;
        }
    }
    Ok(done)
}

/// Writes whether a section is accepted, or what is refused, and what it holds. `separate` is the file that has
/// it, if it isn't the program itself.
fn write_verdict(
    out: &mut impl Write,
    path: &Path,
    separate: Option<&Path>,
    section: &Inspected<'_>,
) -> Result<Done, Failure> {
    match &section.verdict {
        Verdict::Refused(defects) => {
            defects.iter().try_for_each(|defect| write_defect(out, separate.unwrap_or(path), defect))?;
            let done = write_rest_of_frames(out, path, section)?;
            section.lists.as_ref().map_or(Ok(()), |lists| write_list_contents(out, lists))?;
            return Ok(done);
        }
        Verdict::FoundLists => write_found_lists(out, path, separate, section)?,
        Verdict::Unread(error) => {
            out.flush()?;
            write_note(path, error);
            return Ok(Done::Unread);
        }
        _ => {
            writeln!(out, "{}: {}: accepted", shown_path(path), section.name)?;
            write_accepted(out, section)?;
        }
    }
    Ok(Done::Accepted)
}

/// Writes a line for each entry of location lists that is most likely a mistake, if they are asked for.
fn write_doubtful_entries(out: &mut impl Write, file: &Path, section: &Inspected<'_>) -> io::Result<()> {
    let mut doubtful = section.lists.iter().flat_map(|lists| &lists.doubtful);
    doubtful.try_for_each(|one| writeln!(out, "{}: {}{}", shown_path(file), section.name, one))
}

/// Adds the location lists of a program to its sections. Returns the path of the separate file of debug
/// information that has them, if there is one.
fn add_lists<'a>(
    sections: &mut Vec<Inspected<'a>>,
    path: &Path,
    program: &Program<'a>,
    check: Check,
) -> Option<PathBuf> {
    // A separate file is also found by the folder of the program.
    let whole = path.canonicalize().unwrap_or_else(|_| path.to_path_buf());
    match inspect_lists_of_file(&whole, program, &DebugFiles::default(), check) {
        Ok((file, lists)) => {
            sections.extend(lists);
            file
        }
        Err((file, why)) => {
            write_note(&file, why);
            None
        }
    }
}

/// Writes what an accepted section holds: a line of counts, such as those of its CIEs, FDEs and
/// rows, and a line for each of its expressions.
fn write_accepted(out: &mut impl Write, section: &Inspected<'_>) -> io::Result<()> {
    match (&section.verdict, &section.frames) {
        (Verdict::Frames(agreement), Some(frames)) => write_frame_counts(out, agreement, frames),
        (Verdict::Sframe(counts), _) => {
            let SframeCounts { version, functions, rows } = counts;
            writeln!(out, "version {} fdes {} rows {}", *version as u8, functions, rows)
        }
        (Verdict::Lists(report), _) => write_list_report(out, report),
        _ => Ok(()),
    }
}

/// Writes that location lists are accepted and what they have. `separate` is the file that has them, if it
/// isn't the program itself.
fn write_found_lists(
    out: &mut impl Write,
    path: &Path,
    separate: Option<&Path>,
    section: &Inspected<'_>,
) -> io::Result<()> {
    let lists = match &section.lists {
        Some(lists) => lists,
        None => return Ok(()),
    };
    let place = separate.map_or_else(String::new, |file| format!(" (in {})", shown_path(file)));
    let not_checked = lists.not_checked().map_or_else(String::new, |what| format!(", not checked: {}", what));
    writeln!(out, "{}: {}{}: accepted{}", shown_path(path), section.name, place, not_checked)?;
    lists.unchecked.iter().try_for_each(|defect| write_defect(out, separate.unwrap_or(path), defect))?;
    write_list_contents(out, lists)
}

/// Writes what location lists have that were found by `.debug_info`: how many they are, what is in their
/// section, and which operations can't be evaluated.
fn write_list_contents(out: &mut impl Write, lists: &lists::Contents) -> io::Result<()> {
    let lists::Contents { units, entries, bytes, .. } = lists;
    writeln!(out, "units {} lists {} entries {}", units, lists.lists, entries)?;
    let ListBytes { headers, views, unused, gaps, .. } = bytes;
    writeln!(out, "bytes headers {} lists {} views {} unused {} gaps {}", headers, bytes.lists, views, unused, gaps)?;
    if lists.with_unsupported > 0 {
        let kinds: Vec<_> =
            lists.all_unsupported.iter().map(|(unsupported, count)| format!(" {} {}", unsupported, count)).collect();
        writeln!(out, "not evaluated {}:{}", lists.with_unsupported, kinds.concat())?;
    }
    let lints = lists.lints.all().filter(|(_, count)| *count > 0);
    let lints: Vec<_> = lints.map(|(lint, count)| format!(" {} {}", lint, count)).collect();
    if !lints.is_empty() {
        writeln!(out, "doubtful{}", lints.concat())?;
    }
    if lists.not_compared > 0 {
        writeln!(out, "not compared {}", lists.not_compared)?;
    }
    Ok(())
}

/// Writes how much of a refused frame section is left out, and what the rest holds.
fn write_rest_of_frames(out: &mut impl Write, path: &Path, section: &Inspected<'_>) -> io::Result<Done> {
    match section.rest() {
        Ok(Some(rest)) => {
            writeln!(out, "{}: {}: {}", shown_path(path), section.name, rest.left_out())?;
            write_frame_counts(out, &rest.counts, &rest.frames)?;
            Ok(Done::Refused)
        }
        Ok(None) => Ok(Done::Refused),
        Err(error) => {
            out.flush()?;
            write_note(path, error);
            Ok(Done::Unread)
        }
    }
}

fn write_frame_counts(out: &mut impl Write, agreement: &Counts, frames: &Frames<'_>) -> io::Result<()> {
    let Counts { cies, fdes, rows, .. } = agreement;
    // Accepted expressions are refused again only if memory runs out.
    let expressions = frames.measure_expressions().map_err(|_| io::ErrorKind::OutOfMemory)?;
    writeln!(out, "cies {} fdes {} rows {} expressions {}", cies, fdes, rows, expressions.len())?;
    for Measured { offset, is_cfa, operations, depth } in expressions {
        let kind = if is_cfa { "cfa" } else { "register" };
        writeln!(out, "expr {} {} {} ops {} depth {}", frames.name(), Offset(offset), kind, operations, depth)?;
    }
    Ok(())
}

/// Writes how the sorted table of `.eh_frame_hdr` differs from `.eh_frame`, with a line for each kind of difference.
fn write_eh_frame_hdr(out: &mut impl Write, path: &Path, program: &Program<'_>, frames: &Frames<'_>) -> io::Result<()> {
    match mismatches(program, frames) {
        Ok(all) => all.iter().try_for_each(|one| writeln!(out, "note .eh_frame_hdr: {}", one)),
        Err(why) => {
            out.flush()?;
            write_note(path, format_args!(".eh_frame_hdr: {}", why));
            Ok(())
        }
    }
}

fn write_list_report(out: &mut impl Write, report: &Report) -> io::Result<()> {
    writeln!(out, "tables {} lists {} expressions {}", report.tables, report.lists, report.expressions.len())?;
    for CheckedExpression { offset, operations, depth, .. } in &report.expressions {
        let (name, offset) = (Name::DebugLoclists, Offset(*offset));
        writeln!(out, "expr {} {} location ops {} depth {}", name, offset, operations, depth)?;
    }
    Ok(())
}

/// Writes what a section has that isn't a rule, and what was read in another way, with a line for each kind.
pub fn write_notes(out: &mut impl Write, frames: &Frames<'_>) -> io::Result<()> {
    let mut texts = Notes::of(frames).texts();
    texts.try_for_each(|(count, what)| writeln!(out, "note {}: {} {}", frames.name(), count, what))
}

/// Writes what the SFrame section of a program has that isn't a rule, with a line for each kind, if it breaks no rule.
fn write_sframe_notes(out: &mut impl Write, program: &Program<'_>) -> io::Result<()> {
    let section = SframeSection::read(program).ok().flatten();
    match section.as_ref().and_then(|section| section.check().ok()) {
        Some(sframe) => write_notes_on(out, &sframe),
        None => Ok(()),
    }
}

/// Writes what a checked SFrame section has that isn't a rule, with a line for each kind.
pub fn write_notes_on(out: &mut impl Write, sframe: &Sframe<'_>) -> io::Result<()> {
    let mut texts = SframeNotes::of(sframe).texts();
    texts.try_for_each(|(count, what)| writeln!(out, "note {}: {} {}", Name::Sframe, count, what))
}
