//! The command `symbols`: writes Breakpad's symbol files of programs.

use crate::arguments::SymbolsArguments;
use crate::end::{shown_path, Done, Failure};
use crate::opened::{open_elf, parse_program, write_note};
use crate::output::{temporary_file, Output};
use dwcheck_elf::debug_files::DebugFiles;
use dwcheck_elf::mapped::Bytes;
use dwcheck_elf::program::Program;
use dwcheck_elf::symbols::{Separate, SymbolCounts, SymbolSource, SymbolsWriteError};
use std::fs::{self, File};
use std::io::{self, BufWriter, Seek, SeekFrom, Write};
use std::path::{Path, PathBuf};

/// Writes the symbol files of all programs.
pub fn symbols(arguments: &SymbolsArguments, out: &mut impl Write) -> Result<Done, Failure> {
    if arguments.output.is_none() && arguments.programs.len() > 1 {
        let why = "bad argument: without --output, the symbol file of one program is written";
        return Err(Failure::Argument(why.to_string()));
    }
    let mut done = Done::Accepted;
    for program in &arguments.programs {
        match write_symbols(arguments, program, out) {
            Ok(one) => done = done.max(one),
            // The others are written even so.
            Err(Failure::File(why)) => {
                let _ = writeln!(io::stderr(), "dwcheck-elf: {}", why);
                done = Done::Unread;
            }
            Err(failure) => return Err(failure),
        }
    }
    Ok(done)
}

fn write_symbols(arguments: &SymbolsArguments, path: &Path, out: &mut impl Write) -> Result<Done, Failure> {
    let bytes = open_elf(path)?;
    let program = parse_program(path, &bytes)?;
    let files = DebugFiles::default();
    let mut unused = Vec::new();
    let (separate, shared) = debug_information(path, &program, &files, &mut unused);
    let source = SymbolSource {
        program: &program,
        path,
        bytes: &bytes,
        separate: separate.as_ref().map(|(path, bytes, program)| Separate { path, bytes, program }),
        shared: shared.as_ref(),
        files: &files,
        raw_names: arguments.raw_names,
    };
    let mut counts = match &arguments.output {
        Some(store) => write_into_store(&source, store, arguments.strict, out)?,
        None => write_to_output(&source, arguments.strict, out)?,
    };
    unused.append(&mut counts.unused);
    unused.iter().for_each(|why| write_note(path, why));
    if counts.unsaid.is_empty() {
        return Ok(Done::Accepted);
    }
    let unsaid: Vec<_> = counts.unsaid.iter().map(|(what, number)| format!("{} {}", what, number)).collect();
    let end = if arguments.strict { "not written, because its rows can't say" } else { "the rows don't say" };
    write_note(path, format_args!("{}: {}", end, unsaid.join(" ")));
    Ok(if arguments.strict { Done::Refused } else { Done::Accepted })
}

/// A separate file of debug information: its path, its bytes, and the same read.
type SeparateFile<'f> = (PathBuf, &'f Bytes, Program<'f>);

/// The separate file of debug information of a program, and the one that has what several such files share. What can't
/// be used is said in `unused`.
fn debug_information<'f>(
    path: &Path,
    program: &Program<'_>,
    files: &'f DebugFiles,
    unused: &mut Vec<String>,
) -> (Option<SeparateFile<'f>>, Option<Program<'f>>) {
    // It is also found by the folder of the program.
    let whole = path.canonicalize().unwrap_or_else(|_| path.to_path_buf());
    let separate = files.find(&whole, program).unwrap_or_else(|(file, why)| {
        unused.push(format!("{}: {}", shown_path(&file), why));
        None
    });
    let separate = separate.and_then(|(file, bytes)| Some((file, bytes, Program::read(bytes).ok()?)));
    let shared = match &separate {
        _ if program.has_section(".debug_info") => files.shared(&whole, program),
        Some((file, _, separate)) => files.shared(file, separate),
        None => Ok(None),
    };
    let shared = shared.unwrap_or_else(|why| {
        unused.push(why.to_string());
        None
    });
    (separate, shared.and_then(|bytes| Program::read(bytes).ok()))
}

/// Writes a symbol file to its place in a store, and a line that says what it has. With `is_strict`, it isn't stored if
/// something can't be said.
fn write_into_store(
    source: &SymbolSource<'_, '_>,
    store: &Path,
    is_strict: bool,
    out: &mut impl Write,
) -> Result<SymbolCounts, Failure> {
    let failed = |error: SymbolsWriteError| failure(source.path, &error);
    let inner = source.identity().map_err(failed)?.path_in_store();
    let inner = inner.ok_or_else(|| Failure::File(format!("{}: its name is no file's", shown_path(source.path))))?;
    let place = store.join(inner);
    let folder = place.parent().map_or_else(PathBuf::new, Path::to_path_buf);
    let cannot = |error| Failure::File(format!("cannot write {}: {}", shown_path(&folder), error));
    fs::create_dir_all(&folder).map_err(cannot)?;
    let mut output = Output::create(&place)?;
    let counts = source.write(output.writer(), &mut temporary_file()?).map_err(failed)?;
    if is_strict && !counts.unsaid.is_empty() {
        // Folders that have something else stay.
        drop(output);
        let _ = fs::remove_dir(&folder).and_then(|()| folder.parent().map_or(Ok(()), fs::remove_dir));
        return Ok(counts);
    }
    output.finish()?;
    let SymbolCounts { functions, lines, inlined, publics, frames, rows, .. } = &counts;
    writeln!(
        out,
        "{}: functions {} lines {} inlined {} publics {} frames {} rows {}",
        shown_path(&place),
        functions,
        lines,
        inlined,
        publics,
        frames,
        rows
    )?;
    Ok(counts)
}

/// Writes a symbol file to standard output, once all of it is known.
fn write_to_output(
    source: &SymbolSource<'_, '_>,
    is_strict: bool,
    out: &mut impl Write,
) -> Result<SymbolCounts, Failure> {
    let mut whole: File = temporary_file()?;
    let written = source.write(BufWriter::new(&mut whole), &mut temporary_file()?);
    let counts = written.map_err(|error| failure(source.path, &error))?;
    if !is_strict || counts.unsaid.is_empty() {
        whole.seek(SeekFrom::Start(0))?;
        io::copy(&mut whole, out)?;
    }
    Ok(counts)
}

fn failure(path: &Path, error: &SymbolsWriteError) -> Failure {
    Failure::File(format!("{}: {}", shown_path(path), error))
}
