//! The command `stack`: prints the stack of each thread of a core file or of a process.

mod threads;

use crate::arguments::StackArguments;
use crate::crash::Crash;
use crate::debuginfod::{fetcher, note_problems};
use crate::end::{shown_path, Done, Failure};
use crate::opened::{open_core, open_elf};
use dwcheck_elf::core_file::{CoreError, CoreFile, Files, MappedFile, Search};
use dwcheck_elf::fetch::Fetcher;
use dwcheck_elf::live::Snapshot;
use dwcheck_elf::mapped::Bytes;
use dwcheck_elf::stack::{NameOptions, Stacks};
use dwcheck_elf::symbol_store::{SymbolFiles, SymbolStore};
use dwcheck_elf::variables::Shape;
use std::ffi::OsStr;
use std::io::{self, Write};
use std::os::unix::ffi::OsStrExt;
use std::path::{Path, PathBuf};
use std::time::Duration;
use threads::Report;

/// Prints the stacks on `out`, and warnings on standard error.
pub fn stack(arguments: &StackArguments, out: &mut impl Write) -> Result<Done, Failure> {
    if let Some(pid) = arguments.pid {
        return stack_of_process(arguments, pid, out);
    }
    match (arguments.files.as_slice(), &arguments.core) {
        ([core], None) | ([], Some(core)) => stack_of_core(arguments, None, core, out),
        ([program, core], None) | ([program], Some(core)) => stack_of_core(arguments, Some(program), core, out),
        _ => Err(Failure::Argument("give [PROGRAM] CORE, [PROGRAM] -c CORE or --pid".to_string())),
    }
}

/// The program of a core file: its path, and its bytes.
struct OpenedProgram {
    path: PathBuf,
    bytes: Bytes,
}

fn stack_of_core(
    arguments: &StackArguments,
    program: Option<&PathBuf>,
    path: &Path,
    out: &mut impl Write,
) -> Result<Done, Failure> {
    let bytes = open_core(path)?;
    let core = CoreFile::read(&bytes).map_err(|error| unread_core(path, &error))?;
    let fetcher = fetcher(arguments.debuginfod);
    let mut files = Files::read_with(&core, &search_in(&arguments.root, &arguments.path, &fetcher)?);
    let opened = match program {
        Some(program) => Some(open_program(program)?),
        None if !core.names_files() => {
            core.program_name().and_then(|name| open_program(Path::new(OsStr::from_bytes(name))).ok())
        }
        None => None,
    };
    let is_used = opened.as_ref().map_or(false, |opened| files.use_program(&core, &opened.bytes));
    let symbols = SymbolFiles::find(&core, &files, &symbol_stores(arguments)?);
    let mut stacks = Stacks::of(&core, &files);
    stacks.use_mapped(&bytes);
    stacks.use_symbols(&symbols);
    if let Some(opened) = &opened {
        stacks.add_program(&opened.path, &opened.bytes);
    }
    let mut warnings = Vec::new();
    match &opened {
        Some(opened) if !is_used && !has_program(&stacks, &opened.path, &arguments.root) => {
            warnings.push(other_program_warning(program.unwrap_or(&opened.path), files.program(&core)));
        }
        None if !core.names_files() => {
            warnings.push(format!("{} names no files: give its program, as in PROGRAM CORE", shown_path(path)));
        }
        _ => {}
    }
    if core.is_cut() {
        warnings.push(format!("{} ends before the memory that it should hold", shown_path(path)));
    }
    warnings.extend(core.problems().iter().map(|problem| format!("{}: {}", shown_path(path), problem)));
    warnings.extend(stacks.without_stack().map(|without| format!("{}: {}", shown_path(path), without)));
    let printed = print_stacks(arguments, &core, (&mut stacks, None), warnings, out);
    note_problems(&fetcher);
    printed
}

fn stack_of_process(arguments: &StackArguments, pid: u32, out: &mut impl Write) -> Result<Done, Failure> {
    let copy = if arguments.vars {
        Snapshot::take_with_data(pid, &arguments.tid)
    } else {
        Snapshot::take(pid, &arguments.tid)
    };
    let copy = copy.map_err(|error| Failure::File(format!("process {}: {}", pid, error)))?;
    let core = copy.core();
    let files = Files::of_live(&core, pid);
    let mut stacks = Stacks::of(&core, &files);
    let warnings = copy.skipped().map(|(tid, why)| format!("thread {}: {}", tid, why)).collect();
    print_stacks(arguments, &core, (&mut stacks, Some(copy.longest_stop())), warnings, out)
}

/// Walks the stacks, prints them, and then the warnings.
fn print_stacks(
    arguments: &StackArguments,
    core: &CoreFile<'_>,
    stacks: (&mut Stacks<'_>, Option<Duration>),
    mut warnings: Vec<String>,
    out: &mut impl Write,
) -> Result<Done, Failure> {
    write_stacks(arguments, core, stacks, None, &mut warnings, out)?;
    for warning in warnings {
        let _ = writeln!(io::stderr(), "dwcheck-elf: {}", warning);
    }
    Ok(Done::Accepted)
}

/// Walks the stacks and writes them. For a process that runs, `longest_stop` is the longest time for which a thread was
/// stopped; for one that the kernel holds, `crash` is what is known of it. Adds what isn't used to `warnings`, which only
/// a document of JSON has.
pub fn write_stacks(
    arguments: &StackArguments,
    core: &CoreFile<'_>,
    (stacks, longest_stop): (&mut Stacks<'_>, Option<Duration>),
    crash: Option<&Crash>,
    warnings: &mut Vec<String>,
    out: &mut dyn Write,
) -> Result<(), Failure> {
    let (inlined, source, raw) = (!arguments.no_inline, !arguments.no_source, arguments.raw_names);
    stacks.show_names(NameOptions { inlined, source, raw });
    if arguments.vars {
        let (depth, length, pointers) = (arguments.depth, arguments.elements.into(), arguments.pointers.into());
        stacks.show_variables(Shape { depth, length, pointers, ..Shape::default() }, arguments.registers);
    }
    if arguments.modules {
        stacks.show_modules();
    }
    let overflowed = stacks.overflowed();
    let report = Report { arguments, core, stacks, longest_stop, crash, overflowed };
    report.write(out, warnings)?;
    Ok(out.flush()?)
}

fn open_program(program: &Path) -> Result<OpenedProgram, Failure> {
    let path = program.canonicalize();
    let path = path.map_err(|error| Failure::reading(program, &error))?;
    Ok(OpenedProgram { bytes: open_elf(&path)?, path })
}

/// Where the files of a process are looked for: in the folder that stands for `/`, and in given folders.
pub fn search_in(root: &Path, folders: &[PathBuf], fetcher: &Fetcher) -> Result<Search, Failure> {
    let whole = |folder: &PathBuf| match folder.canonicalize() {
        Ok(whole) if whole.is_dir() => Ok(whole),
        Ok(_) => {
            Err(Failure::Argument(format!("bad argument: --path is {}, which isn't a folder", shown_path(folder))))
        }
        Err(error) => Err(Failure::reading(folder, &error)),
    };
    let folders = folders.iter().map(whole).collect::<Result<_, _>>()?;
    Ok(Search { root: root.to_path_buf(), folders, fetcher: fetcher.clone() })
}

/// Where symbol files are looked for.
fn symbol_stores(arguments: &StackArguments) -> Result<Vec<SymbolStore>, Failure> {
    let keeps_indexes = arguments.keep_index;
    let store = |path: &PathBuf| match path.metadata() {
        Ok(_) => Ok(SymbolStore { path: path.clone(), keeps_indexes }),
        Err(error) => Err(Failure::reading(path, &error)),
    };
    arguments.symbols.iter().map(store).collect()
}

/// The failure for a core file that can't be read.
fn unread_core(path: &Path, error: &CoreError) -> Failure {
    let hint = match error {
        CoreError::NotCore(_) => "; the order is PROGRAM CORE",
        _ => "",
    };
    Failure::File(format!("{}: {}{}", shown_path(path), error, hint))
}

/// Whether the process had a file loaded, which may be inside the folder `root`.
fn has_program(stacks: &Stacks<'_>, program: &Path, root: &Path) -> bool {
    let root = root.canonicalize().unwrap_or_else(|_| root.to_path_buf());
    let inside = program.strip_prefix(&root).map_or(program.to_path_buf(), |inside| Path::new("/").join(inside));
    stacks.has(&inside) || stacks.has(program)
}

/// The warning if PROGRAM isn't used. `file` is the program's file at its path in the core.
fn other_program_warning(program: &Path, file: Option<&MappedFile>) -> String {
    let warning = format!("{} isn't the program of this core file", shown_path(program));
    match file.filter(|file| file.bytes.is_ok()) {
        Some(file) => format!("{}: {} is used", warning, shown_path(&file.path)),
        None => warning,
    }
}
