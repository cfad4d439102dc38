//! The commands `unwind` and `backtrace`: find the callers of frames, from the registers and the
//! memory in a state file.

use crate::arguments::{BacktraceArguments, UnwindArguments};
use crate::end::{shown_path, Done, Failure};
use crate::opened::{
    address_argument, number_argument, open_elf, parse_program, read_text, write_defect, write_note, Opened,
};
use dwcheck::{Answer, Error, Frame};
use dwcheck_elf::fault::Defect;
use dwcheck_elf::functions::Functions;
use dwcheck_elf::mapped::Bytes;
use dwcheck_elf::modules::Modules;
use dwcheck_elf::names::FunctionOffset;
use dwcheck_elf::program::Program;
use dwcheck_elf::state_file::{parse_short_number, StateFile};
use dwcheck_elf::target::Target;
use dwcheck_elf::text::{Address, Escaped, Known};
use std::ffi::OsStr;
use std::io::Write;
use std::os::unix::ffi::OsStrExt;
use std::path::{Path, PathBuf};

/// The most bytes of a bad line of a state file that are shown.
const LONGEST_LINE: usize = 80;

/// A module that the command line names: its file, and where it is loaded.
struct NamedModule {
    path: PathBuf,
    load: u64,
    data: Bytes,
}

/// A process that has the program and the further modules that the command line names.
struct Loaded<'a> {
    modules: Modules,
    target: Target,
    /// The functions of each module, and the module's load address.
    functions: Vec<(Functions<'a>, u64)>,
    /// The frame sections of each file, with the file's path and load address.
    opened: Vec<(&'a Path, u64, Opened<'a>)>,
}

impl<'a> Loaded<'a> {
    /// The fault of the FDE that covers an address, if it is refused, and its file.
    fn refused_at(&self, address: u64) -> Option<(&'a Path, &Defect)> {
        self.opened.iter().find_map(|(path, load, opened)| {
            Some((*path, opened.refused_at(self.target.wrap(address.wrapping_sub(*load)))?))
        })
    }

    /// The name of the function that contains an address in the process, in parentheses after a
    /// space. It comes from the first module that has a name for the address. Empty if no module
    /// has one. `is_after_call` says that the address is a return address. Then the name is that of
    /// the function that contains the call.
    fn named(&self, address: u64, is_after_call: bool) -> String {
        let spot = self.functions.iter().find_map(|(functions, load)| {
            let linked = self.target.wrap(address.wrapping_sub(*load));
            if is_after_call {
                FunctionOffset::after_call(functions, linked)
            } else {
                FunctionOffset::at(functions, linked)
            }
        });
        spot.map_or_else(String::new, |spot| format!(" ({})", spot))
    }
}

/// Lists the modules that the command line names: first the program, whose bytes are `data`, then
/// the further modules, whose files are read here.
fn named_modules(arguments: &UnwindArguments, target: Target, data: Bytes) -> Result<Vec<NamedModule>, Failure> {
    let load = number_argument("--load", &arguments.modules.load, target)?;
    let mut all = vec![NamedModule { path: arguments.program.clone(), load, data }];
    for module in &arguments.modules.module {
        let bytes = module.as_bytes();
        let bad = || {
            Failure::Argument(format!("bad argument: --module is {}, which isn't LOAD=FILE", module.to_string_lossy()))
        };
        let equals = bytes.iter().position(|byte| *byte == b'=').ok_or_else(bad)?;
        let load = std::str::from_utf8(&bytes[..equals]).map_err(|_| bad())?;
        let load = number_argument("LOAD of --module", load, target)?;
        let path = PathBuf::from(OsStr::from_bytes(&bytes[equals + 1..]));
        if path.as_os_str().is_empty() {
            return Err(bad());
        }
        all.push(NamedModule { data: open_elf(&path)?, path, load });
    }
    Ok(all)
}

/// Checks all modules and puts them into a process. If something of a module isn't used, such as what
/// is refused, or all of it if its addresses overlap those of an earlier module, a note on standard error
/// says so.
fn load_modules(named: &[NamedModule], target: Target) -> Result<Loaded<'_>, Failure> {
    let mut all = Loaded { modules: Modules::new(target), target, functions: Vec::new(), opened: Vec::new() };
    for NamedModule { path, load, data } in named {
        let program = parse_program(path, data)?;
        if program.target() != target {
            return Err(Failure::File(format!("{}: another byte order or address size", shown_path(path))));
        }
        let opened = Opened::read(path, &program)?;
        opened.note_refused(path, false);
        let added = all.modules.add(path, &program, &opened.frames, *load);
        all.opened.push((path, *load, opened));
        let lost = added.map_err(|error| Failure::File(format!("{}: {}", shown_path(path), error)))?;
        if let Some(lost) = &lost {
            write_note(path, lost);
        }
        // Without its addresses, a further module's functions have no names here either.
        if lost.is_some() && !all.functions.is_empty() {
            continue;
        }
        all.functions.push((program.functions(), *load));
    }
    Ok(all)
}

/// What `unwind` and `backtrace` share: reads and checks all files, and calls `ask`, which writes
/// the answer.
fn run_on_modules<W: Write>(
    arguments: &UnwindArguments,
    out: &mut W,
    ask: impl FnOnce(&Loaded<'_>, u64, &StateFile, &mut W) -> Result<(), Failure>,
) -> Result<Done, Failure> {
    let data = open_elf(&arguments.program)?;
    let target = Program::read(&data)
        .map_err(|error| Failure::File(format!("{}: {}", shown_path(&arguments.program), error)))?
        .target();
    let named = named_modules(arguments, target, data)?;
    let state = read_state_file(&arguments.state, target)?;
    let loaded = load_modules(&named, target)?;
    let (functions, load) = &loaded.functions[0];
    let address = address_argument("ADDRESS", &arguments.address, target, functions, *load)?;
    ask(&loaded, address, &state, out)?;
    Ok(loaded.opened.iter().map(|(.., opened)| opened.done()).max().unwrap_or(Done::Accepted))
}

/// Reads a state file.
pub fn read_state_file(path: &Path, target: Target) -> Result<StateFile, Failure> {
    let text = read_text(path)?;
    StateFile::parse(&text, target).map_err(|number| {
        let line = text.split(|byte| *byte == b'\n').nth((number - 1) as usize).unwrap_or(&[]);
        let line = String::from_utf8_lossy(&line[..line.len().min(LONGEST_LINE)]);
        Failure::Argument(format!("{}: state line {}: {}", shown_path(path), number, Escaped(&line)))
    })
}

fn unwinding_failure(error: Error) -> Failure {
    Failure::File(error.to_string())
}

/// Shows the caller of the frame at an address. If no module has a row for the address, shows the fault of
/// the FDE that covers the address and is refused, or `none`.
pub fn unwind(arguments: &UnwindArguments, out: &mut impl Write) -> Result<Done, Failure> {
    run_on_modules(arguments, out, |loaded, address, file, out| {
        let blocks = file.blocks();
        let target = loaded.target;
        match loaded.modules.process().unwind(address, &file.state(&blocks)).map_err(unwinding_failure)? {
            None => match loaded.refused_at(address) {
                Some((path, defect)) => write_defect(out, path, defect)?,
                None => writeln!(out, "none")?,
            },
            Some(caller) => {
                writeln!(out, "cfa {}", Known(target, caller.cfa))?;
                for (register, answer) in &caller.registers {
                    writeln!(out, "r{} {}", register, Known(target, *answer))?;
                }
                let name = match caller.return_address {
                    Answer::Value(address) => loaded.named(address, true),
                    _ => String::new(),
                };
                writeln!(out, "return {}{}", Known(target, caller.return_address), name)?;
            }
        }
        Ok(())
    })
}

/// Shows the frames of a stack.
pub fn backtrace(arguments: &BacktraceArguments, out: &mut impl Write) -> Result<Done, Failure> {
    let bad = || {
        Failure::Argument(format!(
            "bad argument: LIMIT is {}, which isn't a count of frames up to 65535",
            arguments.limit
        ))
    };
    let limit = parse_short_number(&arguments.limit).ok_or_else(bad)?;
    run_on_modules(&arguments.frame, out, |loaded, address, file, out| {
        let blocks = file.blocks();
        let walk = loaded
            .modules
            .process()
            .backtrace(address, &file.state(&blocks), usize::from(limit))
            .map_err(unwinding_failure)?;
        for (number, frame) in walk.frames.iter().enumerate() {
            write_walk_frame(out, loaded, number, frame)?;
        }
        writeln!(out, "stop {}", walk.stop)?;
        Ok(())
    })
}

/// Writes a frame. If the frame's address follows a call, the name is that of the function that
/// contains the call.
fn write_walk_frame(out: &mut impl Write, loaded: &Loaded<'_>, number: usize, frame: &Frame) -> Result<(), Failure> {
    let target = loaded.target;
    let name = loaded.named(frame.address(), number > 0);
    match frame.cfa() {
        Some(cfa) => {
            writeln!(out, "frame {} {} cfa {}{}", number, Address(target, frame.address()), Known(target, cfa), name)?
        }
        None => writeln!(out, "frame {} {} none{}", number, Address(target, frame.address()), name)?,
    }
    Ok(())
}
