//! The command `vars`: shows the variables that are in scope at an address, where they are, and their values
//! as far as they are known.

use crate::arguments::VarsArguments;
use crate::debuginfod::{fetcher, note_problems};
use crate::end::{shown_path, Done, Failure};
use crate::opened::{address_argument, number_argument, open_core, open_elf, parse_program, write_note, Opened};
use crate::stack::search_in;
use crate::walks::read_state_file;
use dwcheck::{Block, Process, State};
use dwcheck_elf::abi::abi;
use dwcheck_elf::core_file::{CoreFile, Files};
use dwcheck_elf::debug_files::DebugFiles;
use dwcheck_elf::live::Snapshot;
use dwcheck_elf::mapped::Bytes;
use dwcheck_elf::modules::Modules;
use dwcheck_elf::program::Program;
use dwcheck_elf::stack::{Stacks, WalkOptions};
use dwcheck_elf::state_file::StateFile;
use dwcheck_elf::text::Escaped;
use dwcheck_elf::variables::{Frame, Function, Loaded, Shape, Step, Variables};
use serde_json::json;
use std::io::Write;
use std::path::{Path, PathBuf};

/// How many callers are looked up for entry values.
const MAX_CALLERS: usize = 16;

/// Writes the functions at the address with their variables, the innermost first.
pub fn vars(arguments: &VarsArguments, out: &mut impl Write) -> Result<Done, Failure> {
    let (depth, length, pointers) = (arguments.depth, arguments.elements.into(), arguments.pointers.into());
    let shape = Shape { depth, length, pointers, ..Shape::default() };
    let mut done = Done::Accepted;
    let functions = match (arguments.pid, &arguments.core, &arguments.program, &arguments.address) {
        (Some(pid), None, None, None) => variables_of_process(arguments, pid, shape)?,
        (None, Some(core), None, None) => variables_of_core(arguments, core, shape)?,
        (None, None, Some(program), Some(address)) => {
            variables_of_program(arguments, program, address, shape, &mut done)?
        }
        _ => return Err(Failure::Argument("give PROGRAM ADDRESS, --core or --pid".to_string())),
    };
    if arguments.json {
        let functions: Vec<_> = functions.iter().rev().map(Function::json).collect();
        writeln!(out, "{}", json!({ "functions": functions }))?;
        return Ok(done);
    }
    if functions.is_empty() {
        writeln!(out, "none")?;
    }
    functions.iter().rev().try_for_each(|function| write!(out, "{}", function))?;
    Ok(done)
}

fn variables_of_core(arguments: &VarsArguments, path: &Path, shape: Shape) -> Result<Vec<Function>, Failure> {
    let bytes = open_core(path)?;
    let core = CoreFile::read(&bytes).map_err(|error| Failure::File(format!("{}: {}", shown_path(path), error)))?;
    core.problems().iter().for_each(|problem| write_note(path, problem));
    let fetcher = fetcher(arguments.debuginfod);
    let files = Files::read_with(&core, &search_in(&arguments.root, &arguments.path, &fetcher)?);
    let functions = variables_of_frame(arguments, &core, &files, shape);
    note_problems(&fetcher);
    functions
}

/// The process goes on once the thread's registers and the memory are copied.
fn variables_of_process(arguments: &VarsArguments, pid: u32, shape: Shape) -> Result<Vec<Function>, Failure> {
    let tid = arguments.thread.unwrap_or(pid);
    let failed = |why: String| Failure::File(format!("process {}: {}", pid, why));
    let copy = Snapshot::take_with_data(pid, &[tid]).map_err(|error| failed(error.to_string()))?;
    let core = copy.core();
    variables_of_frame(arguments, &core, &Files::of_live(&core, pid), shape)
}

/// The failure for a thread that isn't there, or for a core file without threads.
fn no_thread(wanted: Option<u32>, core: &CoreFile<'_>) -> Failure {
    const SHOWN: usize = 8;
    let known: Vec<_> = core.threads().iter().take(SHOWN).map(|thread| thread.id.to_string()).collect();
    let more = if core.threads().len() > SHOWN { " and others" } else { "" };
    Failure::Argument(match wanted {
        Some(tid) if !known.is_empty() => {
            format!("bad argument: --thread is {}, and the threads are {}{}", tid, known.join(", "), more)
        }
        _ => "bad argument: there is no thread".to_string(),
    })
}

/// The functions of the frame that is asked for.
fn variables_of_frame(
    arguments: &VarsArguments,
    core: &CoreFile<'_>,
    files: &Files,
    shape: Shape,
) -> Result<Vec<Function>, Failure> {
    let stacks = Stacks::of(core, files);
    let is_wanted = |tid: u32| arguments.thread.map_or(true, |wanted| wanted == tid);
    let thread = core.threads().iter().find(|thread| is_wanted(thread.id));
    let thread = thread.ok_or_else(|| no_thread(arguments.thread, core))?;
    let limit = arguments.frame.saturating_add(1 + MAX_CALLERS);
    let options = WalkOptions { limit, keeps_registers: true, finds_tail_calls: true, ..WalkOptions::default() };
    let stack = stacks.walk(thread, options).map_err(|error| Failure::File(error.to_string()))?;
    if arguments.frame >= stack.frames.len() {
        let count = stack.frames.len();
        return Err(Failure::Argument(format!(
            "bad argument: --frame is {}, and the stack has {} frames, counted from 0",
            arguments.frame, count
        )));
    }
    let functions = stacks.variables(&stack, arguments.frame, shape);
    for (file, why) in stacks.missing() {
        write_note(&file, why);
    }
    Ok(functions)
}

/// `done` is set to how the run ends.
fn variables_of_program(
    arguments: &VarsArguments,
    path: &Path,
    at: &str,
    shape: Shape,
    done: &mut Done,
) -> Result<Vec<Function>, Failure> {
    let data = open_elf(path)?;
    let program = parse_program(path, &data)?;
    let target = program.target();
    let load = number_argument("--load", &arguments.load, target)?;
    let address = address_argument("ADDRESS", at, target, &program.functions(), load)?;
    let state = arguments.state.as_ref().map_or(Ok(StateFile::default()), |path| read_state_file(path, target))?;
    let fetcher = fetcher(arguments.debuginfod);
    let files = DebugFiles::default().fetching(&fetcher);
    let variables = read_debug_information(path, &program, &files)?;
    let process = match &arguments.state {
        Some(_) => read_unwind_tables(path, &program, load, done)?,
        None => Modules::new(target),
    };
    let steps = frame_and_callers(process.process(), address, &state)?;
    let constants = program.constants(load);
    let constants = constants.iter().map(|(address, bytes)| Block::new(*address, bytes));
    // What the state has counts before what the file has.
    let blocks: Vec<_> = state.blocks().into_iter().chain(constants).collect();
    let (is_program, has_glibc) = (program.is_program(), false);
    let file = Some(Loaded { bytes: &data, bias: load, is_program, has_glibc });
    let pointer = abi(program.machine(), target.address_size).and_then(|abi| abi.thread_pointer);
    let thread_pointer = pointer.and_then(|pointer| state.registers.get(pointer));
    let frame = Frame { target, load, steps: &steps, memory: &blocks, file, thread_pointer };
    let functions = variables.at(&frame, shape);
    let missing = if functions.is_empty() { variables.missing_file(&frame) } else { None };
    match missing {
        Some(name) => {
            let why = format!("its debug information is in another file, {}, which isn't there", Escaped(&name));
            Err(Failure::File(format!("{}: {}", shown_path(path), why)))
        }
        None => Ok(functions),
    }
}

/// The debug information of a program, which may be in a file of its own.
fn read_debug_information<'a>(
    path: &Path,
    program: &Program<'a>,
    files: &'a DebugFiles,
) -> Result<Variables<'a>, Failure> {
    let failed = |why: String| Failure::File(format!("{}: {}", shown_path(path), why));
    let whole = path.canonicalize().unwrap_or_else(|_| path.to_path_buf());
    let separate = match program.has_bytes(".debug_info") {
        true => None,
        false => files
            .find(&whole, program)
            .map_err(|(file, why)| Failure::File(format!("{}: {}", shown_path(&file), why)))?,
    };
    let read = |(path, bytes): (PathBuf, &'a Bytes)| Program::read(bytes).map(|program| (path, program));
    let separate = separate.map(read).transpose().map_err(|error| failed(error.to_string()))?;
    let (place, debug) = separate.as_ref().map_or((&whole, program), |(path, debug)| (path, debug));
    if !debug.has_bytes(".debug_info") {
        return Err(failed("no .debug_info, and no separate file of debug information".to_string()));
    }
    let shared = files.shared(place, debug).unwrap_or_else(|why| {
        write_note(path, why);
        None
    });
    let shared = shared.and_then(|bytes| Program::read(bytes).ok());
    let variables = Variables::read(debug, shared.as_ref(), files).map_err(|error| failed(error.to_string()));
    variables.map(|mut variables| {
        variables.look_for_packages(&whole, debug);
        variables
    })
}

/// The program's unwind tables, which give the CFA and the callers.
fn read_unwind_tables(path: &Path, program: &Program<'_>, load: u64, done: &mut Done) -> Result<Modules, Failure> {
    let opened = Opened::read(path, program)?;
    *done = opened.done();
    opened.note_refused(path, false);
    let mut modules = Modules::new(program.target());
    let added = modules.add(path, program, &opened.frames, load);
    if let Some(lost) = added.map_err(|error| Failure::File(format!("{}: {}", shown_path(path), error)))? {
        write_note(path, lost);
    }
    Ok(modules)
}

/// The frame at an address, and its callers.
fn frame_and_callers(process: &Process, address: u64, file: &StateFile) -> Result<Vec<Step>, Failure> {
    let blocks = file.blocks();
    let registers = file.registers.clone();
    let mut steps = Vec::new();
    let mut next = Some(Step { address, is_after_call: false, registers, cfa: file.context.cfa });
    while let Some(mut step) = next.take().filter(|_| steps.len() <= MAX_CALLERS) {
        let looked_up = step.address.wrapping_sub(u64::from(step.is_after_call));
        let state = State { registers: &step.registers, ..file.state(&blocks) };
        let caller = process.unwind(looked_up, &state).map_err(|error| Failure::File(error.to_string()))?;
        if let Some(caller) = caller {
            step.cfa = step.cfa.or_else(|| caller.cfa.value());
            let registers = caller.known();
            let address = caller.return_address.value();
            next = address.map(|address| Step { address, is_after_call: true, registers, cfa: None });
        }
        steps.push(step);
    }
    Ok(steps)
}
