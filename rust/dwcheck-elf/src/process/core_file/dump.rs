//! Minidumps as core files: what they have of a process, and the modules that they list.

use super::{notes, Code, CoreFile, CoreSegment, ProcessInfo, Signal, Thread};
use crate::process::maps::{parse_maps, Map};
use dwcheck_minidump::{Annotation, BuildId, Machine, Minidump, Module, Problem, Range};
use dwcheck_types::target::Target;
use std::path::{Path, PathBuf};

/// How many bytes the kernel keeps of a thread's name.
const LONGEST_NAME: usize = 15;

/// What only minidumps have.
#[derive(Clone, Debug)]
pub(super) struct Dump<'data> {
    /// The modules, in the order of the file. Most files begin with the program.
    modules: Vec<Loaded<'data>>,
    /// What the program told Crashpad about itself.
    annotations: Vec<Annotation>,
    /// What can't be read of the file.
    problems: Vec<Problem>,
    /// Whether the file says what could be done with which memory.
    has_maps: bool,
}

/// A program or a library that a minidump lists.
#[derive(Clone, Debug)]
pub(crate) struct Loaded<'data> {
    /// Its path, or only a name.
    pub name: PathBuf,
    /// The address at which the beginning of its file is.
    pub begin: u64,
    /// The address after its last one, as far as the minidump says.
    pub end: u64,
    /// Its build id.
    pub build_id: Option<BuildId<'data>>,
}

impl Loaded<'_> {
    /// Whether it is code that the kernel gives to each process, and that is in no file.
    pub fn is_vdso(&self) -> bool {
        let name = self.name.to_string_lossy();
        name.starts_with("[vdso]") || name.starts_with("linux-vdso") || name.starts_with("linux-gate")
    }
}

impl<'data> CoreFile<'data> {
    /// A minidump as a core file. `size` is how many bytes the file has.
    pub(super) fn of_minidump(minidump: Minidump<'data>, size: usize) -> Self {
        let abi = minidump.machine.abi();
        let target = Target { address_size: abi.address_size, ..Target::LITTLE_64 };
        let mut maps: Vec<_> = minidump.maps.map(|text| parse_maps(text).collect()).unwrap_or_default();
        maps.sort_by_key(|map: &Map| map.begin);
        let modules = minidump.modules.iter().map(|module| loaded_of_module(module, &maps, target));
        let modules: Vec<_> = modules.filter(|module| module.begin < module.end).collect();
        let segments = segments_of_minidump(&minidump, &maps, &modules);
        let auxiliary = |kind| minidump.auxiliary.and_then(|vector| notes::auxiliary_value(vector, target, kind));
        let entry = auxiliary(notes::AT_ENTRY).or_else(|| modules.first().map(|module| module.begin));
        CoreFile {
            target,
            abi,
            threads: threads_of_minidump(&minidump),
            signal: signal_of_minidump(&minidump),
            mappings: Vec::new(),
            vdso: auxiliary(notes::AT_SYSINFO_EHDR),
            entry,
            name: None,
            process: process_of_minidump(&minidump, &modules),
            pac_mask: minidump.address_mask.map(|mask| !mask),
            code: Code::of(&segments, &[]),
            segments,
            dump: Some(Dump {
                problems: minidump.problems().to_vec(),
                annotations: minidump.annotations,
                has_maps: !maps.is_empty(),
                modules,
            }),
            size,
            held: None,
        }
    }

    /// Whether it is a minidump.
    pub fn is_minidump(&self) -> bool {
        self.dump.is_some()
    }

    /// What the program told Crashpad about itself. Empty if the file isn't one of Crashpad's minidumps.
    pub fn annotations(&self) -> &[Annotation] {
        self.dump.as_ref().map_or(&[], |dump| &dump.annotations)
    }

    /// What can't be read of a minidump, each in a line.
    pub fn problems(&self) -> Vec<String> {
        self.dump.iter().flat_map(|dump| &dump.problems).map(Problem::to_string).collect()
    }

    /// Whether the file says which files the process had mapped, or has its modules.
    pub fn names_files(&self) -> bool {
        self.dump.is_some() || !self.mappings.is_empty()
    }

    /// The modules that a minidump lists. `None` for anything else.
    pub(crate) fn listed(&self) -> Option<&[Loaded<'data>]> {
        self.dump.as_ref().map(|dump| dump.modules.as_slice())
    }

    /// Whether the file doesn't say which memory could be executed, so that the files of modules have to say it.
    pub(crate) fn lacks_maps(&self) -> bool {
        self.dump.as_ref().map_or(false, |dump| !dump.has_maps)
    }
}

/// A module with its last address. Linux's maps say where it ends; LLDB's list counts its first segment alone.
fn loaded_of_module<'data>(module: &Module<'data>, maps: &[Map], target: Target) -> Loaded<'data> {
    let begin = module.base & target.address_size.highest();
    let first = maps.partition_point(|map| map.end <= begin);
    let parts = maps.get(first..).unwrap_or(&[]);
    let path = parts.first().filter(|map| map.begin <= begin && !map.path.is_empty()).map(|map| &map.path);
    let own = parts.iter().take_while(|map| Some(&map.path) == path);
    let mapped = own.last().map_or(0, |map| map.end);
    let end = begin.saturating_add(module.size).max(mapped).min(target.address_size.highest());
    let name = if module.name.is_empty() { "[no name]" } else { &module.name };
    Loaded { name: PathBuf::from(name), begin, end, build_id: module.build_id }
}

/// The memory that the minidump has, and what it says of other memory. If it has no maps of Linux, all of a module
/// counts as executable until its file is known.
fn segments_of_minidump<'data>(
    minidump: &Minidump<'data>,
    maps: &[Map],
    modules: &[Loaded<'data>],
) -> Vec<CoreSegment<'data>> {
    let held = minidump.memory.iter().map(|Range { address, bytes, size, is_stack }| CoreSegment {
        address: *address,
        bytes,
        size: *size,
        is_executable: false,
        is_writable: *is_stack && maps.is_empty(),
        is_cut: (bytes.len() as u64) < *size,
    });
    let part = |begin: u64, end: u64, is_executable, is_writable| {
        let size = end.saturating_sub(begin);
        CoreSegment { address: begin, bytes: &[], size, is_executable, is_writable, is_cut: false }
    };
    let mapped = maps.iter().map(|map| part(map.begin, map.end, map.is_executable, map.is_writable));
    let guessed = if maps.is_empty() { modules } else { &[] };
    let guessed = guessed.iter().map(|module| part(module.begin, module.end, true, false));
    held.chain(mapped).chain(guessed).collect()
}

/// The threads whose registers can be read.
fn threads_of_minidump(minidump: &Minidump<'_>) -> Vec<Thread> {
    let signal = minidump.exception.as_ref().and_then(|exception| exception.signal);
    let threads = minidump.threads.iter().enumerate().filter_map(|(place, thread)| {
        let registers = thread.registers.as_ref()?;
        let mut general = registers.general.clone();
        let pointer = minidump.machine.abi().thread_pointer.filter(|_| thread.pointer != 0);
        general.extend(pointer.map(|number| (number, thread.pointer)));
        general.sort_unstable_by_key(|(number, _)| *number);
        Some(Thread {
            id: thread.id,
            name: thread.name.clone(),
            signal: signal.filter(|_| place == 0).map_or(0, |signal| signal as u16),
            registers: general,
            vectors: registers.vectors.clone(),
        })
    });
    threads.collect()
}

fn signal_of_minidump(minidump: &Minidump<'_>) -> Option<Signal> {
    let exception = minidump.exception.as_ref()?;
    let mask = if minidump.machine == Machine::I386 { u64::from(u32::MAX) } else { u64::MAX };
    let (code, address) = (exception.cause, exception.address & mask);
    Some(Signal { number: exception.signal?, code, address, sender: None })
}

/// What is known of the process. Without Linux's status, its name is the one that its first thread or its program has.
fn process_of_minidump(minidump: &Minidump<'_>, modules: &[Loaded<'_>]) -> Option<ProcessInfo> {
    let id = minidump.process?;
    let first = || minidump.threads.iter().find(|thread| thread.id == id)?.name.clone();
    let program = || {
        let name = modules.first().and_then(|module| module.name.file_name()).map(Path::new)?.to_string_lossy();
        Some(name.chars().take(LONGEST_NAME).collect())
    };
    let name = minidump.name.clone().or_else(first).or_else(program).unwrap_or_default();
    Some(ProcessInfo { id, name, command: minidump.command.clone() })
}
