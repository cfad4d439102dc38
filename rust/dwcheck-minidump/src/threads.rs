//! The threads: their ids, names, stacks and registers (`MINIDUMP_THREAD`, `MINIDUMP_THREAD_NAME`).

use crate::budget::Budget;
use crate::context::registers_of_context;
use crate::directory::Directory;
use crate::exception::Exception;
use crate::file::{entries, fields, read_location, File, Location};
use crate::memory::{self, Range};
use crate::problem::{MinidumpError, Problem, Problems, StreamKind};
use crate::system::Machine;
use dwcheck_types::cursor::ReadError;
use std::collections::HashMap;

/// The sizes of the entries of both lists.
const THREAD: usize = 48;
const NAME: usize = 12;

/// A thread.
#[derive(Clone, Debug, PartialEq, Eq)]
pub struct Thread {
    /// Its id.
    pub id: u32,
    /// Its name, if the file has it.
    pub name: Option<String>,
    /// Its registers. `None` if they can't be read.
    pub registers: Option<Registers>,
    /// The address of its own data, 0 if the file doesn't have it: what fs leads to on x86-64.
    pub pointer: u64,
}

/// The registers of a thread.
#[derive(Clone, Debug, Default, PartialEq, Eq)]
pub struct Registers {
    /// The general registers by their DWARF numbers, ascending.
    pub general: Vec<(u16, u64)>,
    /// The low 8 bytes of the vector registers by their DWARF numbers, ascending. Empty if they aren't there.
    pub vectors: Vec<(u16, u64)>,
}

/// What the list has of a thread.
struct Entry {
    id: u32,
    pointer: u64,
    stack: (u64, Location),
    context: Location,
}

impl Entry {
    fn parse(bytes: &[u8]) -> Result<Self, ReadError> {
        let mut entry = fields(bytes);
        let id = entry.number(4)? as u32;
        // How often it is suspended, and its priorities.
        entry.take(12)?;
        let pointer = entry.number(8)?;
        let stack = (entry.number(8)?, read_location(&mut entry)?);
        Ok(Entry { id, pointer, stack, context: read_location(&mut entry)? })
    }
}

/// The threads, and the memory of their stacks. An error if there is no list of threads.
pub(crate) fn read_threads<'data>(
    file: File<'data>,
    directory: &Directory,
    machine: Machine,
    budget: &mut Budget,
    problems: &mut Problems,
) -> Result<(Vec<Thread>, Vec<Range<'data>>), MinidumpError> {
    let missing = MinidumpError::NoStream(StreamKind::Threads);
    let bytes = directory.bytes(file, StreamKind::Threads).ok_or(missing)?;
    let (listed, is_whole) = entries(bytes, THREAD);
    if !is_whole {
        problems.add(Problem::Count(StreamKind::Threads));
    }
    let (mut threads, mut stacks) = (Vec::new(), Vec::new());
    for Entry { id, pointer, stack: (address, place), context } in listed.filter_map(|entry| Entry::parse(entry).ok()) {
        let held = file.whole(context).filter(|context| budget.take(context.len()));
        let registers = held.and_then(|context| registers_of_context(machine, context));
        if registers.is_none() {
            problems.add_context(id);
        }
        threads.push(Thread { id, name: None, registers, pointer });
        if place.size > 0 {
            let range = Range::of(file, StreamKind::Threads, address, place, problems);
            memory::add_range(&mut stacks, StreamKind::Threads, range, problems);
        }
    }
    Ok((threads, stacks))
}

/// Moves the thread of the exception to the beginning, with the exception's registers. Crashpad's list has those of the
/// signal handler instead. If the thread isn't listed, it is added.
pub(crate) fn move_crashed_thread_first(threads: &mut Vec<Thread>, exception: &Exception) {
    match threads.iter().position(|thread| thread.id == exception.thread) {
        Some(place) => threads[..=place].rotate_right(1),
        None => threads.insert(0, Thread { id: exception.thread, name: None, registers: None, pointer: 0 }),
    }
    if let (Some(first), Some(registers)) = (threads.first_mut(), &exception.registers) {
        first.registers = Some(registers.clone());
    }
}

/// Stores the names of threads.
pub(crate) fn read_thread_names(
    file: File<'_>,
    directory: &Directory,
    threads: &mut [Thread],
    budget: &mut Budget,
    problems: &mut Problems,
) {
    let bytes = match directory.bytes(file, StreamKind::ThreadNames) {
        Some(bytes) => bytes,
        None => return,
    };
    let (listed, is_whole) = entries(bytes, NAME);
    if !is_whole {
        problems.add(Problem::Count(StreamKind::ThreadNames));
    }
    let places: HashMap<u32, usize> = threads.iter().enumerate().map(|(place, thread)| (thread.id, place)).collect();
    for entry in listed {
        let mut entry = fields(entry);
        let (id, offset) = match (entry.number(4), entry.number(8)) {
            (Ok(id), Ok(offset)) => (id as u32, offset),
            _ => continue,
        };
        let thread = places.get(&id).and_then(|place| threads.get_mut(*place));
        if let Some(thread) = thread.filter(|thread| thread.name.is_none()) {
            thread.name = file.utf16(offset, budget).filter(|name| !name.is_empty());
            if thread.name.is_none() && file.counted(offset).map_or(true, |held| !held.is_empty()) {
                problems.add_part(StreamKind::ThreadNames, offset);
            }
        }
    }
}
