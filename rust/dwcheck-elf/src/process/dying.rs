//! A process that the kernel holds while it writes its core file to a handler (`core_pattern`). Registers and other notes
//! come from the beginning of the core file, and memory from the process itself, so that nothing is stored.
//!
//! If the process is gone, the rest of the core file is read as far as the memory for it goes.

use crate::process::core_file::head::Head;
use crate::process::core_file::{CoreError, CoreFile, Mapping, Thread};
use crate::process::live::copy_changeable_memory;
use crate::process::maps::{LiveError, Process};
use crate::process::used_stacks::Stacked;
use std::collections::HashMap;
use std::fmt;
use std::io::Read;
use std::ops::Range;

/// How many bytes of the beginning of each file are copied: they show whether a file is still the one that was mapped.
const FILE_START: u64 = 4096;

/// The most files of which the beginning is copied.
const MOST_FILES: usize = 4096;

/// A process that died.
#[derive(Debug)]
pub struct Dying {
    head: Head,
    /// The process, or why its memory isn't used.
    process: Result<Process, NotUsed>,
    /// Copied memory: its address and bytes.
    blocks: Vec<(u64, Vec<u8>)>,
    /// The memory that the process could write to. Empty unless variables are shown.
    data: Vec<(u64, Vec<u8>)>,
    /// The names of its threads, by their ids in the core file.
    names: HashMap<u32, String>,
}

/// How much may be copied, in bytes.
#[derive(Clone, Copy, Debug, PartialEq, Eq)]
pub struct Room {
    /// Of the core file.
    pub core: usize,
    /// Of the stacks of all threads together. If they have more, the largest ones are cut alike.
    pub stacks: u64,
    /// Whether the memory is copied that the process can write to, where the values of variables are.
    pub has_data: bool,
}

/// Why the memory of a process isn't used, but that of its core file.
#[derive(Debug)]
pub enum NotUsed {
    /// The process can't be read.
    Unreadable(LiveError),
    /// The core file is another process's.
    OtherProcess,
}

impl Dying {
    /// Reads the beginning of a core file from a stream, and copies what a walk needs of the process.
    ///
    /// # Errors
    ///
    /// If the stream isn't a core file that can be read.
    pub fn read(pid: u32, stream: &mut impl Read, room: Room) -> Result<Dying, CoreError> {
        let mut head = Head::read(stream, room.core)?;
        let core = CoreFile::read(head.bytes())?;
        let process = Process::read(pid).map_err(NotUsed::Unreadable);
        let process = process.and_then(|process| match core.is_of(&process) {
            true => Ok(process),
            false => Err(NotUsed::OtherProcess),
        });
        let process = match process {
            Ok(process) => process,
            Err(why) => {
                head.add_rest(stream, room.core);
                let (blocks, data, names) = (Vec::new(), Vec::new(), HashMap::new());
                return Ok(Dying { head, process: Err(why), blocks, data, names });
            }
        };
        let blocks = copy_memory(&core, &process, room.stacks);
        let data = if room.has_data { copy_changeable_memory(&process) } else { Vec::new() };
        let names = process.names_inside();
        Ok(Dying { head, process: Ok(process), blocks, data, names })
    }

    /// The process as a core file, whose threads can be walked.
    ///
    /// # Errors
    ///
    /// The same.
    pub fn core(&self) -> Result<CoreFile<'_>, CoreError> {
        let core = CoreFile::read(self.head.bytes())?;
        Ok(match &self.process {
            Ok(process) => core.of_held(process, [&self.blocks, &self.data], &self.names),
            Err(_) => core,
        })
    }

    /// Why the memory of the process isn't used. `None` if it is.
    pub fn not_used(&self) -> Option<&NotUsed> {
        self.process.as_ref().err()
    }
}

/// Copies the stacks of all threads, the beginnings of files, and the vDSO.
fn copy_memory(core: &CoreFile<'_>, process: &Process, room: u64) -> Vec<(u64, Vec<u8>)> {
    let first = core.process().map(|process| process.id);
    let of_thread = |thread: &Thread| {
        let is_first = Some(thread.id) == first;
        Stacked { maps: &process.maps, abi: core.abi(), registers: &thread.registers, is_first }.parts()
    };
    let stacks: Vec<Range<u64>> = core.threads().iter().flat_map(of_thread).collect();
    let largest = largest_share(stacks.iter().map(|part| part.end - part.start).collect(), room);
    let stacks = stacks.iter().map(|part| (part.start, (part.end - part.start).min(largest)));
    let starts = core.mappings().iter().filter(|mapping| mapping.offset == 0).take(MOST_FILES);
    let starts = starts.map(|Mapping { begin, end, .. }| (*begin, end.saturating_sub(*begin).min(FILE_START)));
    let copied = stacks.chain(starts).filter_map(|(begin, size)| Some((begin, process.memory(begin, size)?)));
    copied.chain(process.vdso()).collect()
}

/// How much of each part may be taken so that all of them together have at most `room`. Smaller parts are taken whole.
fn largest_share(mut sizes: Vec<u64>, room: u64) -> u64 {
    sizes.sort_unstable();
    let mut left = room;
    for (taken, size) in sizes.iter().enumerate() {
        let share = left / (sizes.len() - taken) as u64;
        if *size > share {
            return share;
        }
        left -= size;
    }
    u64::MAX
}

impl fmt::Display for NotUsed {
    fn fmt(&self, f: &mut fmt::Formatter<'_>) -> fmt::Result {
        match self {
            NotUsed::Unreadable(error) => error.fmt(f),
            NotUsed::OtherProcess => f.write_str("the core file is that of another process"),
        }
    }
}

#[cfg(test)]
mod tests {
    use super::largest_share;

    #[test]
    fn only_the_largest_parts_are_cut_and_alike() {
        assert_eq!(largest_share(vec![10, 20, 30], 60), u64::MAX);
        assert_eq!(largest_share(vec![30, 10, 20], 59), 29);
        assert_eq!(largest_share(vec![100, 10, 100], 50), 20);
        assert_eq!(largest_share(vec![], 0), u64::MAX);
    }
}
