//! Which memory the stacks of the threads of a process use, by its memory maps and the threads' registers.

use crate::process::maps::Map;
use dwcheck_types::abi::Abi;
use std::ops::Range;

/// At most this many bytes of a thread's stack are copied.
pub const STACK_LIMIT: u64 = 16 << 20;

/// How many bytes below the stack pointer are used too: the red zone of x86-64.
const RED_ZONE: u64 = 128;

/// A thread, as far as its stacks go.
pub(crate) struct Stacked<'m> {
    /// The memory of its process, ascending.
    pub maps: &'m [Map],
    /// The calling convention.
    pub abi: &'static Abi,
    /// Its registers by their DWARF numbers.
    pub registers: &'m [(u16, u64)],
    /// Whether it is the process's first thread.
    pub is_first: bool,
}

impl Stacked<'_> {
    /// The used part of the stack on which the thread runs, and the stack with which it began, if that is another one,
    /// such as where a signal handler runs. Each has at most [`STACK_LIMIT`] bytes.
    pub fn parts(&self) -> impl Iterator<Item = Range<u64>> {
        let used = self.used();
        let own = self.own(used.as_ref());
        used.into_iter().chain(own)
    }

    fn used(&self) -> Option<Range<u64>> {
        let pointer = self.register(self.abi.stack_pointer)?;
        // The stack may have grown downwards since the list of the memory was read.
        let above = self.maps.iter().filter(|map| map.begin > pointer).min_by_key(|map| map.begin);
        let map = self.map_at(pointer).or(above)?;
        let begin = pointer.saturating_sub(RED_ZONE).max(map.begin.min(pointer));
        Some(begin..map.end.min(begin.saturating_add(STACK_LIMIT)))
    }

    fn own(&self, used: Option<&Range<u64>>) -> Option<Range<u64>> {
        let map = match self.is_first {
            true => self.maps.iter().find(|map| map.path == b"[stack]")?,
            false => self.map_at(self.register(self.abi.thread_pointer?)?)?,
        };
        if used.map_or(true, |used| (map.begin..map.end).contains(&used.start)) {
            return None;
        }
        Some(map.begin.max(map.end.saturating_sub(STACK_LIMIT))..map.end)
    }

    fn map_at(&self, address: u64) -> Option<&Map> {
        self.maps.iter().find(|map| (map.begin..map.end).contains(&address))
    }

    fn register(&self, wanted: u16) -> Option<u64> {
        self.registers.iter().find(|(number, _)| *number == wanted).map(|(_, value)| *value)
    }
}
