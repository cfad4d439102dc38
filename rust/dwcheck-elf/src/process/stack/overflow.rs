//! Finds whether a thread's stack overflowed.

use super::{Stacks, WalkOptions};

/// The most frames that are looked at for one that is in the memory of the stack. Code that has taken more of the stack
/// than there is has its own CFA there, or that of its caller.
const NEAR: usize = 4;

/// How far below the stack pointer code may touch memory: by a call, or a page beforehand.
const BELOW: u64 = 4096;

impl Stacks<'_> {
    /// The id of the thread whose stack overflowed, if that ended the process: it touched memory that it couldn't write
    /// to, below the memory of its stack, and not below its stack pointer.
    pub fn overflowed(&self) -> Option<u32> {
        let signal = self.core.signal().filter(|signal| signal.is_fault() && signal.is_of_memory())?;
        let thread = self.core.threads().first()?;
        let pointer = thread.register(self.core.abi().stack_pointer)?;
        // The kernel gives no address if it couldn't call a handler.
        let touched = signal.fault_address().unwrap_or(pointer);
        if touched < pointer.saturating_sub(BELOW) || self.core.writable_at(touched).is_some() {
            return None;
        }
        let stack = self.walk(thread, WalkOptions { limit: NEAR, ..WalkOptions::default() }).ok()?;
        let mut known = stack.frames.iter().filter_map(|frame| frame.cfa);
        let memory = known.find_map(|cfa| self.core.writable_at(cfa))?;
        (touched < memory.start && pointer < memory.end).then_some(thread.id)
    }
}
