//! Copies what a walk needs of a process that runs: the registers of its threads and the used part of
//! their stacks, and, for the values of variables, the memory that it can write to.
//!
//! Each thread is stopped only while it is copied. If this program ends meanwhile, also by a signal,
//! the kernel lets the thread go on.

mod data;
mod trace;

pub use super::maps::{LiveError, Map};
pub use crate::process::used_stacks::STACK_LIMIT;
pub(crate) use data::copy_changeable_memory;
pub use data::DATA_LIMIT;

use crate::process::core_file::{Copied, CoreFile, Thread};
use crate::process::maps::Process;
use crate::process::used_stacks::Stacked;
use dwcheck_types::abi::Abi;
use dwcheck_types::target::Target;
use std::ops::Range;
use std::time::Duration;
use trace::{Stopped, TraceError};

/// A copy of what a walk needs of a process.
#[derive(Debug)]
pub struct Snapshot {
    process: Process,
    target: Target,
    abi: &'static Abi,
    threads: Vec<Thread>,
    /// Copied memory: its address and bytes. Where two blocks have an address, the first one counts.
    blocks: Vec<(u64, Vec<u8>)>,
    /// The memory that the process can write to, as it was when the first thread was stopped. What `blocks`
    /// have counts before it. `None` if it isn't copied.
    data: Option<Vec<(u64, Vec<u8>)>>,
    /// The bits of a return address that hold an authentication code (aarch64).
    pac_mask: Option<u64>,
    skipped: Vec<(u32, TraceError)>,
    longest: Duration,
}

impl Snapshot {
    /// Copies a process. `wanted` are the ids of the threads to copy; empty for all threads.
    ///
    /// # Errors
    ///
    /// If no thread can be copied. Single threads that can't be copied are listed in
    /// [`skipped`](Self::skipped).
    pub fn take(pid: u32, wanted: &[u32]) -> Result<Snapshot, LiveError> {
        run_in_own_thread(|| Snapshot::copy(pid, wanted, None))
    }

    /// Copies a process as [`take`](Self::take) does, and the memory that it can write to, up to
    /// [`DATA_LIMIT`] bytes, while the first of the threads is stopped. The other threads run meanwhile.
    ///
    /// # Errors
    ///
    /// The same.
    pub fn take_with_data(pid: u32, wanted: &[u32]) -> Result<Snapshot, LiveError> {
        run_in_own_thread(|| Snapshot::copy(pid, wanted, Some(Vec::new())))
    }

    fn copy(pid: u32, wanted: &[u32], data: Option<Vec<(u64, Vec<u8>)>>) -> Result<Snapshot, LiveError> {
        let process = Process::read(pid)?;
        let (target, abi) = process.machine()?;
        let mut copy = Snapshot {
            process,
            target,
            abi,
            threads: Vec::new(),
            blocks: Vec::new(),
            data,
            pac_mask: None,
            skipped: Vec::new(),
            longest: Duration::ZERO,
        };
        copy.copy_vdso();
        // A thread may make others meanwhile.
        let mut seen = Vec::new();
        loop {
            let tasks = copy.process.threads()?;
            let fresh: Vec<_> = tasks.into_iter().filter(|tid| !seen.contains(tid)).collect();
            if fresh.is_empty() {
                break;
            }
            let chosen = fresh.iter().filter(|tid| wanted.is_empty() || wanted.contains(tid));
            chosen.for_each(|tid| copy.copy_thread(*tid));
            seen.extend(fresh);
        }
        match copy.threads.is_empty() {
            true => Err(copy.failure()),
            false => Ok(copy),
        }
    }

    /// The threads that couldn't be copied, and why.
    pub fn skipped(&self) -> impl Iterator<Item = (u32, String)> + '_ {
        self.skipped.iter().map(|(tid, error)| (*tid, error.to_string()))
    }

    /// The longest time for which a thread was stopped.
    pub fn longest_stop(&self) -> Duration {
        self.longest
    }

    /// The copy as a core file, whose threads can be walked.
    pub fn core(&self) -> CoreFile<'_> {
        CoreFile::of_live(Copied {
            process: &self.process,
            target: self.target,
            abi: self.abi,
            threads: &self.threads,
            memory: [&self.blocks, self.data.as_deref().unwrap_or(&[])],
            pac_mask: self.pac_mask,
        })
    }

    /// Why no thread was copied.
    fn failure(&self) -> LiveError {
        match self.skipped.first() {
            Some((_, TraceError::NotPermitted)) => LiveError::NotTraced(self.process.tracer()),
            _ => LiveError::NoProcess,
        }
    }

    fn copy_vdso(&mut self) {
        self.blocks.extend(self.process.vdso());
    }

    /// Stops a thread, copies its registers and its stack, and lets it go on.
    fn copy_thread(&mut self, tid: u32) {
        let stopped = match Stopped::stop(tid) {
            Ok(stopped) => stopped,
            Err(TraceError::Gone) => return,
            // The kernel refuses those that have ended in the same way.
            Err(TraceError::NotPermitted) if self.process.has_ended(tid) => return,
            Err(error) => return self.skipped.push((tid, error)),
        };
        let (registers, vectors) = (stopped.registers(self.target, self.abi), stopped.vectors(self.target, self.abi));
        let stacks = registers.as_ref().map_or_else(Vec::new, |registers| self.stacks(tid, registers));
        self.pac_mask = self.pac_mask.or_else(|| stopped.pac_mask());
        if let Some(data) = self.data.as_mut().filter(|data| data.is_empty()) {
            *data = data::copy_changeable_memory(&self.process);
        }
        self.longest = self.longest.max(stopped.resume());
        if let Some(registers) = registers {
            self.blocks.extend(stacks);
            let name = self.process.thread_name(tid);
            self.threads.push(Thread { id: tid, name, signal: 0, registers, vectors });
        }
    }

    /// The used parts of the stacks of a thread with these registers.
    fn stacks(&self, tid: u32, registers: &[(u16, u64)]) -> Vec<(u64, Vec<u8>)> {
        let is_first = tid == self.process.id;
        let thread = Stacked { maps: &self.process.maps, abi: self.abi, registers, is_first };
        let copy = |part: Range<u64>| Some((part.start, self.process.memory(part.start, part.end - part.start)?));
        thread.parts().filter_map(copy).collect()
    }
}

/// Runs something in a thread of its own. When that ends, the kernel lets go what it traces, also threads that
/// haven't stopped yet.
fn run_in_own_thread<T: Send>(run: impl FnOnce() -> T + Send) -> T {
    std::thread::scope(|scope| scope.spawn(run).join()).unwrap_or_else(|panic| std::panic::resume_unwind(panic))
}
