//! Stops a thread by ptrace, reads its registers, and lets it go on.

#![allow(unsafe_code)]

use crate::process::core_file::registers;
use dwcheck_types::abi::Abi;
use dwcheck_types::target::Target;
use nix::errno::Errno;
use std::fmt;
use std::ptr::null_mut;
use std::time::{Duration, Instant};

/// A thread that the kernel doesn't stop within this time is skipped.
const PATIENCE: Duration = Duration::from_secs(1);

/// The kind of the set of vector registers.
const NT_PRFPREG: usize = 2;

/// The kind of register set that has the thread pointer of aarch64.
const NT_ARM_TLS: usize = 0x401;

/// The kind of register set that says which bits of an address hold an authentication code.
const NT_ARM_PAC_MASK: usize = 0x406;

/// Why a thread can't be stopped.
#[derive(Clone, Copy, Debug, PartialEq, Eq)]
pub(super) enum TraceError {
    /// It ended.
    Gone,
    /// Another program traces it, or this program may not.
    NotPermitted,
    /// It doesn't stop.
    Busy,
}

/// A thread that is stopped. It goes on when this is dropped.
#[derive(Debug)]
pub(super) struct Stopped {
    tid: libc::pid_t,
    /// The signal that the thread was about to receive, 0 if none. It gets it when it goes on.
    signal: i32,
    since: Instant,
}

impl Stopped {
    /// Stops a thread.
    pub fn stop(tid: u32) -> Result<Stopped, TraceError> {
        let tid = libc::pid_t::try_from(tid).map_err(|_| TraceError::Gone)?;
        let since = Instant::now();
        ptrace_request(libc::PTRACE_SEIZE, tid, 0).map_err(TraceError::of)?;
        ptrace_request(libc::PTRACE_INTERRUPT, tid, 0).map_err(TraceError::of)?;
        let signal = wait_until_stopped(tid, since)?;
        Ok(Stopped { tid, signal, since })
    }

    /// The registers by their DWARF numbers, ascending.
    pub fn registers(&self, target: Target, abi: &Abi) -> Option<Vec<(u16, u64)>> {
        let bytes = self.register_set(libc::NT_PRSTATUS as usize)?;
        let mut held = registers::read_general_registers(&bytes, target, abi).ok()?;
        // Other machines have no such set.
        let pointer = self.register_set(NT_ARM_TLS).and_then(|bytes| bytes.get(..8)?.try_into().ok());
        if let Some(pointer) = pointer {
            registers::add_thread_pointer(&mut held, abi, u64::from_ne_bytes(pointer));
        }
        Some(held)
    }

    /// The low 8 bytes of the vector registers by their DWARF numbers, ascending. Empty if the kernel has none.
    pub fn vectors(&self, target: Target, abi: &Abi) -> Vec<(u16, u64)> {
        let bytes = self.register_set(NT_PRFPREG);
        bytes.and_then(|bytes| registers::read_vector_registers(&bytes, target, abi).ok()).unwrap_or_default()
    }

    /// The bits of a return address that hold an authentication code.
    pub fn pac_mask(&self) -> Option<u64> {
        let bytes = self.register_set(NT_ARM_PAC_MASK)?;
        Some(u64::from_ne_bytes(bytes.get(8..16)?.try_into().ok()?))
    }

    /// Lets the thread go on. Returns for how long it was stopped.
    pub fn resume(self) -> Duration {
        self.since.elapsed()
    }

    fn register_set(&self, kind: usize) -> Option<Vec<u8>> {
        let mut bytes = vec![0u8; 1024];
        let mut buffer = libc::iovec { iov_base: bytes.as_mut_ptr().cast(), iov_len: bytes.len() };
        // SAFETY: the kernel writes at most `iov_len` bytes to `iov_base`, and then their number to
        // `iov_len`.
        let done = unsafe { libc::ptrace(libc::PTRACE_GETREGSET, self.tid, kind, &mut buffer as *mut libc::iovec) };
        bytes.truncate(buffer.iov_len);
        Some(bytes).filter(|_| done == 0)
    }
}

impl Drop for Stopped {
    fn drop(&mut self) {
        // A thread that has been killed meanwhile can't be detached.
        let _ = ptrace_request(libc::PTRACE_DETACH, self.tid, self.signal as usize);
    }
}

/// Waits until the thread has stopped. Returns the signal that it is about to receive, 0 if none.
fn wait_until_stopped(tid: libc::pid_t, since: Instant) -> Result<i32, TraceError> {
    loop {
        let mut status = 0;
        // SAFETY: the kernel writes the status to a local.
        let found = unsafe { libc::waitpid(tid, &mut status, libc::__WALL | libc::WNOHANG) };
        if found == tid && libc::WIFSTOPPED(status) {
            // The stop that PTRACE_INTERRUPT makes is an event; any other one is for a signal.
            let is_event = status >> 16 != 0;
            return Ok(if is_event { 0 } else { libc::WSTOPSIG(status) });
        }
        match found {
            0 if since.elapsed() > PATIENCE => return Err(TraceError::Busy),
            0 if since.elapsed() < Duration::from_millis(1) => std::thread::yield_now(),
            0 => std::thread::sleep(Duration::from_micros(100)),
            _ => return Err(TraceError::Gone),
        }
    }
}

/// A request of ptrace without an address.
fn ptrace_request(request: libc::c_uint, tid: libc::pid_t, data: usize) -> Result<(), Errno> {
    // SAFETY: these requests take no pointers.
    let done = unsafe { libc::ptrace(request, tid, null_mut::<libc::c_void>(), data) };
    Errno::result(done).map(drop)
}

impl TraceError {
    fn of(error: Errno) -> Self {
        match error {
            Errno::ESRCH => TraceError::Gone,
            _ => TraceError::NotPermitted,
        }
    }
}

impl fmt::Display for TraceError {
    fn fmt(&self, f: &mut fmt::Formatter<'_>) -> fmt::Result {
        f.write_str(match self {
            TraceError::Gone => "it ended",
            TraceError::NotPermitted => "it may not be traced, or another program traces it",
            TraceError::Busy => "it doesn't stop",
        })
    }
}
