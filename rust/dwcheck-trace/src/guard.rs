//! Runs a part of this program in a process of its own, which ends in order if this one is killed.
//!
//! A thread that is being stepped when its tracer is killed gets a signal that ends it. So the process that
//! users see isn't the one that steps.

#![allow(unsafe_code)]

use nix::errno::Errno;
use nix::sys::signal::{signal, SigHandler, Signal};
use nix::sys::wait::{waitpid, WaitStatus};
use nix::unistd::{fork, getpid, getppid, ForkResult, Pid};
use std::process::exit;

/// The status if the process ends by a signal.
const LOST: u8 = 3;

/// Runs something in a process of its own, and returns the status with which it ends. If this program ends
/// meanwhile, also by `SIGKILL`, the other process gets `SIGTERM`.
///
/// # Errors
///
/// If no process can be made.
pub fn run_guarded(run: impl FnOnce() -> u8) -> Result<u8, Errno> {
    let own = getpid();
    // SAFETY: this program has one thread when it begins to trace.
    match unsafe { fork() }? {
        ForkResult::Child => {
            // SAFETY: this request takes no pointers.
            unsafe { libc::prctl(libc::PR_SET_PDEATHSIG, libc::SIGTERM) };
            let is_orphan = getppid() != own;
            exit(i32::from(if is_orphan { LOST } else { run() }))
        }
        ForkResult::Parent { child } => Ok(wait_for_child(child)),
    }
}

/// Waits for the other process, which gets the signals of the terminal, too, and decides.
fn wait_for_child(child: Pid) -> u8 {
    for terminal in [Signal::SIGINT, Signal::SIGQUIT, Signal::SIGHUP] {
        // SAFETY: no handler is installed.
        let _ = unsafe { signal(terminal, SigHandler::SigIgn) };
    }
    loop {
        match waitpid(child, None) {
            Ok(WaitStatus::Exited(_, status)) => return status as u8,
            Ok(WaitStatus::Signaled(..)) => return LOST,
            Err(error) if error != Errno::EINTR => return LOST,
            _ => {}
        }
    }
}
