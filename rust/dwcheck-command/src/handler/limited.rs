//! Runs work in a process of its own, whose time, memory and output are limited. Whatever happens to it, such as a file that
//! can't be read to its end, the caller goes on.

use crate::end::Failure;
use nix::fcntl::OFlag;
use nix::poll::{poll, PollFd, PollFlags};
use nix::sys::resource::{setrlimit, Resource};
use nix::sys::signal::{kill, Signal};
use nix::sys::wait::{waitpid, WaitPidFlag, WaitStatus};
use nix::unistd::{close, fork, pipe2, ForkResult, Pid};
use std::fs::File;
use std::io::{self, BufWriter, Read, Write};
use std::os::unix::io::{AsRawFd, FromRawFd};
use std::time::{Duration, Instant};

/// How long is waited for the end of a process that has closed its output.
const TICK: Duration = Duration::from_millis(1);

/// The limit of the kernel for core files that tells it to call no handler.
const NO_HANDLER: u64 = 1;

/// The exit statuses of the process that does the work.
const DONE: i32 = 0;
const FAILED: i32 = 1;
const UNREAD: i32 = 3;

/// What the work may take.
#[derive(Clone, Copy, Debug)]
pub struct Limits {
    /// On the clock.
    pub time: Duration,
    /// Memory that isn't a file's, in bytes.
    pub memory: u64,
    /// How many bytes it may write.
    pub output: usize,
}

/// What the work could do. Either way, what it has written is whole.
#[derive(Clone, Copy, Debug, PartialEq, Eq)]
pub enum Work {
    /// All of it.
    Done,
    /// To say that what it is about can't be read.
    Unread,
}

/// How the work ended.
#[derive(Clone, Copy, Debug, PartialEq, Eq)]
pub enum End {
    /// It is done.
    Whole,
    /// The same, but there was nothing that could be read.
    Unread,
    /// It failed.
    Failed,
    /// A signal ended it.
    Signal(Signal),
    /// It took more time than the limit, which this is.
    Time(Duration),
    /// It wrote more bytes than the limit, which this is.
    Output(usize),
}

/// What the work has written, and how it ended.
#[derive(Debug)]
pub struct Ran {
    pub output: Vec<u8>,
    pub end: End,
}

/// Runs `work`, which writes to what it gets. At the end, standard input is closed.
///
/// # Errors
///
/// If there is no process for it.
pub fn run_limited(limits: Limits, work: impl FnOnce(&mut dyn Write) -> Result<Work, Failure>) -> io::Result<Ran> {
    let deadline = Instant::now() + limits.time;
    let (from, to) = pipe2(OFlag::O_CLOEXEC)?;
    // SAFETY: both were just made, and nothing else has them.
    let (mut from, to) = unsafe { (File::from_raw_fd(from), File::from_raw_fd(to)) };
    // SAFETY: this program has one thread here, so that the child may do anything.
    match unsafe { fork() }? {
        ForkResult::Child => {
            drop(from);
            std::process::exit(run_child(limits, to, work))
        }
        ForkResult::Parent { child } => {
            drop(to);
            let mut output = Vec::new();
            let stopped = read_until(deadline, limits, &mut from, &mut output);
            let end = stopped.unwrap_or_else(|| wait_until(deadline, limits, child));
            if !matches!(end, End::Whole | End::Unread) {
                let _ = kill(child, Signal::SIGKILL);
                let _ = waitpid(child, Some(WaitPidFlag::WNOHANG));
            }
            // The kernel lets the dying process go, even if the child can't be ended at once.
            let _ = close(io::stdin().as_raw_fd());
            Ok(Ran { output, end })
        }
    }
}

/// Does the work, and returns the exit status.
fn run_child(limits: Limits, to: File, work: impl FnOnce(&mut dyn Write) -> Result<Work, Failure>) -> i32 {
    // What can't be limited is still ended by the parent.
    let _ = setrlimit(Resource::RLIMIT_DATA, limits.memory, limits.memory);
    let seconds = limits.time.as_secs().saturating_add(1);
    let _ = setrlimit(Resource::RLIMIT_CPU, seconds, seconds);
    let _ = setrlimit(Resource::RLIMIT_CORE, NO_HANDLER, NO_HANDLER);
    let mut out = BufWriter::new(to);
    match work(&mut out).and_then(|work| Ok(out.flush().map(|()| work)?)) {
        Ok(Work::Done) => DONE,
        Ok(Work::Unread) => UNREAD,
        Err(failure) => {
            let _ = writeln!(io::stderr(), "dwcheck-elf: {}", failure);
            FAILED
        }
    }
}

/// Reads what the child writes to its end. Returns why it isn't read further, if it isn't.
fn read_until(deadline: Instant, limits: Limits, from: &mut File, output: &mut Vec<u8>) -> Option<End> {
    let mut part = vec![0; 1 << 16];
    loop {
        let left = deadline.saturating_duration_since(Instant::now());
        if left.is_zero() {
            return Some(End::Time(limits.time));
        }
        let mut ready = [PollFd::new(from.as_raw_fd(), PollFlags::POLLIN)];
        // At least a millisecond, so that the last one isn't spent in a busy loop.
        match poll(&mut ready, i32::try_from(left.as_millis()).unwrap_or(i32::MAX).max(1)) {
            Ok(0) | Err(_) => continue,
            Ok(_) => {}
        }
        let count = match from.read(&mut part) {
            Ok(0) | Err(_) => return None,
            Ok(count) => count,
        };
        let room = limits.output - output.len();
        output.extend_from_slice(part.get(..count.min(room)).unwrap_or(&[]));
        if count > room {
            return Some(End::Output(limits.output));
        }
    }
}

/// Waits for the end of a child that has closed its output.
fn wait_until(deadline: Instant, limits: Limits, child: Pid) -> End {
    loop {
        match waitpid(child, Some(WaitPidFlag::WNOHANG)) {
            Ok(WaitStatus::Exited(_, DONE)) => return End::Whole,
            Ok(WaitStatus::Exited(_, UNREAD)) => return End::Unread,
            Ok(WaitStatus::Signaled(_, signal, _)) => return End::Signal(signal),
            Ok(WaitStatus::StillAlive) if Instant::now() < deadline => std::thread::sleep(TICK),
            Ok(WaitStatus::StillAlive) => return End::Time(limits.time),
            _ => return End::Failed,
        }
    }
}

#[cfg(test)]
mod tests {
    use super::*;

    // The tests of a crate are threads of one process, so that what forks is tested with the program.
    #[test]
    fn output_is_read_to_its_limit() {
        let (from, to) = pipe2(OFlag::O_CLOEXEC).unwrap();
        let (mut from, mut to) = unsafe { (File::from_raw_fd(from), File::from_raw_fd(to)) };
        to.write_all(b"hello").unwrap();
        drop(to);
        let (limits, mut output) = (Limits { time: Duration::ZERO, memory: 0, output: 4 }, Vec::new());
        let end = read_until(Instant::now() + Duration::from_secs(9), limits, &mut from, &mut output);
        assert_eq!((output.as_slice(), end), (&b"hell"[..], Some(End::Output(4))));
    }
}
