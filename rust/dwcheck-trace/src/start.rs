//! Starts a program that is traced from its first instruction on.

#![allow(unsafe_code)]

use super::ptrace::{self, Tid};
use super::TraceError;
use nix::unistd::close;
use std::ffi::OsString;
use std::io::{self, Read, Write};
use std::net::Shutdown;
use std::os::unix::io::{AsRawFd, RawFd};
use std::os::unix::net::UnixStream;
use std::os::unix::process::CommandExt;
use std::process::Command;
use std::thread;

/// Starts a program with its arguments. It is traced, and runs up to its first instruction, where it
/// reports [`Exec`](super::ptrace::Report::Exec). If this program is killed, the other one is too.
pub fn start_program(words: &[OsString]) -> Result<Tid, TraceError> {
    let empty = || TraceError::NotStarted(io::ErrorKind::InvalidInput.into());
    let (program, arguments) = words.split_first().ok_or_else(empty)?;
    let (own, theirs) = UnixStream::pair().map_err(TraceError::NotStarted)?;
    let own_end = own.as_raw_fd();
    let mut command = Command::new(program);
    command.args(arguments);
    // SAFETY: between fork and exec, this only makes system calls.
    unsafe { command.pre_exec(move || await_tracer(&theirs, own_end)) };
    // `spawn` returns when the other program runs, for which that has to be traced first.
    let started = thread::spawn(move || command.spawn().map(drop));
    let seized = seize_child(&own);
    let started = started.join().unwrap_or_else(|_| Err(io::ErrorKind::Other.into()));
    started.map_err(TraceError::NotStarted).and(seized)
}

/// Traces the process that says its id, and then lets it go on.
fn seize_child(mut own: &UnixStream) -> Result<Tid, TraceError> {
    let mut bytes = [0; 4];
    own.read_exact(&mut bytes).map_err(TraceError::NotStarted)?;
    let tid = Tid::from_ne_bytes(bytes);
    let seized = ptrace::seize(tid, ptrace::trace_options(true)).map_err(TraceError::NotTraced);
    let told = match seized {
        Ok(()) => own.write_all(&[1]),
        Err(_) => own.shutdown(Shutdown::Both),
    };
    seized.and(told.map_err(TraceError::NotStarted)).map(|()| tid)
}

/// Runs in the process that is started: says its id, and waits until it is traced. `own_end` is its copy
/// of the tracer's end, which would keep it waiting after the tracer's death.
fn await_tracer(mut theirs: &UnixStream, own_end: RawFd) -> io::Result<()> {
    close(own_end)?;
    theirs.write_all(&std::process::id().to_ne_bytes())?;
    theirs.read_exact(&mut [0])
}
