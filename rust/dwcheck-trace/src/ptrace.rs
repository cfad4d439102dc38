//! Requests of ptrace: seize, interrupt, step, run, registers, words; and waiting for what traced threads report.
//!
//! nix has no real-time signals, so whatever names a signal calls the C library itself.
//!
//! A thread may be killed at any time. Requests that change how it goes on then do nothing: it reports its
//! end.

#![allow(unsafe_code)]

use super::registers::Registers;
use libc::{c_uint, pid_t};
use nix::errno::Errno;
use nix::sys::ptrace;
use nix::unistd::Pid;
use std::ptr::null_mut;

/// The id of a thread, as the kernel gives it.
pub type Tid = pid_t;

/// Where the kernel's structure for a thread has the instruction pointer: it is the 17th of the registers, with
/// which it begins.
const PROGRAM_COUNTER: usize = 16 * std::mem::size_of::<u64>();

/// Where it has the flags: they are the 19th.
const FLAGS: usize = 18 * std::mem::size_of::<u64>();

/// The flag by which the processor stops after each instruction.
pub const TRAP_FLAG: u64 = 1 << 8;

/// Where the kernel's structure for a thread has the debug registers: they are its last field.
const DEBUG_REGISTERS: usize = std::mem::size_of::<libc::user>() - 8 * std::mem::size_of::<u64>();

/// What a thread reports.
#[derive(Clone, Copy, Debug, PartialEq, Eq)]
pub enum Report {
    /// It ended with this status.
    Exited(i32),
    /// This signal ended it.
    Killed(i32),
    /// It stopped, to get this signal when it goes on.
    Signal(i32),
    /// A signal stopped its whole process, until `SIGCONT`.
    GroupStop,
    /// It stopped because it was asked to, or because it is new.
    Stop,
    /// It made another thread or process.
    Created(Creation),
    /// The process that it made by `vfork` doesn't use its memory anymore.
    VforkDone,
    /// It runs another program.
    Exec,
}

/// How a thread made another thread or process.
#[derive(Clone, Copy, Debug, PartialEq, Eq)]
pub enum Creation {
    /// By `fork`, or as that does.
    Fork,
    /// By `vfork`, or as that does: it waits until the other one ends or runs another program.
    Vfork,
    /// By `clone`.
    Clone,
}

/// What is wanted of each traced thread.
pub fn trace_options(kills: bool) -> ptrace::Options {
    use ptrace::Options;
    let wanted = Options::PTRACE_O_TRACECLONE
        | Options::PTRACE_O_TRACEFORK
        | Options::PTRACE_O_TRACEVFORK
        | Options::PTRACE_O_TRACEVFORKDONE
        | Options::PTRACE_O_TRACEEXEC;
    if kills {
        wanted | Options::PTRACE_O_EXITKILL
    } else {
        wanted
    }
}

/// Begins to trace a thread, which isn't stopped by this.
pub fn seize(tid: Tid, options: ptrace::Options) -> Result<(), Errno> {
    ptrace::seize(Pid::from_raw(tid), options)
}

/// Asks a thread to stop.
pub fn interrupt(tid: Tid) {
    let _ = ptrace::interrupt(Pid::from_raw(tid));
}

/// Lets a thread run one instruction. It gets the signal, if that isn't 0.
pub fn step(tid: Tid, signal: i32) {
    signal_request(libc::PTRACE_SINGLESTEP, tid, signal);
}

/// Lets a thread run. It gets the signal, if that isn't 0.
pub fn run(tid: Tid, signal: i32) {
    signal_request(libc::PTRACE_CONT, tid, signal);
}

/// Lets a thread whose process was stopped by a signal wait for `SIGCONT`.
pub fn listen(tid: Tid) {
    signal_request(libc::PTRACE_LISTEN, tid, 0);
}

/// Ends the tracing of a stopped thread, which runs on. It gets the signal, if that isn't 0.
pub fn detach(tid: Tid, signal: i32) {
    signal_request(libc::PTRACE_DETACH, tid, signal);
}

/// Sends a signal to a process.
pub fn send(pid: Tid, signal: i32) {
    // SAFETY: this call takes no pointers.
    let _ = unsafe { libc::kill(pid, signal) };
}

/// The registers of a stopped thread.
pub fn registers(tid: Tid) -> Result<Registers, Errno> {
    Ok(Registers::of(&ptrace::getregs(Pid::from_raw(tid))?))
}

/// Whether a stopped thread goes on with a system call that it begins again, and that may wait (ERESTARTSYS to
/// ERESTART_RESTARTBLOCK).
pub fn begins_call_again(tid: Tid) -> Result<bool, Errno> {
    let raw = ptrace::getregs(Pid::from_raw(tid))?;
    Ok(raw.orig_rax as i64 >= 0 && (-516..=-512).contains(&(raw.rax as i64)))
}

/// Sets the address of the next instruction of a thread that a trap has stopped.
pub fn set_program_counter(tid: Tid, address: u64) {
    let _ = set_word(tid, PROGRAM_COUNTER, address);
}

/// Takes the flag of stepping out of the flags of a stopped thread.
pub fn clear_trap_flag(tid: Tid) {
    let flags = ptrace::getregs(Pid::from_raw(tid)).map_or(0, |raw| raw.eflags);
    if flags & TRAP_FLAG != 0 {
        let _ = set_word(tid, FLAGS, flags & !TRAP_FLAG);
    }
}

/// Sets a debug register of a stopped thread.
pub fn set_debug_register(tid: Tid, index: usize, value: u64) -> Result<(), Errno> {
    set_word(tid, DEBUG_REGISTERS + std::mem::size_of::<u64>() * index, value)
}

/// Sets eight bytes in the kernel's structure for a stopped thread.
fn set_word(tid: Tid, offset: usize, value: u64) -> Result<(), Errno> {
    // SAFETY: the request takes an offset in the kernel's structure, and a number.
    let result = unsafe { libc::ptrace(libc::PTRACE_POKEUSER, tid, offset, value) };
    Errno::result(result).map(|_| ())
}

/// The number and the first two arguments of the system call that a thread has stopped in.
pub fn system_call(tid: Tid) -> Result<(u64, u64, u64), Errno> {
    let raw = ptrace::getregs(Pid::from_raw(tid))?;
    Ok((raw.orig_rax, raw.rdi, raw.rsi))
}

/// What comes with the last event of a thread: the id of the thread that it made, for example.
pub fn event_message(tid: Tid) -> Result<Tid, Errno> {
    Ok(ptrace::getevent(Pid::from_raw(tid))? as Tid)
}

/// Who sent the signal that a thread has stopped to get (`si_code`).
pub fn signal_code(tid: Tid) -> Result<i32, Errno> {
    Ok(ptrace::getsiginfo(Pid::from_raw(tid))?.si_code)
}

/// Whether the signal of a trap waits for a stopped thread. The kernel reports other stops first, and the
/// signal ends a thread that isn't traced anymore.
pub fn trap_waits(tid: Tid) -> bool {
    let status = std::fs::read_to_string(format!("/proc/{}/status", tid)).unwrap_or_default();
    let waiting = status.lines().find_map(|line| line.strip_prefix("SigPnd:"));
    let waiting = waiting.and_then(|set| u64::from_str_radix(set.trim(), 16).ok()).unwrap_or(0);
    waiting & 1 << (libc::SIGTRAP - 1) != 0
}

/// Waits until a traced thread reports something.
pub fn wait() -> Result<(Tid, Report), Errno> {
    wait_with(-1, libc::__WALL)
}

/// Waits until this thread reports something.
pub fn wait_for_stop(tid: Tid) -> Result<Report, Errno> {
    loop {
        match wait_with(tid, libc::__WALL) {
            Ok((_, report)) => return Ok(report),
            Err(Errno::EINTR) => {}
            Err(error) => return Err(error),
        }
    }
}

/// What a traced thread has reported. `Ok(None)` if none has.
pub fn poll() -> Result<Option<(Tid, Report)>, Errno> {
    match wait_with(-1, libc::__WALL | libc::WNOHANG)? {
        (0, _) => Ok(None),
        found => Ok(Some(found)),
    }
}

fn wait_with(tid: Tid, flags: i32) -> Result<(Tid, Report), Errno> {
    let mut status = 0;
    // SAFETY: the kernel writes the status to a local.
    let tid = Errno::result(unsafe { libc::waitpid(tid, &mut status, flags) })?;
    Ok((tid, report_of_status(status)))
}

fn report_of_status(status: i32) -> Report {
    if libc::WIFEXITED(status) {
        return Report::Exited(libc::WEXITSTATUS(status));
    }
    if libc::WIFSIGNALED(status) {
        return Report::Killed(libc::WTERMSIG(status));
    }
    let signal = libc::WSTOPSIG(status);
    match status >> 16 {
        0 => Report::Signal(signal),
        libc::PTRACE_EVENT_FORK => Report::Created(Creation::Fork),
        libc::PTRACE_EVENT_VFORK => Report::Created(Creation::Vfork),
        libc::PTRACE_EVENT_CLONE => Report::Created(Creation::Clone),
        libc::PTRACE_EVENT_VFORK_DONE => Report::VforkDone,
        libc::PTRACE_EVENT_EXEC => Report::Exec,
        libc::PTRACE_EVENT_STOP if signal != libc::SIGTRAP => Report::GroupStop,
        _ => Report::Stop,
    }
}

/// A request of ptrace that has a signal.
fn signal_request(request: c_uint, tid: Tid, signal: i32) {
    // SAFETY: these requests take no pointers.
    unsafe { libc::ptrace(request, tid, null_mut::<libc::c_void>(), libc::c_long::from(signal)) };
}
