//! Steps a process that runs already: a thread for a short time, then another one.
//!
//! Nothing is written to the process, and it is traced only while a thread is stepped, so that it runs on
//! as it was when this program ends, for whatever reason. What is true is known of the functions that a
//! thread calls while it is stepped.

use super::alarm::{Alarm, Asked};
use super::ptrace::{self, Report, Tid};
use super::space::Space;
use super::thread::{Mode, Thread};
use super::tracer::{why_not_traced, Tracer};
use super::{End, TraceError};
use dwcheck_elf::internal::Process;
use dwcheck_elf::live::LiveError;
use dwcheck_lint::instruction::Effect;
use nix::errno::Errno;
use nix::sys::ptrace::Options;
use std::cell::RefCell;
use std::collections::HashSet;
use std::rc::Rc;
use std::time::{Duration, Instant};

/// How many instructions of a thread are stepped at once.
const WINDOW: u64 = 3_000;

/// How long the process runs between.
const PAUSE: Duration = Duration::from_millis(10);

/// How long a thread is waited for that was asked to stop. One that is busy in the kernel stops later.
const PATIENCE: Duration = Duration::from_secs(1);

/// How long it is waited for at the end. If it stops after that, it goes on when this program ends.
const LAST_PATIENCE: Duration = Duration::from_secs(10);

/// How long this program sleeps while it waits for a thread.
const NAP: Duration = Duration::from_micros(200);

impl Tracer<'_, '_> {
    /// Steps the threads of a process in turn, until it ends, the time is over, or this program is asked
    /// to end. Only threads that run are stopped: one that waits in the kernel could see that it was.
    pub fn sample_process(&mut self, pid: u32) -> Result<End, TraceError> {
        let failed = |error: LiveError| match error {
            LiveError::NotTraced(Some(tracer)) => TraceError::TracedBy(tracer),
            LiveError::NotTraced(None) => TraceError::NotTraced(Errno::EPERM),
            _ => TraceError::NoProcess,
        };
        self.main = Tid::try_from(pid).map_err(|_| TraceError::NoProcess)?;
        let process = Process::read(pid).map_err(failed)?;
        if let Some(refusal) = why_not_traced(self.main) {
            return Err(refusal);
        }
        if let Some(tracer) = process.tracer() {
            return Err(TraceError::TracedBy(tracer));
        }
        self.counts.processes = 1;
        let alarm = Alarm::install(Asked::Noted);
        let begin = Instant::now();
        let is_over = |tracer: &Self| tracer.options.time.map_or(false, |time| begin.elapsed() >= time);
        // The threads that were asked to stop, and that haven't yet.
        let mut stopping = HashSet::new();
        while !is_over(self) && alarm.take().is_none() {
            let threads = match process.threads() {
                Ok(threads) => threads,
                Err(_) => break,
            };
            for tid in threads.into_iter().filter_map(|tid| Tid::try_from(tid).ok()) {
                if is_over(self) {
                    break;
                }
                if !stopping.contains(&tid) && is_running_thread(pid, tid) {
                    self.sample_thread(tid, &mut stopping)?;
                }
            }
            while self.sample_stopped(&mut stopping) {}
            std::thread::sleep(PAUSE);
        }
        self.sample_stopping(&mut stopping, LAST_PATIENCE, |stopping| !stopping.is_empty());
        self.counts.time = begin.elapsed();
        Ok(End::Released)
    }

    /// Steps a thread for a short time. If it doesn't stop soon, it stays in `stopping`.
    fn sample_thread(&mut self, tid: Tid, stopping: &mut HashSet<Tid>) -> Result<(), TraceError> {
        match ptrace::seize(tid, Options::empty()) {
            Ok(()) => {}
            Err(Errno::ESRCH) => return Ok(()),
            // A thread that ends is refused in the same way as a process that may not be traced.
            Err(Errno::EPERM) if self.counts.windows > 0 || !stopping.is_empty() => return Ok(()),
            Err(error) => return Err(TraceError::NotTraced(error)),
        }
        ptrace::interrupt(tid);
        stopping.insert(tid);
        self.sample_stopping(stopping, PATIENCE, |stopping| stopping.contains(&tid));
        Ok(())
    }

    /// Steps threads that were asked to stop, when they do, as long as some are awaited and `patience` lasts.
    fn sample_stopping(
        &mut self,
        stopping: &mut HashSet<Tid>,
        patience: Duration,
        is_awaited: impl Fn(&HashSet<Tid>) -> bool,
    ) {
        let begin = Instant::now();
        while is_awaited(stopping) && begin.elapsed() <= patience {
            if !self.sample_stopped(stopping) {
                std::thread::sleep(NAP);
            }
        }
    }

    /// Steps a thread that has stopped for a short time, and lets it go. Returns false if none has.
    fn sample_stopped(&mut self, stopping: &mut HashSet<Tid>) -> bool {
        let (tid, signal) = match ptrace::poll() {
            Ok(Some((tid, Report::Exited(_) | Report::Killed(_)))) => (tid, None),
            Ok(Some((tid, Report::Signal(signal)))) => (tid, Some(signal)),
            Ok(Some((tid, _))) => (tid, Some(0)),
            Err(Errno::ECHILD) => {
                // No thread is traced. One that runs another program gets the id of the first one.
                stopping.clear();
                return false;
            }
            Ok(None) | Err(_) => return false,
        };
        stopping.remove(&tid);
        if let Some(signal) = signal.and_then(|signal| self.sample_window(tid, signal)) {
            ptrace::detach(tid, signal);
        }
        true
    }

    /// Steps a stopped thread up to a system call, or until it is enough. Returns the signal that it gets
    /// when it goes on, 0 if none. `None` if it ended.
    fn sample_window(&mut self, tid: Tid, mut signal: i32) -> Option<i32> {
        let (mut space, other) = match (Space::of(tid), Space::of(tid)) {
            (Ok(space), Ok(other)) => (space, other),
            // It goes on.
            _ => return Some(signal),
        };
        // The thread may have stopped in a call that waits, and a step would wait as long.
        if ptrace::begins_call_again(tid).ok()? {
            return Some(signal);
        }
        space.refresh(&mut self.files);
        let mut thread = Thread::new(tid, Rc::new(RefCell::new(other)));
        thread.mode = Mode::Stepping;
        thread.registers = ptrace::registers(tid).ok()?;
        thread.here = self.instruction_at(&mut space, thread.program_counter());
        self.counts.windows += 1;
        for _ in 0..WINDOW {
            let may_wait = matches!(thread.here.effect, Effect::System { .. } | Effect::Stop);
            if may_wait || signal == libc::SIGTRAP {
                break;
            }
            thread.got_signal = signal != 0;
            thread.step(&space, std::mem::take(&mut signal));
            match ptrace::wait_for_stop(tid).ok()? {
                Report::Signal(libc::SIGTRAP) => {
                    let registers = ptrace::registers(tid).ok()?;
                    self.thread_stepped(&mut thread, &mut space, &registers);
                }
                Report::Signal(other) => signal = other,
                Report::Exited(_) | Report::Killed(_) => return None,
                _ => break,
            }
        }
        thread.end_steps();
        signal_after_traps(tid, signal)
    }
}

/// Lets a thread take the traps of its steps that still wait. Returns the signal that it gets when it goes on, 0 if none.
/// `None` if it ended.
fn signal_after_traps(tid: Tid, signal: i32) -> Option<i32> {
    while ptrace::trap_waits(tid) {
        ptrace::run(tid, 0);
        match ptrace::wait_for_stop(tid).ok()? {
            Report::Signal(libc::SIGTRAP) if ptrace::signal_code(tid).ok()? <= 0 => return Some(libc::SIGTRAP),
            Report::Exited(_) | Report::Killed(_) => return None,
            _ => {}
        }
    }
    Some(Some(signal).filter(|signal| *signal != libc::SIGTRAP).unwrap_or(0))
}

/// Whether a thread runs, and doesn't wait in the kernel.
fn is_running_thread(pid: u32, tid: Tid) -> bool {
    let line = std::fs::read_to_string(format!("/proc/{}/task/{}/stat", pid, tid)).unwrap_or_default();
    // The state follows the name, which is in parentheses.
    line.rsplit_once(") ").map_or(false, |(_, rest)| rest.starts_with('R'))
}
