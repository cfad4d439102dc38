//! Lets go of what is traced: takes all breakpoints out, and ends the tracing. What was traced runs on.

use super::breakpoints::TRAP;
use super::ptrace::{self, Report, Tid};
use super::thread::{Mode, Thread};
use super::tracer::{Birth, Tracer, BY_KERNEL};
use nix::errno::Errno;
use std::collections::HashMap;
use std::time::{Duration, Instant};

/// A thread that doesn't stop within this time is left as it is. It waits in the kernel, has nothing to
/// undo, and runs on when this program ends.
const PATIENCE: Duration = Duration::from_secs(2);

impl Tracer<'_, '_> {
    /// Lets go of all threads. The program's end is still waited for.
    pub(super) fn release_all(&mut self) {
        self.is_let_go = true;
        let running = self.threads.values().filter(|thread| !thread.is_stopped);
        running.for_each(|thread| ptrace::interrupt(thread.tid));
        let signals = self.stop_all();
        let mut threads: Vec<Thread> = self.threads.drain().map(|(_, thread)| thread).collect();
        for thread in &mut threads {
            let mut space = thread.space.borrow_mut();
            thread.batch.take().iter().for_each(|batch| batch.lift(&space));
            space.take_out_breakpoints();
        }
        for thread in threads.iter_mut().filter(|thread| thread.is_stopped) {
            thread.hardware.clear_hardware_breakpoints(thread.tid);
            thread.end_steps();
            ptrace::detach(thread.tid, signals.get(&thread.tid).copied().unwrap_or(0));
        }
        for tid in std::mem::take(&mut self.early) {
            ptrace::detach(tid, 0);
        }
    }

    /// Waits until all threads have stopped. Returns the signals that they get.
    fn stop_all(&mut self) -> HashMap<Tid, i32> {
        let begin = Instant::now();
        let mut signals = HashMap::new();
        // What was made, and hasn't stopped for the first time, would be killed with this program.
        let is_left =
            |tracer: &Self| !tracer.births.is_empty() || tracer.threads.values().any(|thread| !thread.is_stopped);
        while is_left(self) && begin.elapsed() < PATIENCE {
            match ptrace::poll() {
                Ok(Some((tid, report))) => self.let_go_stopped(tid, report, &mut signals),
                Ok(None) => std::thread::sleep(Duration::from_micros(200)),
                Err(Errno::EINTR) => {}
                Err(_) => break,
            }
        }
        signals
    }

    /// A thread has stopped that is let go.
    fn let_go_stopped(&mut self, tid: Tid, report: Report, signals: &mut HashMap<Tid, i32>) {
        match report {
            Report::Exited(_) | Report::Killed(_) | Report::Exec => return self.handle_report(tid, report),
            _ => {}
        }
        let thread = match self.threads.get_mut(&tid) {
            Some(thread) => thread,
            None => return self.let_go_first(tid),
        };
        if matches!(report, Report::Stop | Report::GroupStop) && ptrace::trap_waits(tid) {
            // It executes nothing before it reports the trap.
            return ptrace::run(tid, 0);
        }
        thread.is_stopped = true;
        match report {
            Report::Signal(libc::SIGTRAP) if rewind_to_breakpoint(thread) => {}
            Report::Signal(signal) => {
                signals.insert(tid, signal);
            }
            Report::VforkDone => thread.space.borrow_mut().put_back_breakpoints(),
            Report::Created(_) => {
                let copy = ptrace::event_message(tid)
                    .ok()
                    .and_then(|made| Some((made, thread.space.borrow().forked(made).ok()?)));
                if let Some((made, copy)) = copy {
                    self.births.insert(made, Birth::LetGo(copy));
                    if self.early.remove(&made) {
                        self.let_go_first(made);
                    }
                }
            }
            _ => {}
        }
    }

    /// A thread has stopped after all others were let go: it is new, or didn't stop in time.
    pub(super) fn let_go_late(&mut self, tid: Tid, report: Report) {
        self.let_go_first(tid);
        if self.early.remove(&tid) {
            ptrace::detach(tid, if let Report::Signal(signal) = report { signal } else { 0 });
        }
    }

    /// A thread or a process that was just made has stopped.
    fn let_go_first(&mut self, tid: Tid) {
        match self.births.remove(&tid) {
            Some(Birth::LetGo(mut copy) | Birth::Copy(mut copy)) => {
                copy.clear_breakpoints();
                ptrace::detach(tid, 0);
            }
            Some(Birth::Thread(_) | Birth::Borrower) => ptrace::detach(tid, 0),
            None => {
                self.early.insert(tid);
            }
        }
    }
}

/// Sets a thread that has executed a breakpoint back to it. Returns false if the trap is the program's own.
fn rewind_to_breakpoint(thread: &mut Thread) -> bool {
    let code = ptrace::signal_code(thread.tid).unwrap_or(BY_KERNEL);
    let ends_stretch = thread.batch.is_some() && code == BY_KERNEL;
    if thread.mode != Mode::Running && code > 0 && !ends_stretch {
        return true;
    }
    if code != BY_KERNEL {
        return false;
    }
    let registers = match ptrace::registers(thread.tid) {
        Ok(registers) => registers,
        Err(_) => return true,
    };
    let address = registers.program_counter().wrapping_sub(1);
    if thread.batch.as_ref().map_or(false, |batch| batch.has_trap_at(address)) {
        ptrace::set_program_counter(thread.tid, address);
        return true;
    }
    let mut byte = [0];
    let is_gone = thread.space.borrow().read(address, &mut byte) && byte != [TRAP];
    let is_breakpoint = thread.space.borrow().breakpoints.at(address).is_some() || is_gone;
    if is_breakpoint {
        ptrace::set_program_counter(thread.tid, address);
    }
    is_breakpoint
}
