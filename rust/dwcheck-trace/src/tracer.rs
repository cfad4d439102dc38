//! Handles what the threads report that are traced: signals, traps, new threads and processes, their ends.

use super::alarm::{Alarm, Asked};
use super::batch::Batch;
use super::breakpoints::TRAP;
use super::files::{Files, Selection};
use super::ptrace::{self, Creation, Report, Tid};
use super::registers::{Registers, SAVED_COUNT};
use super::shadow::FdeId;
use super::site::Sites;
use super::space::Space;
use super::start::start_program;
use super::thread::{Mode, Thread};
use super::trace_findings::Counts;
use super::{End, Options, TraceError};
use dwcheck_elf::internal::Process;
use dwcheck_elf::lint::Sections;
use dwcheck_elf::mapped::Bytes;
use dwcheck_lint::instruction::Effect;
use nix::errno::Errno;
use std::cell::RefCell;
use std::collections::{HashMap, HashSet};
use std::ffi::OsString;
use std::os::unix::fs::MetadataExt;
use std::rc::Rc;
use std::time::Instant;
use typed_arena::Arena;

/// The kernel itself sent the signal, as for a breakpoint (`SI_KERNEL`).
pub(super) const BY_KERNEL: i32 = 0x80;

/// The processor came to one of its breakpoints (`TRAP_HWBKPT`).
const HARDWARE: i32 = 4;

/// The bits of a file's mode that give a program another user's or group's rights.
const PRIVILEGED: u32 = 0o6000;

/// Runs a program, and compares rows with values meanwhile.
pub struct Tracer<'b, 's> {
    pub(super) options: Options,
    pub(super) files: Files<'b, 's>,
    pub(super) sites: Sites,
    pub(super) counts: Counts,
    /// The callee-saved registers, by their places, that functions didn't give back.
    pub(super) lost: HashMap<FdeId, [bool; SAVED_COUNT]>,
    /// The registers of the frame that is unwound.
    pub(super) known: dwcheck::Registers,
    pub(super) threads: HashMap<Tid, Thread>,
    /// Threads and processes that stopped before what made them reported that.
    pub(super) early: HashSet<Tid>,
    /// Threads and processes that were made, and haven't stopped for the first time.
    pub(super) births: HashMap<Tid, Birth>,
    /// The first thread of the program.
    pub(super) main: Tid,
    pub(super) end: Option<End>,
    /// Whether all was let go. What stops afterwards is let go, too.
    pub(super) is_let_go: bool,
    /// What a user may want to know, and isn't an error.
    pub(super) notes: Vec<String>,
}

/// What is done with a thread or a process that was made.
#[derive(Debug)]
pub(super) enum Birth {
    /// It is a thread with this memory, or uses it as one.
    Thread(Rc<RefCell<Space>>),
    /// It has this memory, a copy, and is traced.
    Copy(Space),
    /// It has this memory, a copy, and is let go.
    LetGo(Space),
    /// It uses the memory of what made it, which waits meanwhile, and has no breakpoints.
    Borrower,
}

impl<'b: 's, 's> Tracer<'b, 's> {
    /// A tracer that has seen nothing yet. The files that it reads are kept in these arenas.
    pub fn new(options: Options, bytes: &'b Arena<Bytes>, sections: &'s Arena<Sections<'b>>) -> Self {
        let selection = Selection { patterns: options.modules.clone(), only_suspects: options.confirms };
        Tracer {
            options,
            files: Files::new(bytes, sections, selection),
            sites: Sites::default(),
            counts: Counts::default(),
            lost: HashMap::new(),
            known: dwcheck::Registers::new(),
            threads: HashMap::new(),
            early: HashSet::new(),
            births: HashMap::new(),
            main: 0,
            end: None,
            is_let_go: false,
            notes: Vec::new(),
        }
    }
}

impl Tracer<'_, '_> {
    /// Runs a program with its arguments to its end, which is returned. The first of `words` is the
    /// program.
    ///
    /// # Errors
    ///
    /// If the program can't be started or traced. Then nothing of it has run.
    pub fn run(&mut self, words: &[OsString]) -> Result<End, TraceError> {
        self.main = start_program(words)?;
        let alarm = Alarm::install(Asked::Passed);
        self.begin_program()?;
        // Reading the tables of the program and of ld.so, before it runs, may take long.
        let begin = Instant::now();
        loop {
            if let Some(signal) = alarm.take() {
                ptrace::send(self.main, signal);
            }
            if self.options.time.map_or(false, |time| begin.elapsed() >= time) {
                self.release_all();
                self.options.time = None;
            }
            match ptrace::wait() {
                Ok((tid, report)) => self.handle_report(tid, report),
                Err(Errno::EINTR) => {}
                Err(_) => break,
            }
            if self.end.is_some() {
                break;
            }
        }
        self.release_all();
        self.counts.time = begin.elapsed();
        Ok(self.end.unwrap_or(End::Released))
    }

    /// Begins with a program that was started. It is refused before it runs if it can't be traced.
    fn begin_program(&mut self) -> Result<(), TraceError> {
        loop {
            match ptrace::wait() {
                Ok((tid, Report::Exec)) if tid == self.main => break,
                Ok((tid, Report::Exited(_) | Report::Killed(_))) if tid == self.main => {
                    return Err(TraceError::NoProcess)
                }
                Ok((tid, Report::Signal(signal))) => ptrace::run(tid, signal),
                Ok((tid, _)) => ptrace::run(tid, 0),
                Err(Errno::EINTR) => {}
                Err(error) => return Err(TraceError::NotTraced(error)),
            }
        }
        if let Some(refusal) = why_not_traced(self.main) {
            ptrace::send(self.main, libc::SIGKILL);
            let _ = ptrace::wait();
            return Err(refusal);
        }
        self.counts.processes += 1;
        self.begin_memory(self.main);
        Ok(())
    }

    /// Handles what a thread reports.
    pub(super) fn handle_report(&mut self, tid: Tid, report: Report) {
        match report {
            Report::Exited(status) => return self.thread_ended(tid, End::Exited(status)),
            Report::Killed(signal) => return self.thread_ended(tid, End::Killed(signal)),
            Report::Exec => return self.process_executed(tid),
            _ => {}
        }
        let mut thread = match self.threads.remove(&tid) {
            Some(thread) => thread,
            None if self.is_let_go => return self.let_go_late(tid, report),
            None => return self.stopped_first(tid),
        };
        if report == Report::Stop && thread.batch.is_some() {
            // Nothing is wanted of it. The trap that ends the batch may be waiting.
            ptrace::run(tid, 0);
            self.threads.insert(tid, thread);
            return;
        }
        thread.is_stopped = true;
        if report != Report::Signal(libc::SIGTRAP) {
            self.batch_interrupted(&mut thread);
        }
        if let Some(signal) = self.signal_after(&mut thread, report) {
            self.resume_thread(&mut thread, signal);
        }
        self.threads.insert(tid, thread);
    }

    /// Handles what a stopped thread reports. Returns the signal with which it goes on, 0 if none. `None` if it stays
    /// stopped.
    fn signal_after(&mut self, thread: &mut Thread, report: Report) -> Option<i32> {
        match report {
            Report::Signal(libc::SIGTRAP) => self.thread_trapped(thread),
            Report::Signal(signal) => Some(signal),
            Report::Created(creation) => {
                self.thread_created(thread, creation);
                Some(0)
            }
            Report::VforkDone => {
                thread.space.borrow_mut().put_back_breakpoints();
                Some(0)
            }
            Report::GroupStop => {
                ptrace::listen(thread.tid);
                thread.is_stopped = false;
                None
            }
            _ => Some(0),
        }
    }

    /// A thread stopped for another reason than a trap. If it ran a batch, this ends that.
    fn batch_interrupted(&mut self, thread: &mut Thread) {
        let batch = match thread.batch.take() {
            Some(batch) => batch,
            None => return,
        };
        let space = Rc::clone(&thread.space);
        batch.lift(&space.borrow());
        if let Ok(registers) = ptrace::registers(thread.tid) {
            self.batch_arrived(thread, &mut space.borrow_mut(), &batch, &registers);
        }
    }

    /// A thread that ran a batch got the signal of a trap. Returns the signal that it gets, 0 if none.
    fn batch_trapped(&mut self, thread: &mut Thread, space: &mut Space, batch: &Batch, registers: Registers) -> i32 {
        batch.lift(space);
        let at_breakpoint = registers.program_counter().wrapping_sub(1);
        let code = ptrace::signal_code(thread.tid).unwrap_or(BY_KERNEL);
        // A thread comes to where no instruction of the batch is only by a trap, also if the signal of the trap was
        // dropped, because the same signal was sent to the thread just before.
        let has_trapped = batch.has_trap_at(at_breakpoint) && !batch.has(registers.program_counter());
        // Another thread may have set a breakpoint in the code meanwhile.
        let is_trap = batch.has_trap_at(at_breakpoint) || space.breakpoints.is_known(at_breakpoint);
        let is_rewound = has_trapped || code == BY_KERNEL && is_trap;
        let registers = if is_rewound { registers.at(at_breakpoint) } else { registers };
        if is_rewound {
            ptrace::set_program_counter(thread.tid, at_breakpoint);
        }
        self.batch_arrived(thread, space, batch, &registers);
        let is_own = code <= 0 || code == BY_KERNEL && !is_rewound;
        if is_own {
            libc::SIGTRAP
        } else {
            0
        }
    }

    /// A thread got the signal of a trap. Returns the signal that it gets, 0 if none; `None` if it ended.
    fn thread_trapped(&mut self, thread: &mut Thread) -> Option<i32> {
        let registers = ptrace::registers(thread.tid).ok()?;
        let space = Rc::clone(&thread.space);
        let mut space = space.borrow_mut();
        // The thread by which the memory was known may have ended.
        space.pid = thread.tid;
        match thread.batch.take() {
            Some(batch) => Some(self.batch_trapped(thread, &mut space, &batch, registers)),
            None => self.stepping_trapped(thread, &mut space, registers),
        }
    }

    /// A thread that made a step, or runs, got the signal of a trap, and has these registers.
    fn stepping_trapped(&mut self, thread: &mut Thread, space: &mut Space, registers: Registers) -> Option<i32> {
        let address = thread.program_counter();
        // Traps that are the program's own, and system calls by which it sends itself the signal.
        let is_own_trap = matches!(thread.here.effect, Effect::Stop | Effect::Padding | Effect::System { .. });
        let is_same = registers.program_counter() == address;
        // Another thread may have put the breakpoint back before the instruction was executed.
        let is_at_breakpoint =
            registers.program_counter() == address.wrapping_add(1) && space.breakpoints.is_known(address);
        let may_be_other = thread.mode == Mode::Running || is_same || is_own_trap || is_at_breakpoint;
        let code = if may_be_other { ptrace::signal_code(thread.tid).ok()? } else { 0 };
        if thread.mode != Mode::Running && is_at_breakpoint && code == BY_KERNEL {
            ptrace::set_program_counter(thread.tid, address);
            return Some(0);
        }
        if thread.mode == Mode::Running || code == BY_KERNEL {
            return Some(self.trapped_running(thread, space, registers, code));
        }
        if code == HARDWARE && is_same {
            // An old breakpoint of the processor. Nothing was executed.
            return Some(0);
        }
        // What a process sends isn't a step, but the kernel gives one signal for both.
        let sent = if may_be_other && code <= 0 { libc::SIGTRAP } else { 0 };
        if sent != 0 && is_same {
            return Some(sent);
        }
        if let Some(address) = thread.lifted.take() {
            space.lower_breakpoint(address);
        }
        match thread.mode {
            Mode::Passing => {
                thread.registers = registers;
                thread.mode = Mode::Running;
            }
            _ => self.thread_stepped(thread, space, &registers),
        }
        Some(sent)
    }

    /// A thread that runs got the signal of a trap. Returns the signal that it gets, 0 if none.
    fn trapped_running(&mut self, thread: &mut Thread, space: &mut Space, registers: Registers, code: i32) -> i32 {
        let address = registers.program_counter().wrapping_sub(1);
        let breakpoint = space.breakpoints.at(address);
        let mut byte = [0];
        // Another thread may have had the breakpoint taken out meanwhile.
        let is_gone = space.read(address, &mut byte) && byte != [TRAP];
        if code != BY_KERNEL || breakpoint.is_none() && !is_gone {
            thread.registers = registers;
            return libc::SIGTRAP;
        }
        thread.registers = registers.at(address);
        ptrace::set_program_counter(thread.tid, address);
        if let Some(breakpoint) = breakpoint {
            self.breakpoint_hit(thread, space, breakpoint);
        }
        0
    }

    /// A thread made another thread or process.
    fn thread_created(&mut self, thread: &Thread, creation: Creation) {
        let tid = match ptrace::event_message(thread.tid) {
            Ok(tid) => tid,
            Err(_) => return,
        };
        let space = Rc::clone(&thread.space);
        let shares = shares_memory(thread, creation);
        let birth = match (shares, creation, self.options.follows_forks) {
            (true, Creation::Vfork, false) => {
                space.borrow_mut().take_out_breakpoints();
                Birth::Borrower
            }
            (true, ..) => Birth::Thread(space),
            (false, _, follows) => match space.borrow().forked(tid) {
                Ok(copy) if follows => Birth::Copy(copy),
                Ok(copy) => Birth::LetGo(copy),
                // It ended.
                Err(_) => return,
            },
        };
        if self.early.remove(&tid) {
            self.new_thread_stopped(tid, birth);
        } else {
            self.births.insert(tid, birth);
        }
    }

    /// A thread that isn't known stopped.
    fn stopped_first(&mut self, tid: Tid) {
        match self.births.remove(&tid) {
            Some(birth) => self.new_thread_stopped(tid, birth),
            None => {
                self.early.insert(tid);
            }
        }
    }

    /// A thread or a process that was made has stopped for the first time.
    fn new_thread_stopped(&mut self, tid: Tid, birth: Birth) {
        let space = match birth {
            Birth::Borrower => return ptrace::detach(tid, 0),
            Birth::LetGo(mut copy) => {
                copy.clear_breakpoints();
                return ptrace::detach(tid, 0);
            }
            Birth::Thread(space) => {
                self.counts.threads += 1;
                space
            }
            Birth::Copy(mut copy) => {
                copy.adopt_breakpoints();
                self.counts.processes += 1;
                Rc::new(RefCell::new(copy))
            }
        };
        let mut thread = Thread::new(tid, space);
        self.set_out_to_trace(&mut thread);
        self.resume_thread(&mut thread, 0);
        self.threads.insert(tid, thread);
    }

    /// Sets out to trace a thread of which nothing is known.
    fn set_out_to_trace(&mut self, thread: &mut Thread) {
        if let Ok(registers) = ptrace::registers(thread.tid) {
            thread.registers = registers;
        }
        if self.options.all {
            let space = Rc::clone(&thread.space);
            thread.mode = Mode::Stepping;
            thread.here = self.instruction_at(&mut space.borrow_mut(), thread.program_counter());
        }
    }

    /// A process runs another program.
    fn process_executed(&mut self, tid: Tid) {
        // Its other threads are gone, and so is the id of the one that asked for it.
        let former = ptrace::event_message(tid).unwrap_or(tid);
        let old = self.threads.get(&former).map(|thread| Rc::clone(&thread.space));
        let is_of_process = |thread: &Thread| {
            let is_near = old.as_ref().map_or(false, |space| Rc::ptr_eq(space, &thread.space));
            is_near && thread.tid != tid && !is_thread_of_other(thread.tid, tid)
        };
        self.threads.retain(|_, thread| !is_of_process(thread));
        self.threads.remove(&former);
        self.threads.remove(&tid);
        self.births.remove(&tid);
        let is_wanted = tid == self.main || self.options.follows_forks;
        match why_not_traced(tid).filter(|_| is_wanted) {
            None if is_wanted => {
                self.counts.programs += 1;
                self.begin_memory(tid);
            }
            refusal => {
                self.notes.extend(refusal.map(|refusal| format!("process {}: {}", tid, refusal)));
                ptrace::detach(tid, 0);
            }
        }
    }

    /// Begins with a process that has just got another program.
    fn begin_memory(&mut self, tid: Tid) {
        let mut space = match Space::of(tid) {
            Ok(space) => space,
            Err(_) => return ptrace::detach(tid, 0),
        };
        self.plant_in_loaded_code(&mut space);
        let mut thread = Thread::new(tid, Rc::new(RefCell::new(space)));
        self.set_out_to_trace(&mut thread);
        self.resume_thread(&mut thread, 0);
        self.threads.insert(tid, thread);
    }

    /// Lets a thread go on. It gets the signal, if that isn't 0.
    fn resume_thread(&mut self, thread: &mut Thread, signal: i32) {
        thread.got_signal = signal != 0 && thread.mode == Mode::Stepping;
        thread.is_stopped = false;
        let is_quick =
            thread.mode == Mode::Stepping && signal == 0 && (self.pass_call(thread) || self.begins_batch(thread));
        if thread.mode != Mode::Stepping {
            thread.hardware.clear_hardware_breakpoints(thread.tid);
        }
        if thread.mode == Mode::Running || is_quick {
            thread.end_steps();
            ptrace::run(thread.tid, signal);
            return;
        }
        let address = thread.program_counter();
        if thread.space.borrow_mut().lift_breakpoint(address) {
            thread.lifted = Some(address);
        }
        let space = Rc::clone(&thread.space);
        thread.step(&space.borrow(), signal);
    }

    fn thread_ended(&mut self, tid: Tid, end: End) {
        if let Some(Thread { lifted: Some(address), space, .. }) = self.threads.remove(&tid) {
            space.borrow_mut().lower_breakpoint(address);
        }
        self.early.remove(&tid);
        self.births.remove(&tid);
        if tid == self.main {
            self.end = Some(end);
        }
    }
}

/// Whether what a thread makes uses its memory, by the arguments of the system call.
fn shares_memory(thread: &Thread, creation: Creation) -> bool {
    let flags = match ptrace::system_call(thread.tid) {
        Ok((number, flags, _)) if number == libc::SYS_clone as u64 => flags,
        Ok((number, arguments, _)) if number == libc::SYS_clone3 as u64 => {
            thread.space.borrow().word(arguments).unwrap_or(0)
        }
        _ => return creation == Creation::Vfork,
    };
    flags & libc::CLONE_VM as u64 != 0
}

/// Whether a thread isn't one of a process.
fn is_thread_of_other(tid: Tid, process: Tid) -> bool {
    std::path::Path::new(&format!("/proc/{}/task/{}", tid, tid)).exists()
        && !std::path::Path::new(&format!("/proc/{}/task/{}", process, tid)).exists()
}

/// Why the program of a process isn't traced.
pub(super) fn why_not_traced(pid: Tid) -> Option<TraceError> {
    let link = format!("/proc/{}/exe", pid);
    let name = || std::fs::read_link(&link).map_or_else(|_| link.clone(), |path| path.display().to_string());
    let machine = Process::read(pid as u32).and_then(|process| process.machine());
    if !machine.map_or(false, |(_, abi)| abi.machine == object::elf::EM_X86_64) {
        return Some(TraceError::Machine(name()));
    }
    let is_root = nix::unistd::geteuid().is_root();
    let mode = std::fs::metadata(&link).map_or(0, |metadata| metadata.mode());
    (mode & PRIVILEGED != 0 && !is_root).then(|| TraceError::Privileged(name()))
}
