//! The threads that are traced: what each does, and its shadow stack.

use super::batch::Batch;
use super::batch_ends::Hardware;
use super::judge::Below;
use super::ptrace::{self, Tid};
use super::registers::Registers;
use super::shadow::{FdeId, Shadow};
use super::space::Space;
use dwcheck_lint::instruction::Effect;
use std::cell::RefCell;
use std::rc::Rc;

/// How a thread goes on.
#[derive(Clone, Copy, Debug, PartialEq, Eq)]
pub(super) enum Mode {
    /// At full speed, up to a breakpoint.
    Running,
    /// Step by step.
    Stepping,
    /// Over one instruction with a breakpoint, and then at full speed.
    Passing,
}

/// A thread that is traced.
#[derive(Debug)]
pub(super) struct Thread {
    pub tid: Tid,
    pub space: Rc<RefCell<Space>>,
    pub mode: Mode,
    /// Its registers when it stopped last.
    pub registers: Registers,
    pub here: Here,
    /// The instruction that it executed before.
    pub before: Here,
    pub shadow: Shadow,
    /// The address of a breakpoint that is out of the code, so that the thread can pass it.
    pub lifted: Option<u64>,
    /// Whether the row of the instruction before which it is was judged, and is right.
    pub is_right: bool,
    /// The memory below the CFA there.
    pub below: Option<Below>,
    /// The batch that it runs.
    pub batch: Option<Batch>,
    pub hardware: Hardware,
    /// Whether it stepped over an instruction that pops the flags. The kernel then takes the flag of stepping for the
    /// program's own, and leaves it set when the thread runs.
    pub popped_flags: bool,
    /// Whether it was given a signal when it went on.
    pub got_signal: bool,
    /// Whether it is stopped.
    pub is_stopped: bool,
}

/// The instruction before which a thread is.
#[derive(Clone, Copy, Debug)]
pub(super) struct Here {
    /// Its index among the instructions that were stepped.
    pub site: usize,
    /// Its address in its file.
    pub address: u64,
    /// The address of the next one in its file.
    pub next: u64,
    pub effect: Effect,
    pub fde: Option<FdeId>,
}

impl Here {
    pub const NOWHERE: Here = Here { site: 0, address: 0, next: 0, effect: Effect::Nothing, fde: None };
}

impl Thread {
    /// A thread of which nothing is known yet.
    pub fn new(tid: Tid, space: Rc<RefCell<Space>>) -> Thread {
        Thread {
            tid,
            space,
            mode: Mode::Running,
            registers: Registers::default(),
            here: Here::NOWHERE,
            before: Here::NOWHERE,
            shadow: Shadow::default(),
            lifted: None,
            is_right: false,
            below: None,
            batch: None,
            hardware: Hardware::default(),
            popped_flags: false,
            got_signal: false,
            is_stopped: false,
        }
    }

    /// Lets it make a step. It gets the signal, if that isn't 0.
    pub fn step(&mut self, space: &Space, signal: i32) {
        if self.here.effect == Effect::PopFlags {
            let has_flag = space.word(self.stack_pointer()).map_or(false, |flags| flags & ptrace::TRAP_FLAG != 0);
            self.popped_flags |= !has_flag;
        }
        ptrace::step(self.tid, signal);
    }

    /// Takes the flag of stepping away that the kernel would leave set. To be called before the thread runs.
    pub fn end_steps(&mut self) {
        if std::mem::take(&mut self.popped_flags) {
            ptrace::clear_trap_flag(self.tid);
        }
    }

    /// The address of the next instruction.
    pub fn program_counter(&self) -> u64 {
        self.registers.program_counter()
    }

    /// The stack pointer.
    pub fn stack_pointer(&self) -> u64 {
        self.registers.stack_pointer()
    }
}
