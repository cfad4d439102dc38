//! Samples: where a thread was when an event was counted, with its registers and a copy of its stack.

use super::event::{branch, part, Event, Events};
use super::RecordHead;
use dwcheck_types::cursor::{Cursor, ReadError};
use dwcheck_types::target::Target;

/// The bits of `read_format`.
mod format {
    pub const ENABLED: u64 = 1 << 0;
    pub const RUNNING: u64 = 1 << 1;
    pub const ID: u64 = 1 << 2;
    pub const GROUP: u64 = 1 << 3;
    pub const LOST: u64 = 1 << 4;
}

/// What the processor did.
#[derive(Clone, Copy, Debug, PartialEq, Eq)]
pub enum Mode {
    /// It ran the kernel.
    Kernel,
    /// It ran the program.
    User,
    /// It ran something else, such as a hypervisor or a guest.
    Other,
}

/// Words of 8 bytes of a record.
#[derive(Clone, Copy, Debug)]
pub struct Words<'a> {
    bytes: &'a [u8],
    target: Target,
}

impl<'a> Words<'a> {
    fn take(cursor: &mut Cursor<'a>, count: u64) -> Result<Words<'a>, ReadError> {
        let bytes = cursor.take(count.checked_mul(8).ok_or(ReadError::Truncated)?)?;
        Ok(Words { bytes, target: cursor.target() })
    }

    fn none(target: Target) -> Words<'a> {
        Words { bytes: &[], target }
    }

    /// The words.
    pub fn iter(self) -> impl Iterator<Item = u64> + 'a {
        self.bytes.chunks_exact(8).map(move |word| self.target.number(word))
    }
}

/// Registers of a task when it entered the kernel.
#[derive(Clone, Copy, Debug)]
pub struct TaskRegisters<'a> {
    /// Whether it is a task with addresses of 4 bytes.
    pub is_32_bit: bool,
    mask: u64,
    words: Words<'a>,
}

impl<'a> TaskRegisters<'a> {
    /// Whether a register is among them.
    pub fn has(self, number: u32) -> bool {
        self.mask >> number & 1 != 0
    }

    /// The registers by perf's numbers, ascending.
    pub fn iter(self) -> impl Iterator<Item = (u32, u64)> + 'a {
        (0..64).filter(move |number| self.mask >> number & 1 != 0).zip(self.words.iter())
    }
}

/// A sample.
#[derive(Clone, Debug)]
pub struct Sample<'a> {
    /// The index of the event.
    pub event: usize,
    /// What the processor did.
    pub mode: Mode,
    /// The instruction pointer.
    pub address: Option<u64>,
    /// The process.
    pub pid: u32,
    /// The thread.
    pub tid: u32,
    /// When it was recorded, in nanoseconds. `None` if the recording has no times.
    pub time: Option<u64>,
    /// The processor.
    pub cpu: Option<u32>,
    /// How much was counted since the sample before. `None` if it isn't recorded.
    pub period: Option<u64>,
    /// Counts of a group of events: the id of each, and its count.
    pub counts: Vec<(u64, u64)>,
    /// The addresses of frames that the kernel found, the innermost first, with marks between those
    /// of the kernel and of the task.
    pub chain: Words<'a>,
    /// The calls that the processor remembers, the last one first: for each from where, to where,
    /// and flags. Empty if branches of other kinds were recorded.
    pub calls: Words<'a>,
    /// The registers of the task. `None` if the sample doesn't have them, as for a thread of the kernel.
    pub registers: Option<TaskRegisters<'a>>,
    /// The task's stack, from the stack pointer on.
    pub stack: &'a [u8],
}

impl<'a> Sample<'a> {
    /// Reads the parts of a sample that its event has.
    pub(super) fn read(head: RecordHead, mut body: Cursor<'a>, events: &Events) -> Result<Sample<'a>, ReadError> {
        let place = events.of_sample(body.clone())?;
        let event = events.all().get(place).ok_or(ReadError::Truncated)?;
        let none = Words::none(body.target());
        let mut sample = Sample {
            event: place,
            mode: mode_of_sample(head.misc),
            address: None,
            pid: 0,
            tid: 0,
            time: None,
            cpu: None,
            period: None,
            counts: Vec::new(),
            chain: none,
            calls: none,
            registers: None,
            stack: &[],
        };
        sample.read_numbers(&mut body, event)?;
        sample.read_lists(&mut body, event)?;
        sample.read_task(&mut body, event)?;
        Ok(sample)
    }

    /// The event, the place, the thread, the time, the processor and the period.
    fn read_numbers(&mut self, body: &mut Cursor<'a>, event: &Event) -> Result<(), ReadError> {
        let mut word = |part: u64| if event.has(part) { body.number(8).map(Some) } else { Ok(None) };
        word(part::IDENTIFIER)?;
        self.address = word(part::IP)?;
        let halves = |word: u64, target: Target| {
            let mut bytes = Vec::with_capacity(8);
            target.push(&mut bytes, word, 8);
            (target.number(&bytes[..4]) as u32, target.number(&bytes[4..]) as u32)
        };
        let task = word(part::TID)?;
        self.time = word(part::TIME)?;
        word(part::ADDR)?;
        word(part::ID)?;
        word(part::STREAM_ID)?;
        let cpu = word(part::CPU)?;
        self.period = word(part::PERIOD)?;
        let target = body.target();
        if let Some(task) = task {
            (self.pid, self.tid) = halves(task, target);
        }
        self.cpu = cpu.map(|cpu| halves(cpu, target).0);
        Ok(())
    }

    /// The counts of a group, the chain, raw data, and branches.
    fn read_lists(&mut self, body: &mut Cursor<'a>, event: &Event) -> Result<(), ReadError> {
        if event.has(part::READ) {
            self.counts = group_counts(body, event.read_format)?;
        }
        if event.has(part::CALLCHAIN) {
            let count = body.number(8)?;
            self.chain = Words::take(body, count)?;
        }
        if event.has(part::RAW) {
            let size = body.number(4)?;
            body.take(size)?;
        }
        if event.has(part::BRANCH_STACK) {
            let count = body.number(8)?;
            if event.branch_type & branch::HW_INDEX != 0 {
                body.take(8)?;
            }
            let branches = Words::take(body, count.checked_mul(3).ok_or(ReadError::Truncated)?)?;
            if event.branch_type & branch::CALL_STACK != 0 {
                self.calls = branches;
            }
        }
        Ok(())
    }

    /// The registers and the stack of the task.
    fn read_task(&mut self, body: &mut Cursor<'a>, event: &Event) -> Result<(), ReadError> {
        const ABI_NONE: u64 = 0;
        const ABI_32: u64 = 1;
        if event.has(part::REGS_USER) {
            let abi = body.number(8)?;
            if abi != ABI_NONE {
                let words = Words::take(body, u64::from(event.registers.count_ones()))?;
                self.registers = Some(TaskRegisters { is_32_bit: abi == ABI_32, mask: event.registers, words });
            }
        }
        if event.has(part::STACK_USER) {
            let size = body.number(8)?;
            if size > 0 {
                let copied = body.take(size)?;
                let valid = usize::try_from(body.number(8)?).unwrap_or(usize::MAX);
                self.stack = copied.get(..valid).unwrap_or(copied);
            }
        }
        Ok(())
    }
}

fn mode_of_sample(misc: u16) -> Mode {
    match misc & 7 {
        1 => Mode::Kernel,
        2 => Mode::User,
        _ => Mode::Other,
    }
}

/// The counts that a sample has: only those of a group, which are samples of its other events too.
fn group_counts(body: &mut Cursor<'_>, read_format: u64) -> Result<Vec<(u64, u64)>, ReadError> {
    let has = |bit: u64| read_format & bit != 0;
    let times = u64::from(has(format::ENABLED)) + u64::from(has(format::RUNNING));
    let beside = u64::from(has(format::ID)) + u64::from(has(format::LOST));
    if !has(format::GROUP) {
        body.take(8 * (1 + times + beside))?;
        return Ok(Vec::new());
    }
    let count = body.number(8)?;
    body.take(8 * times)?;
    let width = 1 + beside;
    let words = Words::take(body, count.checked_mul(width).ok_or(ReadError::Truncated)?)?;
    let words: Vec<u64> = words.iter().collect();
    let groups = words.chunks_exact(width as usize).filter(|_| has(format::ID));
    Ok(groups.map(|group| (group[1], group[0])).collect())
}

/// The time of a sample.
pub(super) fn time_of_sample(mut body: Cursor<'_>, events: &Events) -> Option<u64> {
    let event = events.all().get(events.of_sample(body.clone()).ok()?)?;
    let before = [part::IDENTIFIER, part::IP, part::TID].into_iter().filter(|part| event.has(*part)).count();
    body.take(8 * before as u64).ok().filter(|_| event.has(part::TIME))?;
    body.number(8).ok()
}
