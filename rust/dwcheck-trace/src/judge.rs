//! Compares a row with what is true of a frame, by unwinding it: the verdict, and memory below the CFA.

use super::registers::{Registers, CALLEE_SAVED, COUNT, SAVED_COUNT};
use super::rules::Rule;
use super::shadow::{Frame, Origin};
use super::site::{Judged, Locations, SavedAt, Wrong};
use super::space::Space;
use super::thread::{Mode, Thread};
use super::tracer::Tracer;
use dwcheck::{Abi, Block, Cursor, Error, Process, State};
use dwcheck_lint::judge::{Facts, Verdict, WrongCfa, WrongRule};
use std::ops::Range;

/// How many bytes below the CFA are read at once. Most functions save their registers there.
const READ_AT_ONCE: usize = 128;

/// How many bytes of a frame are searched for the values of registers.
const SEARCHED: u64 = 4096;

/// The bytes below the stack pointer that a function may use.
const RED_ZONE: u64 = 128;

/// A CFA that is farther off than this isn't off by a number: the register by which it is found has something else.
const FARTHEST_OFF: i64 = 1 << 20;

/// How often it is looked where the values are, if something is wrong at an instruction.
const MOST_LOOKS: u64 = 16;

/// How often the stack is walked from an instruction at which something is wrong.
const MOST_WALKS: u64 = 3;

/// What `dwcheck` computes by a row.
#[derive(Clone, Copy, Debug, Default, PartialEq, Eq)]
pub(super) struct Unwound {
    pub cfa: Option<u64>,
    /// `None` if the caller isn't known.
    pub caller: Option<Caller>,
}

/// The caller of a frame.
#[derive(Clone, Copy, Debug, PartialEq, Eq)]
pub(super) struct Caller {
    pub return_address: u64,
    pub callee_saved: [Option<u64>; SAVED_COUNT],
    /// All its registers, as far as they are known.
    pub registers: [Option<u64>; COUNT],
}

/// The memory below a frame's CFA, as it was when its thread stopped.
#[derive(Clone, Copy, Debug)]
pub(super) struct Below {
    cfa: u64,
    bytes: [u8; READ_AT_ONCE],
}

impl Below {
    /// Reads it. `None` if a part of it can't be read.
    pub fn read(space: &Space, cfa: u64) -> Option<Below> {
        let mut below = Below { cfa, bytes: [0; READ_AT_ONCE] };
        space.read(below.begin(), &mut below.bytes).then_some(below)
    }

    /// Whether it is below this address.
    pub fn is_of(&self, cfa: u64) -> bool {
        self.cfa == cfa
    }

    /// Where the return address of a function that was called is.
    pub fn slot(&self) -> u64 {
        self.cfa.wrapping_sub(8)
    }

    /// The eight bytes at an address, as a number. `None` if they aren't in it.
    pub fn word(&self, address: u64) -> Option<u64> {
        let bytes = self.bytes.get(self.range(address))?;
        Some(u64::from_le_bytes(bytes.try_into().ok()?))
    }

    /// Sets the eight bytes at an address. `None` if they aren't in it.
    pub fn set_word(&mut self, address: u64, value: u64) -> Option<()> {
        let range = self.range(address);
        self.bytes.get_mut(range)?.copy_from_slice(&value.to_le_bytes());
        Some(())
    }

    fn range(&self, address: u64) -> Range<usize> {
        // An address that is farther away isn't in it either way.
        let begin = address.wrapping_sub(self.begin()).min(READ_AT_ONCE as u64) as usize;
        begin..begin + 8
    }

    fn begin(&self) -> u64 {
        self.cfa.wrapping_sub(READ_AT_ONCE as u64)
    }

    fn block(&self) -> Block<'_> {
        Block::new(self.begin(), &self.bytes)
    }
}

impl Unwound {
    /// What `dwcheck` computes by the row of an address in a file, whose frame has these registers.
    fn of(process: &Process, address: u64, known: &dwcheck::Registers, space: &Space) -> Result<Unwound, Error> {
        let state = State { registers: known, memory: &[], abi: Abi::X86_64 };
        let mut cursor = Cursor::new(address, &state)?;
        let frame = process.step_with(&mut cursor, &state, |address, bytes| space.read(address, bytes))?;
        Ok(Unwound::at(&cursor, frame))
    }

    /// The same, as far as it follows from this memory.
    fn by(process: &Process, address: u64, known: &dwcheck::Registers, memory: Block<'_>) -> Result<Unwound, Error> {
        let state = State { registers: known, memory: &[memory], abi: Abi::X86_64 };
        let mut cursor = Cursor::new(address, &state)?;
        let frame = process.step(&mut cursor, &state)?;
        Ok(Unwound::at(&cursor, frame))
    }

    fn at(cursor: &Cursor, frame: Option<dwcheck::Frame>) -> Unwound {
        let cfa = frame.and_then(|frame| frame.cfa()).and_then(|cfa| cfa.value());
        Unwound { cfa, caller: cursor.stop().is_none().then(|| Caller::of(cursor)) }
    }
}

impl Caller {
    fn of(cursor: &Cursor) -> Caller {
        let mut registers = [None; COUNT];
        (0..).zip(&mut registers).for_each(|(number, register)| *register = cursor.register(number));
        Caller {
            return_address: cursor.address(),
            callee_saved: CALLEE_SAVED.map(|number| cursor.register(number)),
            registers,
        }
    }
}

impl Tracer<'_, '_> {
    /// Judges the row of the instruction before which a thread is.
    pub(super) fn judge_row(&mut self, thread: &mut Thread, space: &mut Space) {
        self.counts.steps += 1;
        self.sites.at_mut(thread.here.site).visits += 1;
        thread.is_right = false;
        if !self.trusts_top_frame(thread) {
            return;
        }
        let frame = match thread.shadow.frames.last() {
            Some(frame) => frame,
            None => return,
        };
        let judged = match self.sites.at(thread.here.site).row {
            Ok(judged) if judged.is_signal == (frame.origin == Origin::Signal) => judged,
            Ok(_) => return self.counts.rules.add(Rule::SignalReturn),
            Err(rule) => return self.counts.rules.add(rule),
        };
        thread.below = Below::read(space, frame.cfa);
        let verdict = self.verdict_on(thread.here.site, judged, &thread.registers, frame, space, thread.below.as_ref());
        if !verdict.wrong.is_empty() && frame.origin != Origin::Signal {
            // What isn't where the call put it isn't known anymore.
            if space.word(frame.slot) != Some(frame.return_address) {
                thread.shadow.distrust();
                return self.counts.rules.add(Rule::MovedReturnAddress);
            }
        }
        if let Some(frame) = thread.shadow.frames.last_mut() {
            frame.wrong = verdict.wrong;
        }
        self.counts.add_judged(&verdict);
        self.sites.at_mut(thread.here.site).judged += 1;
        thread.is_right = verdict.wrong.is_empty();
        if !verdict.wrong.is_empty() {
            self.note_wrong(thread, space, verdict);
        }
    }

    /// Whether the caller's registers, by the row of the instruction before which a thread is, aren't those
    /// that the frame on top began with. Those that were wrong before the call don't count.
    pub(super) fn has_other_registers(&mut self, thread: &Thread, space: &Space) -> bool {
        let judged = self.sites.at(thread.here.site).row.ok().filter(|judged| !judged.is_signal);
        match (judged, thread.shadow.frames.last()) {
            (Some(judged), Some(frame)) => {
                let below = Below::read(space, frame.cfa);
                let registers = &thread.registers;
                let wrong = self.verdict_on(thread.here.site, judged, registers, frame, space, below.as_ref()).wrong;
                !wrong.registers().without(frame.wrong).is_empty()
            }
            _ => false,
        }
    }

    /// Counts an instruction that was executed, and whose row is right.
    pub(super) fn count_right(&mut self, site: usize) {
        self.counts.steps += 1;
        self.counts.add_judged(&Verdict::default());
        let site = self.sites.at_mut(site);
        site.visits += 1;
        site.judged += 1;
    }

    /// Compares the row of an instruction, where a thread has these registers, with a frame. What is known of
    /// the memory below its CFA is enough for most rows that are right.
    pub(super) fn verdict_on(
        &mut self,
        site: usize,
        judged: Judged,
        registers: &Registers,
        frame: &Frame,
        space: &Space,
        below: Option<&Below>,
    ) -> Verdict {
        let quick = below.map(|below| self.verdict_by(site, judged, registers, frame, below));
        quick.filter(|verdict| verdict.wrong.is_empty()).unwrap_or_else(|| {
            let unwound = self.unwind_in(site, judged, registers, space);
            verdict_on_unwound(judged, &unwound, frame)
        })
    }

    /// The same, as far as it follows from the memory below the CFA.
    pub(super) fn verdict_by(
        &mut self,
        site: usize,
        judged: Judged,
        registers: &Registers,
        frame: &Frame,
        below: &Below,
    ) -> Verdict {
        let unwound = self.unwind(site, judged, registers, |process, address, known| {
            Unwound::by(process, address, known, below.block())
        });
        verdict_on_unwound(judged, &unwound, frame)
    }

    /// What `dwcheck` computes by the row of an instruction, whose frame has these registers.
    fn unwind_in(&mut self, site: usize, judged: Judged, registers: &Registers, space: &Space) -> Unwound {
        self.unwind(site, judged, registers, |process, address, known| Unwound::of(process, address, known, space))
    }

    /// The same, by a function that is given the frame section, the address and the registers.
    fn unwind(
        &mut self,
        site: usize,
        judged: Judged,
        registers: &Registers,
        unwind: impl FnOnce(&Process, u64, &dwcheck::Registers) -> Result<Unwound, Error>,
    ) -> Unwound {
        let site = self.sites.at(site);
        let process = site.file.and_then(|file| self.files.at(file).process(judged.section));
        registers.iter().for_each(|(number, value)| self.known.set(number, value));
        process.and_then(|process| unwind(process, site.address, &self.known).ok()).unwrap_or_default()
    }

    /// Notes what is wrong at the instruction before which a thread is.
    fn note_wrong(&mut self, thread: &Thread, space: &mut Space, verdict: Verdict) {
        let count = self.sites.at(thread.here.site).wrong.as_ref().map_or(0, |wrong| wrong.count);
        let breaks_walk = verdict.wrong.has_frame() || count < MOST_WALKS && self.is_walk_broken(thread, space);
        let locations = if count < MOST_LOOKS { true_locations(thread, space, verdict) } else { None };
        let before = Some((thread.before.address, thread.before.effect))
            .filter(|_| thread.mode == Mode::Stepping && thread.before.next == thread.here.address);
        let wrong = &mut self.sites.at_mut(thread.here.site).wrong;
        match (wrong, locations) {
            (Some(wrong), locations) => wrong.add(verdict, breaks_walk, locations),
            (none, Some(locations)) => {
                *none = Some(Box::new(Wrong { count: 1, verdict, breaks_walk, before, locations }))
            }
            (None, None) => {}
        }
    }

    /// Whether a walk by rows, from the frame of a thread up to the last one that is known, finds
    /// another caller than the true one.
    fn is_walk_broken(&mut self, thread: &Thread, space: &mut Space) -> bool {
        let mut registers = thread.registers;
        let mut is_after_call = false;
        for frame in thread.shadow.frames.iter().rev() {
            let address = registers.program_counter().wrapping_sub(u64::from(is_after_call));
            let site = self.instruction_at(space, address).site;
            let judged = match self.sites.at(site).row {
                Ok(judged) if !frame.is_distrusted => judged,
                _ => return false,
            };
            let unwound = self.unwind_in(site, judged, &registers, space);
            let caller = match unwound.caller {
                Some(caller) if unwound.cfa == Some(frame.cfa) && caller.return_address == frame.return_address => {
                    caller
                }
                _ => return true,
            };
            if frame.origin == Origin::UnknownCall {
                return false;
            }
            is_after_call = frame.origin != Origin::Signal;
            registers = Registers::known(&caller.registers).at(caller.return_address);
        }
        false
    }
}

/// Compares what was computed with what is true. Registers are compared only where the CFA is right, because
/// their rules build on it.
fn verdict_on_unwound(judged: Judged, unwound: &Unwound, frame: &Frame) -> Verdict {
    let mut verdict = Verdict::default();
    if unwound.cfa != Some(frame.cfa) {
        verdict.wrong.add(Facts::CFA);
        let off = |cfa: u64| match cfa.wrapping_sub(frame.cfa) as i64 {
            off if (-FARTHEST_OFF..=FARTHEST_OFF).contains(&off) => WrongCfa::OffBy(off),
            _ => WrongCfa::Clobbered,
        };
        verdict.cfa = Some(unwound.cfa.map_or(WrongCfa::Dynamic, off));
        return verdict;
    }
    let caller = match unwound.caller {
        Some(caller) if caller.return_address == frame.return_address => caller,
        _ => {
            verdict.wrong.add(Facts::RETURN_ADDRESS);
            verdict.return_address = Some(WrongRule::Overwritten);
            return verdict;
        }
    };
    for (index, (value, callee_saved)) in caller.callee_saved.iter().zip(&frame.callee_saved).enumerate() {
        let wrong = match judged.callee_saved[index] {
            SavedAt::Unknown => continue,
            SavedAt::InPlace => WrongRule::Changed,
            SavedAt::Elsewhere => WrongRule::Elsewhere,
        };
        if *value != Some(*callee_saved) {
            verdict.wrong.add(Facts::callee_saved(index));
            verdict.rules[index] = Some(wrong);
        }
    }
    verdict
}

/// Where things are, of which some are wrong.
fn true_locations(thread: &Thread, space: &Space, verdict: Verdict) -> Option<Locations> {
    let frame = thread.shadow.frames.last()?;
    let mut distances = [None; 16];
    let all = distances.iter_mut().zip(thread.registers.iter());
    all.for_each(|(distance, (_, value))| *distance = Some(frame.cfa.wrapping_sub(value) as i64));
    let begin = thread.stack_pointer().saturating_sub(RED_ZONE).max(frame.cfa.saturating_sub(SEARCHED)) & !7;
    let mut bytes = vec![0; frame.cfa.saturating_sub(begin).min(SEARCHED) as usize & !7];
    if !space.read(begin, &mut bytes) {
        bytes.clear();
    }
    let words = bytes.chunks_exact(8).map(|word| u64::from_le_bytes(word.try_into().unwrap_or_default()));
    let slots: Vec<(i64, u64)> =
        (0..).map(|n| begin.wrapping_add(8 * n).wrapping_sub(frame.cfa) as i64).zip(words).collect();
    let (mut in_registers, mut in_slots) = <([Vec<u16>; SAVED_COUNT], [Vec<i64>; SAVED_COUNT])>::default();
    for (index, value) in
        frame.callee_saved.iter().enumerate().filter(|(index, _)| verdict.wrong.has(Facts::callee_saved(*index)))
    {
        let registers = thread.registers.iter().take(16).filter(|(_, found)| found == value);
        in_registers[index] = registers.map(|(number, _)| number).collect();
        in_slots[index] = slots.iter().filter(|(_, found)| found == value).map(|(offset, _)| *offset).collect();
    }
    Some(Locations { distances, in_registers, in_slots })
}

impl Wrong {
    /// Adds another time.
    fn add(&mut self, verdict: Verdict, breaks_walk: bool, locations: Option<Locations>) {
        self.count += 1;
        self.breaks_walk |= breaks_walk;
        self.verdict.wrong.add(verdict.wrong);
        self.verdict.cfa = match (self.verdict.cfa, verdict.cfa) {
            (Some(one), Some(other)) if one != other => Some(WrongCfa::Dynamic),
            (one, other) => one.or(other),
        };
        self.verdict.return_address = self.verdict.return_address.or(verdict.return_address);
        let rules = self.verdict.rules.iter_mut().zip(verdict.rules);
        rules.for_each(|(one, other)| *one = one.or(other));
        if let Some(locations) = locations {
            self.locations.keep_common(&locations);
        }
    }
}
