//! Batches: instructions that a thread runs at once, up to a breakpoint; which may be in one, and where it ends.
//!
//! A batch begins where a row was right. No row of it finds anything by a register that was written since in a way
//! that isn't followed, and none of its instructions enters the kernel. What pushes, pops and sums of the stack
//! pointer make of the registers and the stack is predicted. So the values that its rows say are known all along, and
//! each row was compared with them before the batch began; at its end, the row there is judged as after a step.
//! Jumps may branch: each way ends at a breakpoint of its own, and no two ways share an instruction, so the one where
//! the thread stops says which way it took.
//!
//! A way that comes to a call or a return ends after that, in another function. These change nothing but the stack
//! pointer, so the row there is judged by what the thread has when it has stopped, too.

use super::batch_ends::{Traps, MOST_ENDS};
use super::predicted::{Predicted, STACK};
use super::registers::Registers;
use super::shadow::Origin;
use super::site::{Judged, Site};
use super::space::Space;
use super::thread::Thread;
use super::tracer::Tracer;
use dwcheck_lint::instruction::{Effect, MemoryOperand, Target};
use dwcheck_lint::register::Registers as Set;
use std::collections::VecDeque;
use std::rc::Rc;

/// How many instructions a batch has at most.
const MOST_PLACES: usize = 64;

/// A batch shorter than this, in instructions, takes as long as steps.
const SHORTEST: usize = 2;

/// A return that takes nothing but the return address off the stack isn't longer than this, in bytes.
const PLAIN_RETURN: u8 = 2;

/// Instructions that a thread runs at once.
#[derive(Clone, Debug)]
pub(super) struct Batch {
    /// The first one is where it begins.
    points: Vec<Point>,
    /// What a thread has at them. The first one is where it begins.
    states: Vec<Predicted>,
    /// The traps in the code that end it. `None` if breakpoints of the processor do.
    traps: Option<Traps>,
}

/// An instruction of a batch.
#[derive(Clone, Copy, Debug)]
struct Point {
    /// Its index among all instructions, and its address.
    site: usize,
    address: u64,
    /// The one before it, by its index in the batch. 0 for the first one.
    before: usize,
    /// How many instructions are before it.
    depth: usize,
    /// The registers that are written up to here in a way that isn't followed.
    written: Set,
    /// What the thread has here, by its index in the batch.
    state: usize,
    /// Whether the batch ends here.
    is_end: bool,
}

/// How an instruction leads on in a batch: to none, one or two addresses, in the file.
type Ways = [Option<u64>; 2];

impl Batch {
    /// The addresses of the breakpoints that end it.
    pub fn ends(&self) -> impl Iterator<Item = u64> + Clone + '_ {
        self.points.iter().filter(|point| point.is_end).map(|point| point.address)
    }

    /// Takes its traps out of the code. It still knows where they were.
    pub fn lift(&self, space: &Space) {
        self.traps.iter().for_each(|traps| traps.lift_traps(space));
    }

    /// Whether one of its traps is at an address.
    pub fn has_trap_at(&self, address: u64) -> bool {
        self.traps.is_some() && self.point_at(address).map_or(false, |point| point.is_end)
    }

    /// Whether one of its instructions is at an address.
    pub fn has(&self, address: u64) -> bool {
        self.point_at(address).is_some()
    }

    fn point_at(&self, address: u64) -> Option<&Point> {
        self.points.iter().find(|point| point.address == address)
    }

    /// The instructions between the first one and this one, the last one first.
    fn between<'a>(&'a self, point: &'a Point) -> impl Iterator<Item = &'a Point> {
        let before = move |point: &&'a Point| self.points.get(point.before).filter(|before| before.depth > 0);
        std::iter::successors(before(&point), before)
    }

    /// Whether it is worth its breakpoints.
    fn is_long(&self) -> bool {
        let ends = || self.points.iter().filter(|point| point.is_end);
        ends().map(|end| end.depth).sum::<usize>() >= SHORTEST * ends().count().max(1)
    }
}

impl Tracer<'_, '_> {
    /// Whether a thread that is stepped runs a batch next.
    pub(super) fn begins_batch(&mut self, thread: &mut Thread) -> bool {
        // A trap would stop other threads, too.
        let is_alone = Rc::strong_count(&thread.space) == 1;
        let space = Rc::clone(&thread.space);
        let mut space = space.borrow_mut();
        thread.batch = self.batch_at(thread, &mut space).and_then(|mut batch| {
            batch.traps = if is_alone { Traps::set_traps(&space, batch.ends()) } else { None };
            let is_set = batch.traps.is_some() || thread.hardware.set_hardware_breakpoints(thread.tid, batch.ends());
            is_set.then_some(batch)
        });
        thread.batch.is_some()
    }

    /// The batch that begins where a thread is. `None` if it isn't worth it.
    fn batch_at(&mut self, thread: &Thread, space: &mut Space) -> Option<Batch> {
        let (address, site) = (thread.program_counter(), thread.here.site);
        if !thread.is_right || space.breakpoints.at(address).is_some() {
            return None;
        }
        self.sites.at(site).row.ok()?.reads?;
        let cfa = thread.shadow.frames.last()?.cfa;
        let below = thread.below.filter(|below| below.is_of(cfa));
        let begin = Point { site, address, before: 0, depth: 0, written: Set::NONE, state: 0, is_end: false };
        let states = vec![Predicted { registers: thread.registers, below }];
        let mut batch = Batch { points: vec![begin], states, traps: None };
        let (mut open, mut ends) = (VecDeque::from([0]), 1);
        while let Some(index) = open.pop_front() {
            let next = match self.way_across(thread, space, &batch, index) {
                Some(point) => vec![point],
                None => self.next_points_of_batch(thread, space, &mut batch, index),
            };
            let added = next.len().saturating_sub(1);
            if next.is_empty() || ends + added > MOST_ENDS || batch.points.len() + next.len() > MOST_PLACES {
                batch.points[index].is_end = true;
                continue;
            }
            ends += added;
            for point in next {
                if !point.is_end {
                    open.push_back(batch.points.len());
                }
                batch.points.push(point);
            }
        }
        Some(batch).filter(Batch::is_long)
    }

    /// Where a call of a function that is stepped, or a return, leads: a batch ends there. `None` if that isn't known
    /// before, or if it isn't code of a file.
    fn way_across(&mut self, thread: &Thread, space: &mut Space, batch: &Batch, index: usize) -> Option<Point> {
        let from = batch.points[index];
        let (site, state) = (self.sites.at(from.site), &batch.states[from.state]);
        let address = match site.effect {
            Effect::Call { target: Target::Code(callee) } => {
                let callee = callee.wrapping_add(from.address.wrapping_sub(site.address));
                Some(callee).filter(|callee| self.options.all || !self.is_done_from(space, *callee))?
            }
            Effect::Return { .. } if site.length <= PLAIN_RETURN => predicted_return(thread, state)?,
            _ => return None,
        };
        let site = self.instruction_at(space, address).site;
        let is_new = self.sites.at(site).file.is_some() && batch.point_at(address).is_none();
        is_new.then_some(Point { site, address, before: index, depth: from.depth + 1, is_end: true, ..from })
    }

    /// Where an instruction leads, if it may be in a batch.
    fn ways_of_instruction(&self, thread: &Thread, batch: &Batch, point: &Point) -> Ways {
        let site = self.sites.at(point.site);
        let next = site.address.wrapping_add(u64::from(site.length));
        match site.effect {
            Effect::Jump { target: Target::Code(target) } => [Some(target), None],
            Effect::JumpIf { target, .. } => [Some(next), Some(target)],
            effect if !only_goes_on(&effect, site.length) || effect.written().contains(STACK) => [None, None],
            _ if may_overwrite_saved(thread, point, site, &batch.states[point.state]) => [None, None],
            _ => [Some(next), None],
        }
    }

    /// The instructions to which one leads, as places of a batch. Empty if the batch can't go on there.
    fn next_points_of_batch(
        &mut self,
        thread: &Thread,
        space: &mut Space,
        batch: &mut Batch,
        index: usize,
    ) -> Vec<Point> {
        let from = batch.points[index];
        let site = self.sites.at(from.site);
        let (bias, fde, effect) = (from.address.wrapping_sub(site.address), site.fde, site.effect);
        let after = site.address.wrapping_add(u64::from(site.length));
        let (ways, written, state) = match batch.states[from.state].after(&effect, from.written) {
            Some(predicted) => {
                batch.states.push(predicted);
                ([Some(after), None], from.written.without(effect.written()), batch.states.len() - 1)
            }
            None => (self.ways_of_instruction(thread, batch, &from), from.written.with(effect.written()), from.state),
        };
        let mut found = Vec::new();
        for linked in ways.into_iter().flatten() {
            let address = linked.wrapping_add(bias);
            let is_new =
                batch.point_at(address).is_none() && found.iter().all(|other: &Point| other.address != address);
            let range = fde.and_then(|(file, fde)| self.files.at(file).module.fdes.get(fde));
            if !is_new || !range.map_or(false, |range| range.contains(linked)) {
                return Vec::new();
            }
            let site = self.instruction_at(space, address).site;
            let point = Point { site, address, before: index, depth: from.depth + 1, written, state, is_end: true };
            let is_end = !self.goes_on_at(thread, space, batch, &point);
            found.push(Point { is_end, ..point });
        }
        found
    }

    /// Whether a batch may go on at an instruction: nothing has to be done there, and its row is right for what is
    /// known.
    fn goes_on_at(&mut self, thread: &Thread, space: &mut Space, batch: &Batch, point: &Point) -> bool {
        let from = &batch.points[point.before];
        let (before, site) = (self.sites.at(from.site), self.sites.at(point.site));
        let is_free = !site.is_entry && !site.is_load && site.fde == before.fde && site.wrong.is_none();
        let (judged, before) = match (site.row, before.row) {
            (Ok(judged), Ok(before)) if is_free && space.breakpoints.at(point.address).is_none() => (judged, before),
            _ => return false,
        };
        let unknown = |reads: Set| reads.both(point.written);
        let is_known = judged.reads.map_or(false, |reads| unknown(reads).is_empty());
        let is_same = judged.is_same_row(&before) && point.state == from.state;
        is_known && (is_same || self.is_right_at(thread, space, batch, point, judged))
    }

    /// Whether the row of an instruction is right for what a thread will have there.
    fn is_right_at(&mut self, thread: &Thread, space: &Space, batch: &Batch, point: &Point, judged: Judged) -> bool {
        let (frame, state) = match thread.shadow.frames.last() {
            Some(frame) => (frame, &batch.states[point.state]),
            None => return false,
        };
        let verdict = match state.below.as_ref() {
            // The memory as it is now isn't what it will be.
            Some(below) if point.state > 0 => self.verdict_by(point.site, judged, &state.registers, frame, below),
            below => self.verdict_on(point.site, judged, &state.registers, frame, space, below),
        };
        verdict.wrong.is_empty()
    }

    /// A thread that ran a batch has stopped, and has these registers.
    pub(super) fn batch_arrived(&mut self, thread: &mut Thread, space: &mut Space, batch: &Batch, new: &Registers) {
        let point = match batch.point_at(new.program_counter()) {
            Some(point) => point,
            None => return self.thread_stepped(thread, space, new),
        };
        if point.depth == 0 {
            return;
        }
        // The instruction before this one was the last step.
        let last = &batch.points[point.before];
        thread.registers = batch.states[last.state].registers.at(last.address);
        thread.here = self.instruction_at(space, last.address);
        let pushed = match thread.here.effect {
            Effect::Call { .. } => Some(8),
            Effect::Return { .. } => Some(8_u64.wrapping_neg()),
            _ => None,
        };
        let expected = batch.states[point.state].registers.stack_pointer().wrapping_sub(pushed.unwrap_or(0));
        let mut passed: Vec<usize> = batch.between(point).map(|point| point.site).collect();
        let is_new = passed.iter().any(|site| self.sites.at(*site).visits == 0);
        if let Some(frame) = thread.shadow.frames.last_mut() {
            frame.add_idle(passed.len() as u64, is_new);
        }
        if expected != new.stack_pointer() {
            passed.clear();
        } else if let (Some(pushed), Some(_)) = (pushed, passed.first()) {
            let old = new.with(STACK.0.into(), new.stack_pointer().wrapping_add(pushed));
            self.judge_before_batch(thread, space, batch, last, &old);
            passed.remove(0);
            self.count_if_right(thread, &passed);
            return self.thread_stepped(thread, space, new);
        }
        self.thread_stepped(thread, space, new);
        self.count_if_right(thread, &passed);
    }

    /// Judges the row of the call or the return that a thread has just executed, before which it had these registers.
    fn judge_before_batch(
        &mut self,
        thread: &mut Thread,
        space: &mut Space,
        batch: &Batch,
        last: &Point,
        old: &Registers,
    ) {
        thread.before = self.instruction_at(space, batch.points[last.before].address);
        thread.registers = old.at(last.address);
        self.judge_row(thread, space);
    }

    /// Counts instructions of a batch: what was right where it began, and is right where it ended, was right between.
    fn count_if_right(&mut self, thread: &Thread, passed: &[usize]) {
        if thread.is_right {
            passed.iter().for_each(|site| self.count_right(*site));
        }
    }
}

/// Where the function on top returns to, if a thread is before its return when it has this.
fn predicted_return(thread: &Thread, state: &Predicted) -> Option<u64> {
    let frame = thread.shadow.frames.last().filter(|frame| frame.origin != Origin::Signal)?;
    let is_there = state.registers.stack_pointer() == frame.slot;
    let return_address = state.below.as_ref()?.word(frame.slot).filter(|_| is_there);
    return_address.filter(|address| *address == frame.return_address)
}

/// Whether an instruction stores where its row finds something, as far as its address is known.
fn may_overwrite_saved(thread: &Thread, point: &Point, site: &Site, state: &Predicted) -> bool {
    let lowest = site.row.map_or(0, |judged| judged.lowest);
    let (frame, stored) = match (thread.shadow.frames.last(), stored_operand(&site.effect)) {
        (Some(frame), Some(stored)) => (frame, stored),
        _ => return false,
    };
    let (MemoryOperand { base, offset }, bytes) = stored;
    let base = state.registers.get(base.0.into()).filter(|_| !point.written.contains(base));
    let begin = base.map(|base| base.wrapping_add(i64::from(offset) as u64).wrapping_sub(frame.cfa) as i64);
    begin.map_or(false, |begin| begin < 0 && begin.saturating_add(bytes as i64) > lowest)
}

/// Whether an instruction only goes on to the next one. `int3`, which has one byte, counts as padding.
fn only_goes_on(effect: &Effect, length: u8) -> bool {
    match effect {
        Effect::Padding => length > 1,
        Effect::Nothing
        | Effect::Write { .. }
        | Effect::MayWrite { .. }
        | Effect::Move { .. }
        | Effect::MayMove { .. }
        | Effect::ToVector { .. }
        | Effect::FromVector { .. }
        | Effect::Calculate { .. }
        | Effect::Exchange { .. }
        | Effect::Set { .. }
        | Effect::Add { .. }
        | Effect::Insert { .. }
        | Effect::AddRegister { .. }
        | Effect::SubtractRegister { .. }
        | Effect::Derive { .. }
        | Effect::Align { .. }
        | Effect::Load { .. }
        | Effect::LoadEntry { .. }
        | Effect::Store { .. }
        | Effect::StoreNumber { .. }
        | Effect::Compare { .. }
        | Effect::CompareNumber { .. } => true,
        _ => false,
    }
}

/// Where an instruction stores, if that is at a register plus an offset, and how many bytes.
fn stored_operand(effect: &Effect) -> Option<(MemoryOperand, u64)> {
    match effect {
        Effect::Store { to: Some(point), .. } => Some((*point, 8)),
        Effect::StoreNumber { to, bytes } => Some((*to, u64::from(*bytes))),
        Effect::Write { stored: Some((point, bytes)), .. } => Some((*point, u64::from(bytes.get()))),
        _ => None,
    }
}
