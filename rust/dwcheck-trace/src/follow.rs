//! Keeps the shadow stack of a thread, step by step.

use super::registers::Registers;
use super::rules::Rule;
use super::shadow::{Frame, Origin};
use super::space::Space;
use super::thread::{Here, Thread};
use super::tracer::Tracer;
use dwcheck_elf::internal::without_row::SignalReturn;
use dwcheck_lint::instruction::Effect;
use dwcheck_lint::register::Register;
use dwcheck_lint::table::Rule as RowRule;
use dwcheck_lint::x86_64::X86_64;

/// A stack pointer that goes up or down by more than this by one instruction may be on another stack.
const FAR_UP: u64 = 1 << 16;
const FAR_DOWN: u64 = 1 << 20;

/// How the frames changed with a step.
#[derive(Clone, Copy, Debug, Default, PartialEq, Eq)]
pub(super) struct Left {
    /// How many frames were left.
    pub count: usize,
    /// Whether one of them was called by a frame that isn't known.
    pub has_unknown_caller: bool,
}

impl Tracer<'_, '_> {
    /// The instruction at an address.
    pub(super) fn instruction_at(&mut self, space: &mut Space, address: u64) -> Here {
        let site = space.site(address, &mut self.sites, &mut self.files);
        let found = self.sites.at(site);
        let next = found.address.wrapping_add(u64::from(found.length));
        Here { site, address: found.address, next, effect: found.effect, fde: found.fde }
    }

    /// Notes what one instruction did, after which the thread has these registers.
    pub(super) fn follow_instruction(&mut self, thread: &mut Thread, space: &mut Space, new: &Registers) -> Left {
        let (old, stack) = (thread.registers, new.stack_pointer());
        if std::mem::take(&mut thread.got_signal) && self.enter_handler(thread, space, new) {
            return Left::default();
        }
        let is_call = matches!(thread.here.effect, Effect::Call { .. });
        if is_call && stack == old.stack_pointer().wrapping_sub(8) {
            if let Some(return_address) = space.word(stack) {
                self.enter_call(thread, space, new, return_address, Origin::Call);
                return Left::default();
            }
        }
        if stack == old.stack_pointer() {
            return Left::default();
        }
        let moved = stack.wrapping_sub(old.stack_pointer()) as i64;
        let is_far = moved > FAR_UP as i64 || moved < -(FAR_DOWN as i64);
        if !thread.shadow.is_on(stack) {
            thread.shadow.switch(space.stack_at(stack, &mut self.files));
        } else if is_far {
            thread.shadow.distrust();
        }
        if self.keeps_return_address(thread, space, new) {
            return Left::default();
        }
        let left = self.leave_frames(thread, space, new);
        if left.count == 0 && may_switch_stacks(&thread.here.effect) {
            thread.shadow.distrust();
        }
        left
    }

    /// Adds the frame of a function that was just called.
    pub(super) fn enter_call(
        &mut self,
        thread: &mut Thread,
        space: &mut Space,
        new: &Registers,
        return_address: u64,
        origin: Origin,
    ) {
        let entered = self.instruction_at(space, new.program_counter()).fde;
        if !thread.shadow.is_on(new.stack_pointer()) {
            thread.shadow.switch(space.stack_at(new.stack_pointer(), &mut self.files));
        }
        thread.shadow.frames.push(Frame::called(new, return_address, origin, entered));
    }

    /// Adds the frames of a signal handler that the thread has just entered, if it has.
    fn enter_handler(&mut self, thread: &mut Thread, space: &mut Space, new: &Registers) -> bool {
        let (old, stack) = (thread.registers, new.stack_pointer());
        if old.stack_pointer() == stack || old.program_counter() == new.program_counter() {
            return false;
        }
        let is_signal_return = |address: &u64| {
            let mut code = [0; SignalReturn::LONGEST];
            let count = space.read_code(*address, &mut code);
            SignalReturn::of(X86_64.number, &code[..count]).is_some()
        };
        let return_address = match space.word(stack).filter(is_signal_return) {
            Some(address) => address,
            None => return false,
        };
        if !thread.shadow.is_on(stack) {
            thread.shadow.switch(space.stack_at(stack, &mut self.files));
        }
        thread.shadow.frames.push(Frame::interrupted(&old, stack));
        self.enter_call(thread, space, new, return_address, Origin::Call);
        self.counts.signals += 1;
        true
    }

    /// Whether the function has just popped its return address, and its row says that a register has it,
    /// as in `vfork`.
    fn keeps_return_address(&mut self, thread: &Thread, space: &mut Space, new: &Registers) -> bool {
        let frame = match thread.shadow.frames.last() {
            Some(frame) if frame.slot == thread.stack_pointer() => frame,
            _ => return false,
        };
        if matches!(thread.here.effect, Effect::Return { .. }) || new.stack_pointer() != frame.cfa {
            return false;
        }
        let site = self.instruction_at(space, new.program_counter());
        let file = match self.sites.at(site.site).file {
            Some(file) => self.files.at(file),
            None => return false,
        };
        let address = file.module.machine.return_address;
        let rule = file.module.rows.row(site.address).and_then(|row| row.rule(address));
        matches!(rule, Some(RowRule::Register(Register(number))) if new.get(u16::from(number)) == Some(frame.return_address))
    }

    /// Takes off the frames that the stack pointer has left.
    pub(super) fn leave_frames(&mut self, thread: &mut Thread, space: &mut Space, new: &Registers) -> Left {
        let mut left = Left::default();
        let mut last = None;
        while let Some(frame) = thread.shadow.pop_left(new.stack_pointer()) {
            if let Some(awaited) = frame.awaited {
                space.forget_return(awaited.address);
            }
            left.count += 1;
            left.has_unknown_caller |= frame.origin == Origin::UnknownCall;
            last = Some(frame);
        }
        if let Some(frame) = last {
            self.frames_left(thread, &frame, left.count, new);
        }
        left
    }

    /// After frames were left, of which this is the outermost one: unless it returned as functions do, the
    /// frame that is on top now may not be the one that goes on.
    fn frames_left(&mut self, thread: &mut Thread, frame: &Frame, count: usize, new: &Registers) {
        let is_return =
            matches!(thread.here.effect, Effect::Return { .. }) && count == 1 && frame.slot == thread.stack_pointer();
        if is_return && new.program_counter() == frame.return_address {
            self.note_returned(thread, frame, new);
            return;
        }
        let is_signal_return = frame.origin == Origin::Signal && matches!(thread.here.effect, Effect::System { .. });
        let is_undisturbed = is_signal_return && new.program_counter() == frame.return_address;
        if !is_undisturbed {
            thread.shadow.distrust();
        }
    }

    /// Notes the registers that a function didn't give back.
    fn note_returned(&mut self, thread: &Thread, frame: &Frame, new: &Registers) {
        let lost: Vec<usize> = new
            .callee_saved()
            .iter()
            .zip(&frame.callee_saved)
            .enumerate()
            .filter(|(_, (new, old))| new != old)
            .map(|(at, _)| at)
            .collect();
        if lost.is_empty() {
            return;
        }
        for fde in [frame.entered, thread.here.fde].into_iter().flatten() {
            let known = self.lost.entry(fde).or_default();
            lost.iter().for_each(|at| known[*at] = true);
        }
    }

    /// Whether what is known of the frame on top is true where the thread is. If not, it is counted.
    pub(super) fn trusts_top_frame(&mut self, thread: &mut Thread) -> bool {
        let fde = thread.here.fde;
        let frame = match thread.shadow.frames.last_mut() {
            Some(frame) => frame,
            None => {
                self.counts.rules.add(Rule::UnknownFrame);
                return false;
            }
        };
        if frame.is_distrusted && (frame.seen_in.is_none() || frame.seen_in != fde) {
            self.counts.rules.add(Rule::AfterJump);
            return false;
        }
        frame.is_distrusted = false;
        if frame.origin != Origin::Signal {
            frame.seen_in = fde;
        }
        true
    }
}

/// Whether an instruction that changes the stack pointer, but leaves no frame, may have gone to another stack
/// in the same memory: it sets the stack pointer to something else than a sum, or returns from no frame.
fn may_switch_stacks(effect: &Effect) -> bool {
    let is_stack = |register: &Register| *register == X86_64.stack_pointer;
    match effect {
        Effect::Return { .. } => true,
        Effect::Exchange { one, other } => is_stack(one) || is_stack(other),
        Effect::Move { to, .. } | Effect::MayMove { to, .. } | Effect::Load { to, .. } | Effect::Pop { to } => {
            is_stack(to)
        }
        Effect::Write { registers, .. } | Effect::MayWrite { registers } => registers.contains(X86_64.stack_pointer),
        _ => false,
    }
}
