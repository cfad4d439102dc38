//! Finds where frames are missing because functions ended with a jump to another function (a tail call), and adds those
//! that call sites prove.

use super::both_ends::Walked;
use super::{FoundBy, Frame, Names, Stack, Stacks};
use crate::debug::variables::TailCall;
use crate::process::without_row::Guesser;
use dwcheck::Registers;
use dwcheck_lint::instruction::{Effect, Target};
use dwcheck_lint::machine::Machine;

/// The number of bytes of each instruction of a machine with a link register.
const FIXED_LENGTH: u64 = 4;

/// A call and what it reached by a jump.
struct Jumped {
    /// The module of both functions, by its index.
    place: usize,
    /// What is added to addresses of its file to get those in the process.
    bias: u64,
    /// The address of the frame that was reached, as the file has it.
    reached: u64,
}

impl Stack<'_, '_> {
    /// The function that has no frame between this frame and its caller: the caller called it, by an instruction that
    /// names its address, but the frame is in another function of the same file, so that at least one jump led there.
    pub fn tail_call(&self, number: usize) -> Option<String> {
        match self.without_gap(number) {
            [frame, caller, ..] => self.stacks.jumped(frame, caller).map(|(_, name)| name),
            _ => None,
        }
    }
}

impl<'a> Stacks<'a> {
    /// A frame and its caller between which at least one function ended with a jump, and the name of the one that was
    /// called. `None` if it isn't known.
    fn jumped(&self, frame: &Frame, caller: &Frame) -> Option<(Jumped, String)> {
        if frame.is_signal_frame || !caller.is_after_call || caller.found_by != FoundBy::Row {
            return None;
        }
        let reached = frame.looked_up();
        let called = self.called_before(caller.address)?;
        let tables = self.tables.borrow();
        let place = tables.module_at(called).filter(|place| tables.module_at(reached) == Some(*place))?;
        let module = tables.modules().get(place)?;
        let linked = |address: u64| self.core.target().wrap(address.wrapping_sub(module.bias));
        let mut names = self.names.borrow_mut();
        let names = names.entry(place).or_insert_with(|| self.read_names(module));
        let reached = linked(reached);
        let name = names.left(linked(called), reached, self.name_options)?;
        Some((Jumped { place, bias: module.bias, reached }, name))
    }

    /// Adds the frames of functions that ended with a jump, where call sites prove them.
    pub(super) fn with_tail_calls(&self, walked: Walked) -> Walked {
        let Walked { frames, mut left_out, stop } = walked;
        let gap = left_out.map(|left_out| left_out.after);
        let mut all = Vec::with_capacity(frames.len());
        let mut frames = frames.into_iter().enumerate().peekable();
        while let Some((index, frame)) = frames.next() {
            let caller = frames.peek().filter(|(next, _)| gap != Some(*next)).map(|(_, caller)| caller);
            let between = caller.map_or_else(Vec::new, |caller| self.frames_between(&frame, caller));
            all.push(frame);
            all.extend(between);
            if let Some(left_out) = left_out.as_mut().filter(|_| gap == Some(index + 1)) {
                left_out.after = all.len();
            }
        }
        Walked { frames: all, left_out, stop }
    }

    /// The frames of the functions that ended with a jump between a frame and its caller, the innermost first.
    fn frames_between(&self, frame: &Frame, caller: &Frame) -> Vec<Frame> {
        let (jumped, _) = match self.jumped(frame, caller) {
            Some(found) => found,
            None => return Vec::new(),
        };
        let frame_of = |jump: &TailCall| Frame {
            is_after_call: jump.is_after,
            ..Frame::caller(self.core.target().wrap(jump.address.wrapping_add(jumped.bias)), FoundBy::TailCall)
        };
        let returned = self.core.target().wrap(caller.address.wrapping_sub(jumped.bias));
        self.proved_jumps(&jumped, returned).iter().rev().map(frame_of).collect()
    }

    /// The jumps between a call, which returns to an address, and what it reached, the first one first.
    fn proved_jumps(&self, jumped: &Jumped, returned: u64) -> Vec<TailCall> {
        let Jumped { place, reached, .. } = *jumped;
        let key = (place, returned, reached);
        if let Some(known) = self.tail_calls.borrow().get(&key) {
            return known.clone();
        }
        let proved = |names: &Names<'_>| names.tail_calls(&[(returned, reached)]).pop();
        let found = self.names.borrow().get(&place).and_then(proved).unwrap_or_default();
        self.tail_calls.borrow_mut().insert(key, found.clone());
        found
    }

    /// Where the call before an address leads, if it is one to a fixed address.
    fn called_before(&self, address: u64) -> Option<u64> {
        let abi = self.core.abi();
        if abi.link_register.is_none() {
            return Guesser { view: self, registers: &Registers::default() }.called_before(address);
        }
        let begin = address.checked_sub(FIXED_LENGTH)?;
        let code = self.memory.at_most(begin, FIXED_LENGTH as usize);
        match (Machine::numbered(abi.machine)?.decode)(&code, begin).effect {
            Effect::Call { target: Target::Code(called) } => Some(called),
            _ => None,
        }
    }
}
