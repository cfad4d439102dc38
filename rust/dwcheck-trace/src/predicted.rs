//! Predicts what the instructions of a batch make of the registers and the stack: it follows from what a thread has
//! where the batch begins.

use super::judge::Below;
use super::registers::Registers;
use dwcheck_lint::instruction::Effect;
use dwcheck_lint::register::{Register, Registers as Set};

/// The stack pointer, rsp.
pub(super) const STACK: Register = Register(7);

/// The register that functions use as a frame pointer, rbp.
const FRAME: Register = Register(6);

/// A stack pointer that moves by this or more isn't predicted: it may be on another stack then.
const FAR: u64 = 1 << 16;

/// What a thread will have at an instruction. Registers that were written since the batch began in a way that
/// isn't followed have their values from before; whoever asks for them has to know which these are.
#[derive(Clone, Debug)]
pub(super) struct Predicted {
    pub registers: Registers,
    /// The memory below the CFA. `None` if it isn't known.
    pub below: Option<Below>,
}

impl Predicted {
    /// The same after an instruction that changes the stack or the frame pointer, where the registers in `written`
    /// aren't known. `None` if what it does isn't predicted.
    pub fn after(&self, effect: &Effect, written: Set) -> Option<Predicted> {
        let known = |register: Register| self.registers.get(register.0.into()).filter(|_| !written.contains(register));
        let mut next = self.clone();
        match *effect {
            Effect::Push { from } => next.push(known(from)?)?,
            Effect::Pop { to } if to != STACK => next.pop(to)?,
            Effect::Add { to: STACK, from, number } => next.set(STACK, known(from)?.wrapping_add(number as u64)),
            Effect::Move { to: STACK | FRAME, from } => next.set(effect.written().iter().next()?, known(from)?),
            Effect::Leave => {
                next.set(STACK, known(FRAME)?);
                next.pop(FRAME)?;
            }
            _ => return None,
        }
        let (old, new) = (self.registers.stack_pointer(), next.registers.stack_pointer());
        let is_in_frame = new <= next.below.as_ref()?.slot() && old.abs_diff(new) < FAR;
        is_in_frame.then_some(next)
    }

    fn set(&mut self, register: Register, value: u64) {
        self.registers = self.registers.with(register.0.into(), value);
    }

    fn push(&mut self, value: u64) -> Option<()> {
        let stack = self.registers.stack_pointer().wrapping_sub(8);
        self.set(STACK, stack);
        self.below.as_mut()?.set_word(stack, value)
    }

    fn pop(&mut self, to: Register) -> Option<()> {
        let stack = self.registers.stack_pointer();
        self.set(to, self.below.as_ref()?.word(stack)?);
        self.set(STACK, stack.wrapping_add(8));
        Some(())
    }
}
