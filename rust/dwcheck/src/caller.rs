//! Callers: what an unwinding finds out about the frame that called another.

use crate::ffi;
use crate::state::Registers;
use std::fmt;

/// What is known of a register, a CFA or a return address.
#[derive(Clone, Copy, Debug, PartialEq, Eq, Hash)]
#[non_exhaustive]
pub enum Answer {
    /// The value is this number, which is below 2^w. (w is the address size in bits.)
    Value(u64),
    /// The value isn't available: the row's rule is `Undefined`, or neither the row nor the ABI
    /// says anything about the register.
    Undefined,
    /// The value depends on a register or memory that wasn't passed, or on memory past the highest
    /// address, 2^w - 1.
    Unreadable,
    /// The expression for the value divides by zero.
    DivisionByZero,
    /// The number of an answer that this crate doesn't know, because the library is newer.
    Other(u32),
}

impl Answer {
    /// The value. `None` for every other answer.
    pub fn value(self) -> Option<u64> {
        match self {
            Answer::Value(value) => Some(value),
            _ => None,
        }
    }

    pub(crate) fn of(kind: u32, value: u64) -> Answer {
        match kind {
            ffi::ANSWER_VALUE => Answer::Value(value),
            ffi::ANSWER_UNDEFINED => Answer::Undefined,
            ffi::ANSWER_UNREADABLE => Answer::Unreadable,
            ffi::ANSWER_DIVISION_BY_ZERO => Answer::DivisionByZero,
            other => Answer::Other(other),
        }
    }
}

impl fmt::Display for Answer {
    fn fmt(&self, f: &mut fmt::Formatter<'_>) -> fmt::Result {
        match self {
            Answer::Value(value) => write!(f, "value {:#x}", value),
            Answer::Undefined => f.pad("undefined"),
            Answer::Unreadable => f.pad("unreadable"),
            Answer::DivisionByZero => f.pad("division by zero"),
            Answer::Other(kind) => write!(f, "unknown answer {}", kind),
        }
    }
}

/// The frame that called another.
#[derive(Clone, Debug, PartialEq, Eq, Hash)]
#[non_exhaustive]
pub struct Caller {
    /// The canonical frame address (CFA) of the frame that was called.
    pub cfa: Answer,
    /// The address where the caller continues, just after the call.
    pub return_address: Answer,
    /// The registers that have a rule from the row or the ABI, with what is known of their values
    /// in the caller. They are in ascending order, and there are 256 at most.
    pub registers: Vec<(u16, Answer)>,
}

impl Caller {
    /// What is known of a register. `None` if neither the row nor the ABI names it.
    pub fn register(&self, number: u16) -> Option<Answer> {
        let place = self
            .registers
            .binary_search_by_key(&number, |(number, _)| *number)
            .ok()?;
        Some(self.registers[place].1)
    }

    /// The caller's registers whose values are known: those to pass to the next
    /// [`Process::unwind`](crate::Process::unwind).
    pub fn known(&self) -> Registers {
        self.registers
            .iter()
            .filter_map(|(number, answer)| Some((*number, answer.value()?)))
            .collect()
    }

    /// Decodes the caller that the library wrote. The library wrote its registers to the first
    /// `raw.count` elements of `registers`.
    pub(crate) fn of(raw: &ffi::Caller, registers: &[ffi::Register]) -> Caller {
        let count = usize::try_from(raw.count).unwrap_or(usize::MAX);
        Caller {
            cfa: Answer::of(raw.cfa.kind, raw.cfa.value),
            return_address: Answer::of(raw.return_address.kind, raw.return_address.value),
            registers: registers
                .iter()
                .take(count)
                .filter_map(Caller::register_of)
                .collect(),
        }
    }

    /// Decodes one register that the library wrote. `None` if its number doesn't fit 16 bits, which
    /// never happens.
    fn register_of(raw: &ffi::Register) -> Option<(u16, Answer)> {
        let number = u16::try_from(raw.number).ok()?;
        Some((number, Answer::of(raw.kind, raw.value)))
    }
}
