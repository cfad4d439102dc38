//! The results of walking up a stack: frames, and why the walk ended.

use crate::caller::Answer;
use crate::ffi;
use std::fmt;
use std::slice;
use std::vec;

/// A frame of a stack.
///
/// The first frame's address is the one that the walk began with. Every other frame's address is a
/// return address. That is just after the call instruction, so to find the function that made the
/// call, look up the address minus one.
#[repr(transparent)]
#[derive(Clone, Copy, Default)]
pub struct Frame {
    raw: ffi::Frame,
}

impl Frame {
    /// The frame's address, as loaded.
    pub fn address(&self) -> u64 {
        self.raw.address
    }

    /// The frame's canonical frame address (CFA). `None` if there is no row for the frame.
    pub fn cfa(&self) -> Option<Answer> {
        match self.raw.cfa.kind {
            ffi::ANSWER_NOT_COVERED => None,
            kind => Some(Answer::of(kind, self.raw.cfa.value)),
        }
    }

    /// A pointer to the first element of `slots`, as the type that the library takes.
    pub(crate) fn raw_slots(slots: &mut [Frame]) -> *mut ffi::Frame {
        // `Frame` is `repr(transparent)`, so it has the layout of its field, an `ffi::Frame`
        slots.as_mut_ptr().cast()
    }
}

impl PartialEq for Frame {
    fn eq(&self, other: &Frame) -> bool {
        (self.address(), self.cfa()) == (other.address(), other.cfa())
    }
}

impl Eq for Frame {}

impl fmt::Debug for Frame {
    fn fmt(&self, f: &mut fmt::Formatter<'_>) -> fmt::Result {
        f.debug_struct("Frame")
            .field("address", &self.address())
            .field("cfa", &self.cfa())
            .finish()
    }
}

/// Why a walk ended.
#[derive(Clone, Copy, Debug, PartialEq, Eq, Hash)]
#[non_exhaustive]
pub enum Stop {
    /// The walk has as many frames as its limit allows.
    Limit,
    /// There is no row for the last frame.
    NotCovered,
    /// The return address of the last frame is undefined. Either the row's rule says so, and then
    /// the walk is complete (DWARF 5, section 6.4.4); or neither the row nor the ABI's callee-saved
    /// registers name the return address register. On targets where functions keep the return
    /// address in a register, that register has to be among the ABI's callee-saved registers.
    ReturnUndefined,
    /// The last frame's return address depends on a register or memory that wasn't passed, or on
    /// memory past the highest address, 2^w - 1 (w is the address size in bits).
    ReturnUnreadable,
    /// The expression of the last frame's return address divides by zero.
    ReturnDivisionByZero,
    /// The number of a reason that this crate doesn't know, because the library is newer.
    Other(u32),
}

impl Stop {
    pub(crate) fn of(number: u32) -> Stop {
        match number {
            ffi::STOP_LIMIT => Stop::Limit,
            ffi::STOP_NOT_COVERED => Stop::NotCovered,
            ffi::STOP_RETURN_UNDEFINED => Stop::ReturnUndefined,
            ffi::STOP_RETURN_UNREADABLE => Stop::ReturnUnreadable,
            ffi::STOP_RETURN_DIVISION_BY_ZERO => Stop::ReturnDivisionByZero,
            other => Stop::Other(other),
        }
    }
}

impl fmt::Display for Stop {
    fn fmt(&self, f: &mut fmt::Formatter<'_>) -> fmt::Result {
        match self {
            Stop::Limit => f.pad("limit"),
            Stop::NotCovered => f.pad("not covered"),
            Stop::ReturnUndefined => f.pad("return undefined"),
            Stop::ReturnUnreadable => f.pad("return unreadable"),
            Stop::ReturnDivisionByZero => f.pad("return division by zero"),
            Stop::Other(number) => write!(f, "unknown reason {}", number),
        }
    }
}

/// The frames of a stack, and why there are no more.
#[derive(Clone, Debug, PartialEq, Eq)]
#[non_exhaustive]
pub struct Backtrace {
    /// The frames, the innermost first.
    pub frames: Vec<Frame>,
    /// Why there are no more frames.
    pub stop: Stop,
}

impl IntoIterator for Backtrace {
    type Item = Frame;
    type IntoIter = vec::IntoIter<Frame>;

    fn into_iter(self) -> Self::IntoIter {
        self.frames.into_iter()
    }
}

impl<'a> IntoIterator for &'a Backtrace {
    type Item = &'a Frame;
    type IntoIter = slice::Iter<'a, Frame>;

    fn into_iter(self) -> Self::IntoIter {
        self.frames.iter()
    }
}
