//! The shadow stack: what is true of the frames of a thread, as its calls and returns show it.

use super::registers::{Registers, SAVED_COUNT};
use dwcheck_lint::judge::Facts;
use std::collections::HashMap;
use std::ops::Range;

/// An FDE: the index of its file, and its index in the file.
pub type FdeId = (usize, usize);

/// A frame.
#[derive(Clone, Debug)]
pub struct Frame {
    /// The frame ends when the stack pointer is above this address. For a function that was called, it is
    /// where the return address is.
    pub slot: u64,
    /// The CFA.
    pub cfa: u64,
    /// Where the caller goes on.
    pub return_address: u64,
    /// The registers that the function has to give back.
    pub callee_saved: [u64; SAVED_COUNT],
    /// What began the frame.
    pub origin: Origin,
    /// The FDE of the function that was called. `None` if there is none.
    pub entered: Option<FdeId>,
    /// The FDE in which the frame was when what is here was last known to be true.
    pub seen_in: Option<FdeId>,
    /// Whether the stack pointer was moved in a way that may have left the frame.
    pub is_distrusted: bool,
    /// What was wrong at the last instruction that was judged.
    pub wrong: Facts,
    /// Where a callee returns to that runs at full speed.
    pub awaited: Option<Awaited>,
    /// How many instructions were stepped since one that was seen for the first time.
    pub idle: u64,
}

/// What began a frame.
#[derive(Clone, Copy, Debug, PartialEq, Eq)]
pub enum Origin {
    /// A call by the frame below on the shadow stack.
    Call,
    /// A call by a frame that isn't on the shadow stack.
    UnknownCall,
    /// A signal. The frame is the one that the kernel made, to which the handler returns.
    Signal,
}

/// A return that is waited for: the address, and the stack pointer there.
#[derive(Clone, Copy, Debug, PartialEq, Eq)]
pub struct Awaited {
    pub address: u64,
    pub stack_pointer: u64,
}

/// The frames of a thread, on each of its stacks.
#[derive(Clone, Debug, Default)]
pub struct Shadow {
    /// The frames on the stack where the stack pointer is, the innermost last.
    pub frames: Vec<Frame>,
    /// The addresses of that stack.
    region: Range<u64>,
    /// The frames on the other stacks, by the ends of these.
    others: HashMap<u64, Vec<Frame>>,
}

impl Frame {
    /// The frame of a function that was just called.
    pub fn called(registers: &Registers, return_address: u64, origin: Origin, entered: Option<FdeId>) -> Frame {
        let slot = registers.stack_pointer();
        Frame {
            slot,
            cfa: slot.wrapping_add(8),
            return_address,
            callee_saved: registers.callee_saved(),
            origin,
            entered,
            seen_in: entered,
            is_distrusted: false,
            wrong: Facts::NONE,
            awaited: None,
            idle: 0,
        }
    }

    /// The frame that the kernel made to call a signal handler, which begins with the stack pointer
    /// `handler_stack`, and which interrupted a thread with these registers.
    pub fn interrupted(registers: &Registers, handler_stack: u64) -> Frame {
        Frame {
            slot: handler_stack.wrapping_add(8),
            cfa: registers.stack_pointer(),
            return_address: registers.program_counter(),
            callee_saved: registers.callee_saved(),
            origin: Origin::Signal,
            entered: None,
            seen_in: None,
            is_distrusted: false,
            wrong: Facts::NONE,
            awaited: None,
            idle: 0,
        }
    }
}

impl Frame {
    /// Notes that instructions of the function were executed, of which one is new or none.
    pub fn add_idle(&mut self, count: u64, is_new: bool) {
        self.idle = if is_new { 0 } else { self.idle + count };
    }
}

impl Shadow {
    /// Whether the stack pointer is still on the same stack.
    pub fn is_on(&self, stack_pointer: u64) -> bool {
        self.region.contains(&stack_pointer)
    }

    /// Goes on with the frames of another stack. What is known of its frame on top may not be true anymore.
    pub fn switch(&mut self, region: Range<u64>) {
        if region.end != self.region.end {
            let frames = self.others.remove(&region.end).unwrap_or_default();
            let left = std::mem::replace(&mut self.frames, frames);
            if !left.is_empty() {
                self.others.insert(self.region.end, left);
            }
            self.distrust();
        }
        self.region = region;
    }

    /// Distrusts the frame on top.
    pub fn distrust(&mut self) {
        if let Some(frame) = self.frames.last_mut() {
            frame.is_distrusted = true;
        }
    }

    /// Takes off the frame on top if the stack pointer has left it.
    pub fn pop_left(&mut self, stack_pointer: u64) -> Option<Frame> {
        self.frames.last().filter(|frame| frame.slot < stack_pointer)?;
        self.frames.pop()
    }
}
