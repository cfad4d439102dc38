//! The frames of stacks, each stored once, and why stacks end.

use super::objects::ObjectId;
use super::tables::TableId;
use rustc_hash::FxHashMap;
use std::fmt;

/// Why a stack has no more frames.
#[derive(Clone, Copy, Debug, PartialEq, Eq, Hash, PartialOrd, Ord)]
pub enum End {
    /// The return address is undefined: that is how tables mark the first frame of a thread. Or it is 0, as in
    /// programs of Go.
    Complete,
    /// The caller is past the end of the copy of the stack.
    EndOfCopy,
    /// No row covers the last frame, and no other rule finds its caller.
    NoTable,
    /// The return address isn't in code.
    NotCode,
    /// The stack is read where it doesn't lead upward, or it was overwritten.
    Unreadable,
    /// There are as many frames as are asked for.
    Limit,
    /// The frames are those that the kernel or the processor found.
    Chain,
    /// The sample has no frames of a task.
    None,
}

impl End {
    /// All reasons, in the order in which they are shown.
    pub const ALL: [End; 8] =
        [End::Complete, End::EndOfCopy, End::NoTable, End::NotCode, End::Unreadable, End::Limit, End::Chain, End::None];
}

/// The index of a frame.
pub(super) type FrameId = u32;

/// A place in code.
#[derive(Clone, Copy, Debug, PartialEq, Eq, Hash)]
pub struct CodeAddress {
    /// The index of the object that has the code.
    pub object: ObjectId,
    /// The address: of a file as linked, of others as it is in memory. Of a caller it is that of the byte before
    /// its return address, which is in the call.
    pub address: u64,
}

/// A frame, each place once.
#[derive(Clone, Copy, Debug, PartialEq, Eq)]
pub struct Frame {
    /// The place.
    pub place: CodeAddress,
    /// What perf shows as the frame's address: of a file the offset.
    pub shown: u64,
    /// Whether that is the return address, which is after the call, as perf shows frames of the kernel.
    pub is_return: bool,
    /// Whether it is that of a function that ended with a jump to the next one, as call sites prove.
    pub is_tail_call: bool,
    /// The table that covers it, if one does.
    pub(super) table: Option<TableId>,
    pub(super) is_signal_frame: bool,
    /// Whether signal handlers return to the kernel by the code after the place, and no table says so.
    pub(super) precedes_signal_return: bool,
}

impl Frame {
    /// A frame at a place without a row: in no file, or in a file that has no table for it.
    pub(super) fn without_row(object: ObjectId, address: u64, shown: u64) -> Frame {
        let place = CodeAddress { object, address };
        Frame {
            place,
            shown,
            is_return: shown != address,
            is_tail_call: false,
            table: None,
            is_signal_frame: false,
            precedes_signal_return: false,
        }
    }
}

/// Frames, each place once, in the order in which they were first found.
#[derive(Debug, Default)]
pub(super) struct Frames {
    all: Vec<Frame>,
    ids: FxHashMap<CodeAddress, FrameId>,
}

impl Frames {
    /// All frames, by their indices.
    pub fn all(&self) -> &[Frame] {
        &self.all
    }

    /// All frames, by their indices.
    pub fn into_all(self) -> Vec<Frame> {
        self.all
    }

    /// The frame at a place, with its index.
    pub fn at(&self, place: CodeAddress) -> Option<(FrameId, Frame)> {
        let id = *self.ids.get(&place)?;
        self.all.get(id as usize).map(|frame| (id, *frame))
    }

    /// Adds a frame, unless its place has one already. Returns its index.
    pub fn add(&mut self, frame: Frame) -> FrameId {
        let next = self.all.len() as FrameId;
        let id = *self.ids.entry(frame.place).or_insert(next);
        if id == next {
            self.all.push(frame);
        }
        id
    }
}

impl fmt::Display for End {
    fn fmt(&self, f: &mut fmt::Formatter<'_>) -> fmt::Result {
        f.pad(match self {
            End::Complete => "complete",
            End::EndOfCopy => "end of the copied stack",
            End::NoTable => "no table",
            End::NotCode => "return address isn't code",
            End::Unreadable => "unreadable",
            End::Limit => "limit",
            End::Chain => "chain of the kernel",
            End::None => "no frames of a task",
        })
    }
}
