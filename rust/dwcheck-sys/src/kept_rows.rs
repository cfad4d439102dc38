//! Rows that are kept for walks that recur, and the calls that use them.

use crate::{Block, Cursor, Fault, Header, Module};

/// Rows of modules of x86-64 for walks. Each is that of a module, which the caller gives a slot, a
/// number below 64; a slot names one module, from the first dwcheck_rows_fill until
/// dwcheck_rows_forget. Any bytes are valid. No two calls may use the same rows at once.
#[repr(C)]
#[derive(Clone, Copy)]
pub struct Rows {
    pub words: [u64; 3361],
}

impl Rows {
    /// No row is kept.
    pub const EMPTY: Rows = Rows { words: [0; 3361] };
}

/// Where a walk with kept rows is: at the frame at `address`. The address that is looked up for it is
/// `key` - 1. The content of rbp is frame_pointer if is_saved is 0, else it is in memory at that
/// address.
#[repr(C)]
#[derive(Clone, Copy, Debug, Default, PartialEq, Eq)]
pub struct Place {
    pub address: u64,
    pub key: u64,
    pub stack_pointer: u64,
    pub frame_pointer: u64,
    pub is_saved: u32,
    pub reserved: u32,
}

/// Where a walk that gives registers is.
#[repr(C)]
#[derive(Clone, Copy, Debug, Default, PartialEq, Eq)]
pub struct RegisterPlace {
    pub address: u64,
    pub key: u64,
    pub stack_pointer: u64,
    pub rbx: u64,
    pub rbp: u64,
    pub r12: u64,
    pub r13: u64,
    pub r14: u64,
    pub r15: u64,
}

/// A frame: where the walk was at it, and its CFA.
#[repr(C)]
#[derive(Clone, Copy, Debug, Default, PartialEq, Eq)]
pub struct RegisterFrame {
    pub place: RegisterPlace,
    pub cfa: u64,
}

/// A walk with kept rows stops because no row is kept for the frame: that of the address `key` - 1
/// can be filled in.
pub const STOP_MISSING: u32 = 5;

/// A walk with kept rows stops because the frame needs a step of a cursor.
pub const STOP_OTHER: u32 = 6;

extern "C" {
    /// Looks `address` up in place, as dwcheck_row_in does, and keeps its row, which is the module's
    /// with the slot `slot` % 64. Returns DONE; NO_PLACE if there is a row that can't be kept; or any
    /// other status that dwcheck_row_in returns. Only REFUSED writes `fault`. The call neither
    /// allocates nor frees.
    pub fn dwcheck_rows_fill(
        rows: *mut Rows,
        slot: u32,
        module: *const Module,
        header: *const Header,
        address: u64,
        fault: *mut Fault,
    ) -> u32;

    /// Does what dwcheck_rows_fill does, with little stack, for rows as compilers write nearly all of
    /// them. NO_ROOM also says that the row may be another one: then dwcheck_rows_fill has the answer.
    pub fn dwcheck_rows_fill_compact(
        rows: *mut Rows,
        slot: u32,
        module: *const Module,
        header: *const Header,
        address: u64,
        fault: *mut Fault,
    ) -> u32;

    /// Forgets the rows of the slot `slot` % 64.
    pub fn dwcheck_rows_forget(rows: *mut Rows, slot: u32);

    /// Walks up the stack from `place` with the rows of the slots whose bits are set in `confirmed`,
    /// and writes the addresses of the frames to `addresses`, as many as fit. `count` becomes their
    /// number, `stop` the reason why there are no more (a STOP_ constant), and `place` that of the next
    /// frame. The call neither allocates nor frees.
    pub fn dwcheck_walk(
        rows: *mut Rows,
        confirmed: u64,
        place: *mut Place,
        blocks: *const Block,
        blocks_length: usize,
        addresses: *mut u64,
        addresses_length: usize,
        count: *mut usize,
        stop: *mut u32,
    );

    /// Walks as dwcheck_walk does, and writes each frame with its registers and its CFA.
    pub fn dwcheck_walk_frames(
        rows: *mut Rows,
        confirmed: u64,
        place: *mut RegisterPlace,
        blocks: *const Block,
        blocks_length: usize,
        frames: *mut RegisterFrame,
        frames_length: usize,
        count: *mut usize,
        stop: *mut u32,
    );

    /// Places a cursor where a walk with registers is. Returns DONE; or NO_PLACE if `key` is neither
    /// `address` nor `address` plus 1, and then the cursor is as it was.
    pub fn dwcheck_cursor_at_place(cursor: *mut Cursor, place: *const RegisterPlace) -> u32;

    /// Makes `place` that of the frame that a cursor is at. Returns DONE; NONE if the cursor's walk has
    /// ended; or NO_PLACE if a register of a place isn't known. Only DONE writes `place`.
    pub fn dwcheck_place_of_cursor(place: *mut RegisterPlace, cursor: *const Cursor) -> u32;
}
