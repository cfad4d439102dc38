//! Rows that are kept for walks that recur, and walks with them.

use crate::cursor::Cursor;
use crate::fault::Error;
use crate::ffi;
use crate::in_place::EhFrameInPlace;
use crate::state::Block;
use std::fmt;

/// Rows of modules of x86-64, kept for walks in which the same functions recur, as in a profiler or an
/// allocator.
///
/// It is plain data of 26,888 bytes, which borrows nothing. Each thread has its own: keep it in a `Box`
/// or a thread-local.
///
/// Each row is that of a module. You give each module a slot, a number below 64. A walk uses only the
/// rows of slots that you have confirmed for it, by the bits of a mask: that the slot's module is still
/// loaded where it was. So a slot names one module, from the first [`fill`](KeptRows::fill) until
/// [`forget`](KeptRows::forget).
///
/// ```
/// # fn module_of(address: u64) -> Option<(u32, dwcheck::EhFrameInPlace<'static>)> { None }
/// # fn addresses(rows: &mut dwcheck::KeptRows, mut place: dwcheck::StackPlace, stack: dwcheck::Block<'_>) -> usize {
/// use dwcheck::{Filled, KeptStop};
///
/// let mut addresses = [0; 64];
/// let mut count = 0;
/// loop {
///     let (more, stop) = rows.walk(!0, &mut place, &[stack], &mut addresses[count..]);
///     count += more;
///     // The row of the frame that the walk is at may be missing: fill it in, and go on.
///     let missing = match stop {
///         KeptStop::Missing => place.looked_up(),
///         _ => break,
///     };
///     let filled = missing.and_then(|address| {
///         let (slot, module) = module_of(address)?;
///         rows.fill(slot, &module, address).ok()
///     });
///     if filled != Some(Filled::Kept) {
///         break; // no module, no row, or one that can't be kept
///     }
/// }
/// # count
/// # }
/// ```
#[derive(Clone)]
pub struct KeptRows {
    raw: ffi::Rows,
}

/// Where a walk with kept rows is. `key` is the address that is looked up plus 1.
#[derive(Clone, Copy, Debug, PartialEq, Eq)]
pub struct StackPlace {
    raw: ffi::Place,
}

impl StackPlace {
    /// The first frame of a walk, at `address`, with the contents of rsp and rbp.
    pub fn first(address: u64, rsp: u64, rbp: u64) -> StackPlace {
        StackPlace::at(address, address.wrapping_add(1), rsp, rbp)
    }

    /// A frame that made a call: it is looked up at its address, a return address, minus 1.
    pub fn caller(address: u64, rsp: u64, rbp: u64) -> StackPlace {
        StackPlace::at(address, address, rsp, rbp)
    }

    fn at(address: u64, key: u64, stack_pointer: u64, frame_pointer: u64) -> StackPlace {
        StackPlace {
            raw: ffi::Place {
                address,
                key,
                stack_pointer,
                frame_pointer,
                ..ffi::Place::default()
            },
        }
    }

    /// The address of the frame.
    pub fn address(&self) -> u64 {
        self.raw.address
    }

    /// The content of rsp.
    pub fn rsp(&self) -> u64 {
        self.raw.stack_pointer
    }

    /// The address that is looked up for the frame. `None` for a caller at address 0: no FDE covers it.
    pub fn looked_up(&self) -> Option<u64> {
        self.raw.key.checked_sub(1)
    }
}

/// Where a walk that gives registers is: the fields are those of C's structure.
pub use dwcheck_sys::{RegisterFrame, RegisterPlace};

/// Why a walk with kept rows stopped.
#[derive(Clone, Copy, Debug, PartialEq, Eq, Hash)]
#[non_exhaustive]
pub enum KeptStop {
    /// There is no room for more.
    Full,
    /// No row is kept for the frame that the walk is at, which isn't written. If no FDE covers it, it is
    /// the last one.
    Missing,
    /// The frame that the walk is at needs a step of a [`Cursor`](crate::Cursor), and isn't written: its
    /// row can't be kept, or needs a register that the walk doesn't keep or know. Only
    /// [`walk_frames`](KeptRows::walk_frames) has the registers for that.
    Other,
    /// The return address of the last frame is undefined: the walk is complete.
    ReturnUndefined,
    /// The return address of the last frame can't be read.
    ReturnUnreadable,
    /// A reason that this version doesn't know.
    Unknown(u32),
}

/// What filling in a row has done.
#[derive(Clone, Copy, Debug, PartialEq, Eq, Hash)]
pub enum Filled {
    /// The row is kept.
    Kept,
    /// There is a row, but it can't be kept: one with an expression, say, or that of a signal frame. A
    /// walk stops there with [`KeptStop::Other`].
    CannotKeep,
    /// No FDE covers the address.
    NotCovered,
}

impl KeptStop {
    fn of(number: u32) -> KeptStop {
        match number {
            ffi::STOP_LIMIT => KeptStop::Full,
            ffi::STOP_MISSING => KeptStop::Missing,
            ffi::STOP_OTHER => KeptStop::Other,
            ffi::STOP_RETURN_UNDEFINED => KeptStop::ReturnUndefined,
            ffi::STOP_RETURN_UNREADABLE => KeptStop::ReturnUnreadable,
            other => KeptStop::Unknown(other),
        }
    }
}

impl KeptRows {
    /// No row is kept.
    pub const fn new() -> KeptRows {
        KeptRows {
            raw: ffi::Rows::EMPTY,
        }
    }

    /// Looks up the row of an address in place, and keeps it as one of the module with the slot `slot`
    /// modulo 64. It may take the place of another row.
    ///
    /// # Errors
    ///
    /// Those of [`EhFrameInPlace::row`]. Then nothing changes.
    pub fn fill(
        &mut self,
        slot: u32,
        module: &EhFrameInPlace<'_>,
        address: u64,
    ) -> Result<Filled, Error> {
        let mut fault = ffi::Fault::default();
        let (section, header) = module.raw();
        // SAFETY: the section and its header are only read, and the other pointers are borrowed exclusively.
        let status = unsafe {
            ffi::dwcheck_rows_fill(&mut self.raw, slot, &section, &header, address, &mut fault)
        };
        match status {
            ffi::NONE => Ok(Filled::NotCovered),
            ffi::NO_PLACE => Ok(Filled::CannotKeep),
            _ => Error::check(status, fault).map(|()| Filled::Kept),
        }
    }

    /// Forgets the rows of the slot `slot` modulo 64, which may then name another module.
    pub fn forget(&mut self, slot: u32) {
        // SAFETY: the rows are borrowed exclusively.
        unsafe { ffi::dwcheck_rows_forget(&mut self.raw, slot) }
    }

    /// Walks up a stack from `place` with the rows of the slots whose bits are set in `confirmed`, and
    /// writes the addresses of the frames to `addresses`, as many as fit. Returns how many it wrote, and
    /// why there are no more. `place` becomes that of the next frame, from which a walk can go on.
    pub fn walk(
        &mut self,
        confirmed: u64,
        place: &mut StackPlace,
        memory: &[Block<'_>],
        addresses: &mut [u64],
    ) -> (usize, KeptStop) {
        let (mut count, mut stop) = (0, 0);
        // SAFETY: the pointers and lengths are those of slices and places that are borrowed; those without
        // const exclusively.
        unsafe {
            ffi::dwcheck_walk(
                &mut self.raw,
                confirmed,
                &mut place.raw,
                Block::raw_slice(memory),
                memory.len(),
                addresses.as_mut_ptr(),
                addresses.len(),
                &mut count,
                &mut stop,
            );
        }
        (count, KeptStop::of(stop))
    }

    /// Walks as [`walk`](KeptRows::walk) does, and writes each frame with its registers and its CFA.
    pub fn walk_frames(
        &mut self,
        confirmed: u64,
        place: &mut RegisterPlace,
        memory: &[Block<'_>],
        frames: &mut [RegisterFrame],
    ) -> (usize, KeptStop) {
        let (mut count, mut stop) = (0, 0);
        // SAFETY: as in `walk`.
        unsafe {
            ffi::dwcheck_walk_frames(
                &mut self.raw,
                confirmed,
                place,
                Block::raw_slice(memory),
                memory.len(),
                frames.as_mut_ptr(),
                frames.len(),
                &mut count,
                &mut stop,
            );
        }
        (count, KeptStop::of(stop))
    }
}

/// Between walks with kept rows and cursors: a frame that such a walk can't pass takes a step of a
/// cursor, and the walk goes on where the cursor is.
impl Cursor {
    /// A cursor where a walk with registers is. `None` if `key` is neither the frame's address nor its
    /// address plus 1.
    pub fn at_place(place: &RegisterPlace) -> Option<Cursor> {
        let mut cursor = Cursor {
            raw: ffi::Cursor::EMPTY,
        };
        // SAFETY: the cursor is borrowed exclusively, and the place is only read.
        let status = unsafe { ffi::dwcheck_cursor_at_place(&mut cursor.raw, place) };
        (status == ffi::DONE).then_some(cursor)
    }

    /// The place of the frame that the cursor is at. `None` if its walk has ended, or if a register that
    /// a place has isn't known.
    pub fn register_place(&self) -> Option<RegisterPlace> {
        let mut place = RegisterPlace::default();
        // SAFETY: the place is borrowed exclusively, and the cursor is only read.
        let status = unsafe { ffi::dwcheck_place_of_cursor(&mut place, &self.raw) };
        (status == ffi::DONE).then_some(place)
    }
}

impl Default for KeptRows {
    fn default() -> KeptRows {
        KeptRows::new()
    }
}

impl fmt::Debug for KeptRows {
    fn fmt(&self, f: &mut fmt::Formatter<'_>) -> fmt::Result {
        f.debug_struct("KeptRows").finish_non_exhaustive()
    }
}
