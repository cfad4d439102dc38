//! The stack of the calling thread. This needs the feature `dl`.

use crate::walk::Stop;
use dwcheck_sys as ffi;
use std::ptr;

/// How many frames [`here`] gives at most.
pub const MOST_FRAMES: usize = 128;

/// A frame of the calling thread's stack.
#[derive(Clone, Copy, Debug, PartialEq, Eq, Hash)]
pub struct OwnFrame {
    /// Its address: a return address, but for what a signal has interrupted. That is just after the call
    /// instruction, so to find the line of the call, look up the address minus one.
    pub address: usize,
    /// Whether it is a guess, since a wrong pointer to a function was called, or code without rows.
    pub is_guess: bool,
}

/// The frames of the calling thread's stack, the innermost first. It has copied their addresses, and
/// borrows nothing.
#[derive(Clone, Debug)]
pub struct OwnStack {
    addresses: [usize; MOST_FRAMES],
    marks: [u8; MOST_FRAMES],
    next: usize,
    count: usize,
    stop: Stop,
}

impl OwnStack {
    /// Why there are no more frames: `ReturnUndefined` at the end of the stack.
    pub fn stop(&self) -> Stop {
        self.stop
    }

    fn empty() -> OwnStack {
        OwnStack {
            addresses: [0; MOST_FRAMES],
            marks: [ffi::DL_BY_ROW; MOST_FRAMES],
            next: 0,
            count: 0,
            stop: Stop::Limit,
        }
    }
}

impl Iterator for OwnStack {
    type Item = OwnFrame;

    fn next(&mut self) -> Option<OwnFrame> {
        if self.next == self.count {
            return None;
        }
        let frame = OwnFrame {
            address: self.addresses[self.next],
            is_guess: self.marks[self.next] != ffi::DL_BY_ROW,
        };
        self.next += 1;
        Some(frame)
    }

    fn size_hint(&self) -> (usize, Option<usize>) {
        (self.count - self.next, Some(self.count - self.next))
    }
}

impl ExactSizeIterator for OwnStack {}

/// The stack of the calling thread, at once and at any moment: nothing is prepared, nothing is
/// allocated, and no lock is taken, so a signal handler may ask, too. It has at most [`MOST_FRAMES`]
/// frames, and the first is that of the function that asks.
///
/// ```
/// for frame in dwcheck::here() {
///     println!("{:#x}", frame.address);
/// }
/// ```
#[inline(always)]
pub fn here() -> OwnStack {
    let mut stack = OwnStack::empty();
    let mut request = ffi::DlRequest {
        context: ptr::null(),
        marks: stack.marks.as_mut_ptr(),
        options: 0,
        stop: ffi::STOP_LIMIT,
        reserved: 0,
    };
    // SAFETY: both arrays have MOST_FRAMES elements, and the request is a local.
    let count = unsafe {
        ffi::dwcheck_dl_walk(
            &mut request,
            stack.addresses.as_mut_ptr().cast(),
            MOST_FRAMES as i32,
        )
    };
    stack.count = count as usize;
    stack.stop = Stop::of(request.stop);
    stack
}

/// Learns where the calling thread's own stack is, so that [`here`] asks the kernel nothing in this
/// thread. Returns whether it did. Not for signal handlers; nothing needs it.
pub fn know_own_stack() -> bool {
    // SAFETY: the call has no precondition but that it isn't made in a signal handler.
    unsafe { ffi::dwcheck_dl_thread() == ffi::DONE }
}
