//! The declarations of `dwcheck-dl.h`, the library that walks stacks of the running process, but for
//! those that a crate in Rust has no use for. This needs the feature `dl`, Linux on x86-64 or aarch64, and
//! glibc.

#[cfg(not(target_arch = "aarch64"))]
use crate::{RegisterFrame, RegisterPlace};
use std::os::raw::{c_int, c_void};

/// Where a walk is at a frame.
#[cfg(not(target_arch = "aarch64"))]
pub type DlPlace = RegisterPlace;

/// A frame: where the walk was at it, and its CFA.
#[cfg(not(target_arch = "aarch64"))]
pub type DlFrame = RegisterFrame;

/// Where a walk is at a frame: as a `RegisterPlace`, with the contents of sp and of x19 to x30. That of
/// x30 is 0 in a frame that has made a call.
#[cfg(target_arch = "aarch64")]
#[repr(C)]
#[derive(Clone, Copy, Debug, Default, PartialEq, Eq)]
pub struct DlPlace {
    pub address: u64,
    pub key: u64,
    pub stack_pointer: u64,
    pub x19_to_x30: [u64; 12],
}

/// A frame: where the walk was at it, and its CFA.
#[cfg(target_arch = "aarch64")]
#[repr(C)]
#[derive(Clone, Copy, Debug, Default, PartialEq, Eq)]
pub struct DlFrame {
    pub place: DlPlace,
    pub cfa: u64,
}

/// What is asked of a walk. `context` is null, or the third argument of a signal handler. `marks` is
/// null, or points to as many bytes as there may be frames: each becomes how the frame was found.
/// `stop` becomes the reason why there are no more frames.
#[repr(C)]
#[derive(Clone, Copy, Debug)]
pub struct DlRequest {
    pub context: *const c_void,
    pub marks: *mut u8,
    pub options: u32,
    pub stop: u32,
    pub reserved: u64,
}

/// The frame was found by a row, or from what the kernel has saved for a signal.
pub const DL_BY_ROW: u8 = 0;
/// The frame has called what is no function, or code that has no frame and no row: a guess.
pub const DL_BY_CALL: u8 = 1;
/// The frame was found by the frame pointer: a guess.
pub const DL_BY_FRAME_POINTER: u8 = 2;

/// The option to go on by frame pointers where no row covers a frame.
pub const DL_FRAME_POINTERS: u32 = 1;

/// A walk stops because the last frame's FDE is refused, or needs more room than there is.
pub const DL_STOP_REFUSED: u32 = 16;
/// A walk stops because the stack is too small to look up the last frame's row.
pub const DL_STOP_STACK: u32 = 17;

extern "C" {
    /// Writes the return addresses of the calling thread's stack, at most `size`, as `request` asks.
    /// The first is in the function that makes the call. Returns their number.
    pub fn dwcheck_dl_walk(
        request: *mut DlRequest,
        addresses: *mut *mut c_void,
        size: c_int,
    ) -> c_int;

    /// The same with the registers and the CFA of each frame.
    pub fn dwcheck_dl_frames(request: *mut DlRequest, frames: *mut DlFrame, size: c_int) -> c_int;

    /// Learns where the calling thread's own stack is, so that its walks don't ask the kernel.
    /// Not for signal handlers.
    pub fn dwcheck_dl_thread() -> u32;

    /// Reads .debug_frame of the modules that are loaded, from their files. Not for signal handlers.
    pub fn dwcheck_dl_prepare() -> u32;
}
