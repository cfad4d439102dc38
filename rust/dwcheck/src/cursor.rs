//! A cursor: where a walk up a stack is.

use crate::fault::Error;
use crate::ffi;
use crate::process::Process;
use crate::state::State;
use crate::walk::{Frame, Stop};
use std::any::Any;
use std::fmt;
use std::iter::FusedIterator;
use std::os::raw::c_void;
use std::panic::{catch_unwind, resume_unwind, AssertUnwindSafe};
use std::slice;

/// Where a walk up a stack is: the address of a frame, and the frame's registers.
///
/// It is plain data of 880 bytes, which borrows nothing. So a walk may be left and taken up again
/// from a copy, also after modules were added to the process or removed from it.
///
/// Registers with numbers of 96 or more have no place in a cursor. The rows of x86-64, AArch64,
/// RISC-V and most other targets name none.
///
/// ```
/// # const SECTION: &[u8] = &[
/// #     0x14, 0, 0, 0, 0xff, 0xff, 0xff, 0xff, 4, 0, 8, 0, 1, 0x78, 0x10, 0x0c, 7, 8, 0x90, 1, 0, 0, 0, 0,
/// #     0x1c, 0, 0, 0, 0, 0, 0, 0, 0, 0x10, 0, 0, 0, 0, 0, 0, 0x20, 0, 0, 0, 0, 0, 0, 0,
/// #     0x41, 0x0e, 0x10, 0x86, 2, 0x43, 0x0d, 6,
/// # ];
/// use dwcheck::{Abi, Block, Cursor, Module, Process, Registers, State, Stop, Target};
///
/// let mut process = Process::new(Target::LITTLE_64);
/// process.add(SECTION, Module::at(0))?;
/// let registers = Registers::from([(6, 0x7f00)]);
/// let stack = [0, 0x80, 0, 0, 0, 0, 0, 0, 0x34, 0x12, 0, 0, 0, 0, 0, 0];
/// let memory = [Block::new(0x7f00, &stack)];
/// let state = State { registers: &registers, memory: &memory, abi: Abi::X86_64 };
///
/// let mut cursor = Cursor::new(0x1010, &state)?;
/// let frame = process.step(&mut cursor, &state)?.unwrap();
/// assert_eq!((frame.address(), cursor.address()), (0x1010, 0x1234));
/// assert_eq!(cursor.register(6), Some(0x8000));
/// assert_eq!(cursor.stop(), None);
///
/// // No module covers the caller, so it is the last frame.
/// assert_eq!(process.step(&mut cursor, &state)?.unwrap().cfa(), None);
/// assert_eq!(cursor.stop(), Some(Stop::NotCovered));
/// assert_eq!(process.step(&mut cursor, &state)?, None);
/// # Ok::<(), dwcheck::Error>(())
/// ```
#[derive(Clone)]
pub struct Cursor {
    pub(crate) raw: ffi::Cursor,
}

impl Cursor {
    /// A cursor at the first frame of a walk: the frame at `address`, as loaded, with the registers
    /// of `state`. The frame is looked up at `address` itself.
    ///
    /// # Errors
    ///
    /// [`Error::Refused`] if the ABI names too many registers or names one twice, or
    /// [`Error::NoPlace`] if a register with a number of 96 or more is known.
    pub fn new(address: u64, state: &State<'_>) -> Result<Cursor, Error> {
        Cursor::place(address, state, true)
    }

    /// A cursor at a later frame: `address` is a return address, and `state` has the registers of
    /// the frame to which it leads. The frame is looked up at `address` minus 1, inside the call.
    ///
    /// # Errors
    ///
    /// The same as those of [`new`](Cursor::new).
    pub fn at_caller(address: u64, state: &State<'_>) -> Result<Cursor, Error> {
        Cursor::place(address, state, false)
    }

    fn place(address: u64, state: &State<'_>, is_exact: bool) -> Result<Cursor, Error> {
        let mut raw = ffi::Cursor::EMPTY;
        let mut fault = ffi::Fault::default();
        // SAFETY: the state's pointers are those of slices that are only read, and the other
        // pointers are to locals.
        let status = unsafe {
            ffi::dwcheck_cursor_init(
                &mut raw,
                address,
                &state.raw(),
                u32::from(is_exact),
                &mut fault,
            )
        };
        Error::check(status, fault)?;
        Ok(Cursor { raw })
    }

    /// The address of the frame, as loaded.
    pub fn address(&self) -> u64 {
        self.raw.address
    }

    /// Moves the cursor to another address without changing the registers. So one process can have the
    /// tables of a file as linked and serve wherever the file is loaded: before each step, move the cursor
    /// to the address as linked. A step leaves it at the caller's address as loaded.
    pub fn set_address(&mut self, address: u64) {
        self.raw.address = address;
    }

    /// Whether the frame is looked up at its address, because it was interrupted or is the first one. If not,
    /// it is looked up at its address minus 1, or the walk has ended.
    pub fn is_exact(&self) -> bool {
        self.raw.stage == ffi::CURSOR_EXACT
    }

    /// The content of a register in the frame. `None` if it isn't known.
    pub fn register(&self, number: u16) -> Option<u64> {
        let index = usize::from(number);
        let known = *self.raw.known.get(index)?;
        (known != 0).then(|| self.raw.contents[index])
    }

    /// Why there are no more frames. `None` if another step may be taken.
    pub fn stop(&self) -> Option<Stop> {
        match self.raw.stage {
            ffi::CURSOR_EXACT | ffi::CURSOR_CALLER => None,
            stage => Some(Stop::of(stage - 1)),
        }
    }

    /// Says that the frame was interrupted, as by a signal: its address isn't a return address, so
    /// the frame is looked up at the address itself. Nothing changes if the walk has ended.
    pub fn set_interrupted(&mut self) {
        if self.raw.stage == ffi::CURSOR_CALLER {
            self.raw.stage = ffi::CURSOR_EXACT;
        }
    }
}

impl fmt::Debug for Cursor {
    fn fmt(&self, f: &mut fmt::Formatter<'_>) -> fmt::Result {
        f.debug_struct("Cursor")
            .field("address", &self.address())
            .field("stop", &self.stop())
            .finish_non_exhaustive()
    }
}

/// The closure that is asked for memory, and the panic of its last call.
struct Asked<F> {
    read: F,
    panic: Option<Box<dyn Any + Send>>,
}

/// Asks a closure for memory. A panic doesn't leave this function, since its caller is C.
///
/// # Safety
///
/// `data` points to an `Asked<F>` that nothing else uses, and `bytes` to `length` bytes.
unsafe extern "C" fn read_by_closure<F>(
    data: *mut c_void,
    address: u64,
    bytes: *mut u8,
    length: usize,
) -> bool
where
    F: FnMut(u64, &mut [u8]) -> bool,
{
    // SAFETY: by the contract of this function.
    let (asked, bytes) = unsafe {
        (
            &mut *data.cast::<Asked<F>>(),
            slice::from_raw_parts_mut(bytes, length),
        )
    };
    if asked.panic.is_some() {
        return false;
    }
    bytes.fill(0);
    let read = &mut asked.read;
    match catch_unwind(AssertUnwindSafe(|| read(address, bytes))) {
        Ok(is_read) => is_read,
        Err(panic) => {
            asked.panic = Some(panic);
            false
        }
    }
}

/// What a step gives that returned this status and wrote this frame, or this fault.
pub(crate) fn frame_of_step(
    status: u32,
    slot: [Frame; 1],
    fault: ffi::Fault,
) -> Result<Option<Frame>, Error> {
    if status == ffi::NONE {
        return Ok(None);
    }
    Error::check(status, fault)?;
    Ok(Some(slot[0]))
}

impl Process {
    /// The frame that a cursor is at. Moves the cursor to the frame's caller. `None` if the walk has
    /// ended: [`Cursor::stop`] says why.
    ///
    /// The memory and the ABI are those of `state`, and the registers are those of the cursor. If no
    /// caller follows, the cursor keeps the address and the registers of the last frame. The frames
    /// are those of [`backtrace`](Process::backtrace). This allocates nothing.
    ///
    /// # Errors
    ///
    /// [`Error::NoPlace`] if a register of the caller with a number of 96 or more would be known.
    /// Then nothing changes.
    pub fn step(&self, cursor: &mut Cursor, state: &State<'_>) -> Result<Option<Frame>, Error> {
        let mut slot = [Frame::default()];
        // SAFETY: the process is only read, the cursor is borrowed exclusively, the state's pointers
        // are those of slices that are only read, and the frame is a local.
        let status = unsafe {
            ffi::dwcheck_cursor_step(
                self.raw(),
                &mut cursor.raw,
                &state.raw(),
                Frame::raw_slots(&mut slot),
            )
        };
        frame_of_step(status, slot, ffi::Fault::default())
    }

    /// Steps as [`step`](Process::step) does, but asks for the memory that the step needs: `read` is
    /// called with an address and a slice, which it fills. It returns whether it could. So nothing
    /// has to be copied first from another process, a core file, or a remote target. The
    /// memory of `state` isn't used.
    ///
    /// In a rule whose expression has branches, only what is read before the first branch is asked
    /// for. This allocates only as [`evaluate`](crate::evaluate) does. If `read` panics, the cursor
    /// stays where it was, and the panic goes on.
    ///
    /// # Errors
    ///
    /// The same as those of [`step`](Process::step).
    ///
    /// ```
    /// # const SECTION: &[u8] = &[
    /// #     0x14, 0, 0, 0, 0xff, 0xff, 0xff, 0xff, 4, 0, 8, 0, 1, 0x78, 0x10, 0x0c, 7, 8, 0x90, 1, 0, 0, 0, 0,
    /// #     0x1c, 0, 0, 0, 0, 0, 0, 0, 0, 0x10, 0, 0, 0, 0, 0, 0, 0x20, 0, 0, 0, 0, 0, 0, 0,
    /// #     0x41, 0x0e, 0x10, 0x86, 2, 0x43, 0x0d, 6,
    /// # ];
    /// use dwcheck::{Abi, Cursor, Module, Process, Registers, State, Target};
    ///
    /// let mut process = Process::new(Target::LITTLE_64);
    /// process.add(SECTION, Module::at(0))?;
    /// let registers = Registers::from([(6, 0x7f00)]);
    /// let state = State { registers: &registers, memory: &[], abi: Abi::X86_64 };
    ///
    /// let stack = [0, 0x80, 0, 0, 0, 0, 0, 0, 0x34, 0x12, 0, 0, 0, 0, 0, 0]; // at 0x7f00
    /// let mut cursor = Cursor::new(0x1010, &state)?;
    /// process.step_with(&mut cursor, &state, |address, bytes| {
    ///     let start = address.wrapping_sub(0x7f00) as usize;
    ///     match stack.get(start..start.saturating_add(bytes.len())) {
    ///         Some(found) => bytes.copy_from_slice(found),
    ///         None => return false,
    ///     }
    ///     true
    /// })?;
    /// assert_eq!((cursor.address(), cursor.register(6)), (0x1234, Some(0x8000)));
    /// # Ok::<(), dwcheck::Error>(())
    /// ```
    pub fn step_with<F>(
        &self,
        cursor: &mut Cursor,
        state: &State<'_>,
        read: F,
    ) -> Result<Option<Frame>, Error>
    where
        F: FnMut(u64, &mut [u8]) -> bool,
    {
        let mut slot = [Frame::default()];
        let before = cursor.clone();
        let mut asked = Asked { read, panic: None };
        let target = self.target();
        let reader = ffi::Reader {
            read: Some(read_by_closure::<F>),
            data: (&mut asked as *mut Asked<F>).cast(),
            order: ffi::order_number(target),
            address_size: target.address_size.bytes().into(),
        };
        // SAFETY: the process is only read, the cursor is borrowed exclusively, the state's pointers
        // are those of slices that are only read, the others are to locals, and `read_by_closure` takes what
        // `data` is.
        let status = unsafe {
            ffi::dwcheck_cursor_step_with(
                self.raw(),
                &mut cursor.raw,
                &state.raw(),
                &reader,
                Frame::raw_slots(&mut slot),
            )
        };
        if let Some(panic) = asked.panic {
            *cursor = before;
            resume_unwind(panic);
        }
        frame_of_step(status, slot, ffi::Fault::default())
    }

    /// The frames of a stack one by one, from the frame at an address: an iterator that allocates
    /// nothing. On a corrupt stack the frames may never end, so use [`take`](Iterator::take).
    ///
    /// # Errors
    ///
    /// The same as those of [`Cursor::new`].
    ///
    /// ```
    /// use dwcheck::{Abi, Process, Registers, State, Target};
    ///
    /// let process = Process::new(Target::LITTLE_64);
    /// let state = State { registers: &Registers::new(), memory: &[], abi: Abi::X86_64 };
    /// for frame in process.frames(0x1010, &state)?.take(64) {
    ///     assert_eq!(frame?.address(), 0x1010);
    /// }
    /// # Ok::<(), dwcheck::Error>(())
    /// ```
    pub fn frames<'a>(&'a self, address: u64, state: &State<'a>) -> Result<Frames<'a>, Error> {
        Ok(Frames {
            process: self,
            cursor: Cursor::new(address, state)?,
            state: *state,
            has_failed: false,
        })
    }
}

/// An iterator over the frames of a stack. [`Process::frames`] makes it. After an error there are no
/// more frames.
#[derive(Clone, Debug)]
pub struct Frames<'a> {
    process: &'a Process,
    cursor: Cursor,
    state: State<'a>,
    has_failed: bool,
}

impl Frames<'_> {
    /// The cursor, which is at the caller of the frame that came last.
    pub fn cursor(&self) -> &Cursor {
        &self.cursor
    }
}

impl Iterator for Frames<'_> {
    type Item = Result<Frame, Error>;

    fn next(&mut self) -> Option<Result<Frame, Error>> {
        if self.has_failed {
            return None;
        }
        let found = self.process.step(&mut self.cursor, &self.state);
        self.has_failed = found.is_err();
        found.transpose()
    }
}

impl FusedIterator for Frames<'_> {}
