//! The calls of a process that unwind: the caller of a frame, and walks up a stack.

use super::Process;
use crate::cache::Cache;
use crate::caller::Caller;
use crate::fault::Error;
use crate::ffi;
use crate::state::State;
use crate::walk::{Backtrace, Frame, Stop};

/// The number of frames for which the first walk of [`Process::backtrace`] has room.
const FIRST_FRAMES: usize = 64;

impl Process {
    /// The caller of the frame at an address, by the row that [`row`](Process::row) gives.
    ///
    /// The result is `None` if there is no row. To find the caller's own caller, call this again with
    /// [`Caller::known`] as the registers, and with the return address: without its signed bits if
    /// [it is signed](Process::is_signed) at this address, and minus one unless this address [is a
    /// signal frame's](Process::is_signal_frame); or use [`backtrace`].
    /// Memory is allocated only for the `Vec` of registers in the returned [`Caller`].
    ///
    /// # Errors
    ///
    /// [`Error::Refused`] if the ABI names too many registers or a register twice.
    ///
    /// [`backtrace`]: Process::backtrace
    ///
    /// ```
    /// # const SECTION: &[u8] = &[
    /// #     0x14, 0, 0, 0, 0xff, 0xff, 0xff, 0xff, 4, 0, 8, 0, 1, 0x78, 0x10, 0x0c, 7, 8, 0x90, 1, 0, 0, 0, 0,
    /// #     0x1c, 0, 0, 0, 0, 0, 0, 0, 0, 0x10, 0, 0, 0, 0, 0, 0, 0x20, 0, 0, 0, 0, 0, 0, 0,
    /// #     0x41, 0x0e, 0x10, 0x86, 2, 0x43, 0x0d, 6,
    /// # ];
    /// use dwcheck::{Abi, Answer, Block, Module, Process, Registers, State, Target};
    ///
    /// let mut process = Process::new(Target::LITTLE_64);
    /// process.add(SECTION, Module::at(0))?;
    /// let registers = Registers::from([(6, 5), (7, 0x7f08)]);
    /// let memory = [Block::new(0x7f08, &[0x34, 0x12, 0, 0, 0, 0, 0, 0])];
    /// let abi = Abi::new(&[6], Some(7));
    /// let state = State { registers: &registers, memory: &memory, abi };
    ///
    /// let caller = process.unwind(0x1000, &state)?.unwrap();
    /// assert_eq!(caller.cfa, Answer::Value(0x7f10));
    /// assert_eq!(caller.return_address, Answer::Value(0x1234));
    /// assert_eq!(caller.register(7), Some(Answer::Value(0x7f10)));
    /// assert!(process.unwind(0x1020, &state)?.is_none());
    /// # Ok::<(), dwcheck::Error>(())
    /// ```
    pub fn unwind(&self, address: u64, state: &State<'_>) -> Result<Option<Caller>, Error> {
        let mut caller = ffi::Caller::default();
        let mut registers = [ffi::Register::default(); ffi::MAX_REGISTERS];
        let mut fault = ffi::Fault::default();
        // SAFETY: the process and what `state` borrows are only read, and the other pointers are to
        // locals.
        let status = unsafe {
            ffi::dwcheck_unwind(
                &self.raw,
                address,
                &state.raw(),
                &mut caller,
                registers.as_mut_ptr(),
                registers.len(),
                &mut fault,
            )
        };
        if status == ffi::NONE {
            return Ok(None);
        }
        Error::check(status, fault)?;
        Ok(Some(Caller::of(&caller, &registers)))
    }

    /// Walks up the stack from the frame at an address, and returns the frames, `limit` at most.
    ///
    /// The first frame is looked up at its address, and each later frame at its address minus one,
    /// which is an address within the call instruction; but the caller of a
    /// [signal frame](Process::is_signal_frame) at its address. On a corrupt stack a walk may never end, so
    /// choose a limit. A high limit costs nothing by itself: the first walk has room for 64 frames,
    /// and if they aren't enough, the walk starts over with room for four times as many, and so on
    /// up to the limit. [`backtrace_into`](Process::backtrace_into) walks only once.
    ///
    /// # Errors
    ///
    /// [`Error::Refused`] if the ABI names too many registers or a register twice;
    /// [`Error::NoMemory`].
    pub fn backtrace(
        &self,
        address: u64,
        state: &State<'_>,
        limit: usize,
    ) -> Result<Backtrace, Error> {
        let mut frames = Vec::new();
        let mut slots = limit.min(FIRST_FRAMES);
        loop {
            let more = slots - frames.len();
            frames
                .try_reserve_exact(more)
                .map_err(|_| Error::NoMemory)?;
            frames.resize(slots, Frame::default());
            let (count, stop) = self.walk(address, state, &mut frames, None)?;
            if stop != Stop::Limit || slots == limit {
                frames.truncate(count);
                return Ok(Backtrace { frames, stop });
            }
            slots = slots.saturating_mul(4).min(limit);
        }
    }

    /// Walks up the stack from the frame at an address, and writes as many frames as fit into
    /// `slots`. Returns these frames, and why there are no more.
    ///
    /// This allocates nothing.
    ///
    /// # Errors
    ///
    /// [`Error::Refused`] if the ABI names too many registers or a register twice.
    ///
    /// ```
    /// use dwcheck::{Abi, Frame, Process, Registers, State, Stop, Target};
    ///
    /// let process = Process::new(Target::LITTLE_64);
    /// let state = State { registers: &Registers::new(), memory: &[], abi: Abi::NONE };
    /// let mut slots = [Frame::default(); 8];
    /// let (frames, stop) = process.backtrace_into(0x1010, &state, &mut slots)?;
    /// assert_eq!((frames.len(), frames[0].address()), (1, 0x1010));
    /// assert_eq!(stop, Stop::NotCovered);
    /// # Ok::<(), dwcheck::Error>(())
    /// ```
    pub fn backtrace_into<'f>(
        &self,
        address: u64,
        state: &State<'_>,
        slots: &'f mut [Frame],
    ) -> Result<(&'f [Frame], Stop), Error> {
        let (count, stop) = self.walk(address, state, slots, None)?;
        Ok((&slots[..count], stop))
    }

    /// Does what [`backtrace_into`](Process::backtrace_into) does, and is faster if the same
    /// functions were on a stack that was walked before with this cache, as in a profiler.
    ///
    /// This allocates nothing.
    ///
    /// # Errors
    ///
    /// [`Error::Refused`] if the ABI names too many registers or a register twice.
    ///
    /// ```
    /// use dwcheck::{Abi, Cache, Frame, Process, Registers, State, Stop, Target};
    ///
    /// let process = Process::new(Target::LITTLE_64);
    /// let state = State { registers: &Registers::new(), memory: &[], abi: Abi::NONE };
    /// let (mut slots, mut cache) = ([Frame::default(); 8], Cache::new());
    /// let (frames, stop) = process.backtrace_cached(0x1010, &state, &mut slots, &mut cache)?;
    /// assert_eq!((frames.len(), frames[0].address()), (1, 0x1010));
    /// assert_eq!(stop, Stop::NotCovered);
    /// # Ok::<(), dwcheck::Error>(())
    /// ```
    pub fn backtrace_cached<'f>(
        &self,
        address: u64,
        state: &State<'_>,
        slots: &'f mut [Frame],
        cache: &mut Cache,
    ) -> Result<(&'f [Frame], Stop), Error> {
        let (count, stop) = self.walk(address, state, slots, Some(cache))?;
        Ok((&slots[..count], stop))
    }

    /// Walks up the stack, with a cache if one is passed, and writes as many frames as fit into
    /// `slots`. Returns the number of frames, and why the walk ended.
    fn walk(
        &self,
        address: u64,
        state: &State<'_>,
        slots: &mut [Frame],
        cache: Option<&mut Cache>,
    ) -> Result<(usize, Stop), Error> {
        let length = slots.len();
        let mut count = 0;
        let mut stop = ffi::STOP_LIMIT;
        let mut fault = ffi::Fault::default();
        let (process, state) = (&self.raw, state.raw());
        let frames = Frame::raw_slots(slots);
        // SAFETY: the process and what `state` borrows are only read, `slots` and `cache` are
        // borrowed exclusively, and the other pointers are to locals.
        let status = unsafe {
            match cache {
                None => ffi::dwcheck_backtrace(
                    process, address, &state, frames, length, &mut count, &mut stop, &mut fault,
                ),
                Some(cache) => ffi::dwcheck_backtrace_cached(
                    process,
                    address,
                    &state,
                    frames,
                    length,
                    &mut count,
                    &mut stop,
                    cache.raw(),
                    &mut fault,
                ),
            }
        };
        Error::check(status, fault)?;
        Ok((count.min(length), Stop::of(stop)))
    }
}
