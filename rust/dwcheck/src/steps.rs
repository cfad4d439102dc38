//! Walking up a stack frame by frame, with all registers of each caller.

use crate::abi::Abi;
use crate::caller::{Answer, Caller};
use crate::fault::Error;
use crate::process::Process;
use crate::state::{Block, Registers, State};

/// A frame, and what is known about its caller.
#[derive(Clone, Debug, PartialEq, Eq, Hash)]
#[non_exhaustive]
pub struct Step {
    /// The frame's address, as loaded: the walk's first address, or a return address.
    pub address: u64,
    /// What is known about the frame's caller. [`Caller::cfa`] is the CFA of this frame. `None` if
    /// there is no row for this frame.
    pub caller: Option<Caller>,
}

/// An iterator over the frames of a stack, each with its caller. [`Process::steps`] makes it.
#[derive(Clone, Debug)]
pub struct Steps<'a> {
    process: &'a Process,
    memory: &'a [Block<'a>],
    abi: Abi<'a>,
    registers: Registers,
    /// The address of the next frame, and the address at which to look up that frame. The second
    /// one is `None` if the frame's address is a return address of 0, because there is no address
    /// before 0. All of `next` is `None` if there is no next frame.
    next: Option<(u64, Option<u64>)>,
}

impl Process {
    /// Walks up the stack from the frame at an address. Each step gives a frame, and all registers
    /// of its caller.
    ///
    /// The frames are the same as those of [`backtrace`](Process::backtrace), which is much faster.
    /// Each step calls [`unwind`](Process::unwind): for the first frame with its address and with
    /// the registers of `state`; for each later frame with its address minus one, or with its address
    /// if the frame before it is a signal frame, and with the registers whose values the step before
    /// found. The walk ends after a frame that has no row, or
    /// whose return address has no value. On a corrupt stack the walk may never end, so use
    /// [`take`](Iterator::take) to limit the number of steps.
    ///
    /// If the ABI names too many registers or a register twice, the only step is an error.
    ///
    /// ```
    /// # const SECTION: &[u8] = &[
    /// #     0x14, 0, 0, 0, 0xff, 0xff, 0xff, 0xff, 4, 0, 8, 0, 1, 0x78, 0x10, 0x0c, 7, 8, 0x90, 1, 0, 0, 0, 0,
    /// #     0x1c, 0, 0, 0, 0, 0, 0, 0, 0, 0x10, 0, 0, 0, 0, 0, 0, 0x20, 0, 0, 0, 0, 0, 0, 0,
    /// #     0x41, 0x0e, 0x10, 0x86, 2, 0x43, 0x0d, 6,
    /// # ];
    /// use dwcheck::{Abi, Answer, Block, Module, Process, Registers, State, Target};
    ///
    /// let mut process = Process::new(Target::LITTLE_64);
    /// process.add(SECTION, Module::at(0))?;
    /// let registers = Registers::from([(6, 0x7f00)]);
    /// let stack = [0, 0x80, 0, 0, 0, 0, 0, 0, 0x34, 0x12, 0, 0, 0, 0, 0, 0];
    /// let memory = [Block::new(0x7f00, &stack)];
    /// let state = State { registers: &registers, memory: &memory, abi: Abi::NONE };
    ///
    /// for step in process.steps(0x1010, &state).take(50) {
    ///     let step = step?;
    ///     match step.caller {
    ///         Some(caller) => assert_eq!(caller.register(6), Some(Answer::Value(0x8000))),
    ///         None => assert_eq!(step.address, 0x1234),
    ///     }
    /// }
    /// # Ok::<(), dwcheck::Error>(())
    /// ```
    pub fn steps<'a>(&'a self, address: u64, state: &State<'a>) -> Steps<'a> {
        Steps {
            process: self,
            memory: state.memory,
            abi: state.abi,
            registers: state.registers.clone(),
            next: Some((address, Some(address))),
        }
    }
}

impl Steps<'_> {
    /// The caller of the frame that is looked up at `address`. `None` if `address` is `None`, or if
    /// there is no row for the address.
    fn caller(&self, address: Option<u64>) -> Result<Option<Caller>, Error> {
        let state = State {
            registers: &self.registers,
            memory: self.memory,
            abi: self.abi,
        };
        match address {
            Some(address) => self.process.unwind(address, &state),
            None => Ok(None),
        }
    }
}

impl Iterator for Steps<'_> {
    type Item = Result<Step, Error>;

    fn next(&mut self) -> Option<Result<Step, Error>> {
        let (address, looked_up) = self.next.take()?;
        let caller = match self.caller(looked_up) {
            Ok(caller) => caller,
            Err(why) => return Some(Err(why)),
        };
        if let Some(caller) = &caller {
            if let Answer::Value(up) = caller.return_address {
                let is_signed = looked_up.map_or(false, |a| self.process.is_signed(a));
                let up = if is_signed {
                    up & !self.abi.signed_bits
                } else {
                    up
                };
                let is_signal = looked_up.map_or(false, |a| self.process.is_signal_frame(a));
                self.registers = caller.known();
                self.next = Some((
                    up,
                    if is_signal {
                        Some(up)
                    } else {
                        up.checked_sub(1)
                    },
                ));
            }
        }
        Some(Ok(Step { address, caller }))
    }
}

impl std::iter::FusedIterator for Steps<'_> {}
