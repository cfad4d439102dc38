//! Walks up the stack of a thread.

use super::both_ends::{BothEnds, Walked};
use super::symbols::SymbolCaller;
use super::tables::Found;
use super::{Frame, Stacks, Stop, WalkOptions};
use crate::process::without_row::{FoundBy, Growth, Guess, Guesser, NotGrowing, View};
use dwcheck::{Abi, Answer, Block, Error, Registers, State};

/// A walk up the stack of a thread.
pub(super) struct Walker<'w, 'a> {
    /// The process.
    pub stacks: &'w Stacks<'a>,
    /// Its memory.
    pub blocks: &'w [Block<'a>],
    /// How to walk.
    pub options: WalkOptions,
    /// The bits of a return address that may have its signature.
    pub signed_bits: u64,
    /// The frames' CFAs.
    pub growth: Growth,
}

/// A frame that called, with its registers; or that there is none.
enum Caller {
    Frame(Frame, Registers),
    None(Stop),
}

impl Walker<'_, '_> {
    /// The frames from the one with these registers on, and why there are no more.
    pub fn walk(mut self, address: u64, mut registers: Registers) -> Result<Walked, Error> {
        let mut ends = BothEnds::new(self.options);
        self.growth.begin(self.stacks.core.abi());
        let mut next =
            Frame::first(address, if self.stacks.core.is_minidump() { FoundBy::Context } else { FoundBy::Thread });
        loop {
            if ends.is_full() {
                return Ok(ends.end(Stop::Limit));
            }
            if self.options.keeps_registers {
                next.registers = registers.iter().collect();
            }
            match self.caller(&mut next, &registers)? {
                Caller::Frame(frame, known) => {
                    ends.push(std::mem::replace(&mut next, frame));
                    registers = known;
                }
                // The frame is among those before it.
                Caller::None(Stop::Loop) => return Ok(ends.end(Stop::Loop)),
                Caller::None(stop) => {
                    ends.push(next);
                    return Ok(ends.end(stop));
                }
            }
        }
    }

    /// The caller of a frame. Stores the frame's CFA in it.
    fn caller(&mut self, frame: &mut Frame, registers: &Registers) -> Result<Caller, Error> {
        let abi = self.stacks.core.abi();
        let state = State { registers, memory: self.blocks, abi: Abi::new(abi.callee_saved, Some(abi.stack_pointer)) };
        let found = self.stacks.tables.borrow_mut().caller(frame.looked_up(), &state)?;
        // No call is before the code to which a signal handler returns, so a row of what is before it
        // doesn't count.
        let is_signal_frame = found.as_ref().map_or(false, |found| found.is_signal_frame);
        let guesser = Guesser { view: self.stacks, registers };
        let may_be_return = frame.is_after_call && !is_signal_frame;
        if let Some(code) = may_be_return.then(|| guesser.signal_return(frame.address)).flatten() {
            let guess = guesser.by_signal_return(code).filter(|_| !self.options.is_strict);
            (frame.is_after_call, frame.is_signal_frame) = (false, true);
            return Ok(self.by_guess(frame, guess));
        }
        if let Some(mut found) = found {
            self.pass_pushed(frame.looked_up(), &mut found);
            return Ok(self.by_row(frame, found));
        }
        if let Some(found) = self.stacks.symbol_caller(frame, registers) {
            return Ok(self.by_symbol_row(frame, found));
        }
        // Some code, such as Go's, puts the first address of a function where a return address is, as if the function
        // had been called and had done nothing yet.
        if frame.is_after_call && !guesser.may_follow_call(frame.address) {
            let found = self.stacks.tables.borrow_mut().caller_at_begin(frame.address, &state)?;
            if let Some(found) = found {
                frame.is_after_call = false;
                return Ok(self.by_row(frame, found));
            }
        }
        let guess = match self.options.is_strict {
            true => None,
            false => guesser.caller(frame.address, frame.is_after_call)?,
        };
        let guess = guess.or_else(|| if self.options.scans { guesser.by_scan() } else { None });
        Ok(self.by_guess(frame, guess))
    }

    /// Moves a caller on aarch64 past what an entry of a procedure linkage table has pushed, where glibc looks a symbol up
    /// for the first time. The rows of its function `_dl_runtime_resolve` count from its own first instruction: the return
    /// address is a word above what they call the CFA. No other row that was seen has it there.
    fn pass_pushed(&self, address: u64, found: &mut Found) {
        const PUSHED: u64 = 16;
        const WORD: u64 = 8;
        let abi = self.stacks.core.abi();
        let (link, cfa) = match (abi.link_register, found.cfa) {
            (Some(link), Some(cfa)) => (link, cfa),
            _ => return,
        };
        let unsigned = |word: u64| word & !self.signed_bits;
        let guesser = Guesser { view: self.stacks, registers: &found.registers };
        let above = guesser.word(cfa.wrapping_add(WORD)).map(unsigned);
        // The row is looked up only if the word is there, which is rare.
        let is_there = above.is_some() && above == found.return_address.value().map(unsigned);
        if is_there && self.stacks.tables.borrow_mut().saves(address, link, WORD as i64) {
            found.cfa = Some(cfa.wrapping_add(PUSHED));
            found.registers.set(abi.stack_pointer, cfa.wrapping_add(PUSHED));
        }
    }

    fn by_row(&mut self, frame: &mut Frame, found: Found) -> Caller {
        let Found { cfa, return_address, registers, is_signal_frame, is_signal_return } = found;
        frame.cfa = cfa;
        frame.is_signal_frame = is_signal_frame;
        frame.is_after_call &= !is_signal_return;
        if let Some(stop) = self.stop_at(frame) {
            return Caller::None(stop);
        }
        let address = match return_address {
            Answer::Value(address) => address & !self.signed_bits,
            Answer::Undefined => return Caller::None(Stop::ReturnUndefined),
            Answer::DivisionByZero => return Caller::None(Stop::ReturnDivisionByZero),
            _ => return Caller::None(Stop::ReturnUnreadable),
        };
        // A signal may have interrupted anything, but a call is only in code.
        if !is_signal_frame && !self.stacks.is_in_code(address) {
            if !self.stacks.may_be_code(address) {
                return Caller::None(Stop::NotExecutable(address));
            }
            if (Guesser { view: self.stacks, registers: &registers }).by_chain().is_none() {
                return Caller::None(Stop::NotKnown(address));
            }
        }
        let next = Frame { is_after_call: !is_signal_frame, ..Frame::caller(address, FoundBy::Row) };
        Caller::Frame(next, registers)
    }

    fn by_symbol_row(&mut self, frame: &mut Frame, found: SymbolCaller) -> Caller {
        let SymbolCaller { cfa, return_address, registers, is_signal_frame } = found;
        frame.cfa = cfa;
        frame.is_signal_frame = is_signal_frame;
        frame.is_after_call &= !is_signal_frame;
        if let Some(stop) = self.stop_at(frame) {
            return Caller::None(stop);
        }
        let address = match return_address {
            Some(0) => return Caller::None(Stop::ReturnUndefined),
            Some(address) => address & !self.signed_bits,
            None => return Caller::None(Stop::ReturnUnreadable),
        };
        if !is_signal_frame && !self.stacks.is_in_code(address) {
            return Caller::None(Stop::NotExecutable(address));
        }
        let next = Frame { is_after_call: !is_signal_frame, ..Frame::caller(address, FoundBy::SymbolRow) };
        Caller::Frame(next, registers)
    }

    fn by_guess(&mut self, frame: &mut Frame, guess: Option<Guess>) -> Caller {
        let Guess { found_by, address, registers, cfa } = match guess {
            Some(guess) => guess,
            None => return Caller::None(Stop::NotCovered),
        };
        frame.cfa = Some(cfa);
        match self.stop_at(frame) {
            Some(stop) => Caller::None(stop),
            None => {
                let is_after_call = !frame.is_signal_frame;
                Caller::Frame(Frame { is_after_call, ..Frame::caller(address, found_by) }, registers)
            }
        }
    }

    /// Why the stack ends at a frame whose CFA is known, if it does.
    fn stop_at(&mut self, frame: &Frame) -> Option<Stop> {
        let fault = self.growth.add(frame.address, frame.cfa?, frame.is_signal_frame)?;
        Some(match fault {
            NotGrowing::Loop => Stop::Loop,
            NotGrowing::Cfa => Stop::CfaNotGrowing,
        })
    }
}
