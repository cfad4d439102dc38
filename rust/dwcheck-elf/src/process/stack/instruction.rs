//! The instruction that caused the signal that ended a process.

use super::Stacks;
use crate::process::core_file::Signal;
use dwcheck_lint::instruction::Effect;
use dwcheck_lint::machine::Machine;

/// The most bytes of an instruction that are read: those of the longest one of x86.
const LONGEST: usize = 15;

/// An instruction that caused a signal.
#[derive(Clone, Debug, PartialEq, Eq)]
pub struct Instruction {
    /// Its address.
    pub address: u64,
    /// Its bytes. If it isn't known where it ends, the bytes that could be its, at most 15. Empty if
    /// they aren't known.
    pub bytes: Vec<u8>,
    /// Its text as assemblers read it, if it is an instruction of x86-64 or i386, or one of aarch64 that
    /// changes a frame.
    pub text: Option<String>,
}

impl Stacks<'_> {
    /// The instruction at which the first thread was stopped, if an instruction caused the signal that
    /// ended the process.
    pub fn instruction(&self) -> Option<Instruction> {
        self.core.signal().filter(Signal::is_fault)?;
        let abi = self.core.abi();
        let address = self.core.threads().first()?.register(abi.program_counter)?;
        let bytes = self.memory.at_most(address, LONGEST);
        Some(match Machine::numbered(abi.machine) {
            Some(machine) => Instruction::decoded(machine, address, bytes),
            None => Instruction { address, bytes, text: None },
        })
    }
}

impl Instruction {
    fn decoded(machine: &Machine, address: u64, mut bytes: Vec<u8>) -> Self {
        let found = (machine.decode)(&bytes, address);
        if bytes.is_empty() || found.effect == Effect::Invalid {
            return Instruction { address, bytes, text: None };
        }
        bytes.truncate(usize::from(found.length));
        let text = Some((machine.text)(&bytes, address)).filter(|text| !text.starts_with(".inst"));
        Instruction { address, bytes, text }
    }
}
