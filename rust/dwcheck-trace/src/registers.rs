//! The registers of a stopped thread, by DWARF number.

use dwcheck_types::abi::{callee_saved, X86_64};
use libc::user_regs_struct;

/// How many registers are known: the general ones, and the instruction pointer.
pub const COUNT: usize = 17;

/// How many registers a function has to give back as it got them.
pub const SAVED_COUNT: usize = CALLEE_SAVED.len();

/// The DWARF numbers of these: rbx, rbp, r12 to r15.
pub const CALLEE_SAVED: [u16; 6] = callee_saved::X86_64;

const STACK_POINTER: usize = X86_64.stack_pointer as usize;
const PROGRAM_COUNTER: usize = X86_64.program_counter as usize;

/// The registers of a stopped thread of x86-64, by their DWARF numbers.
#[derive(Clone, Copy, Debug, Default, PartialEq, Eq)]
pub struct Registers([u64; COUNT]);

impl Registers {
    /// The registers as the kernel gives them.
    pub fn of(raw: &user_regs_struct) -> Self {
        Registers([
            raw.rax, raw.rdx, raw.rcx, raw.rbx, raw.rsi, raw.rdi, raw.rbp, raw.rsp, raw.r8, raw.r9, raw.r10, raw.r11,
            raw.r12, raw.r13, raw.r14, raw.r15, raw.rip,
        ])
    }

    /// Registers of a caller, as far as they are known. The others are 0.
    pub fn known(registers: &[Option<u64>; COUNT]) -> Self {
        Registers(registers.map(Option::unwrap_or_default))
    }

    /// The stack pointer.
    pub fn stack_pointer(&self) -> u64 {
        self.0[STACK_POINTER]
    }

    /// The address of the next instruction.
    pub fn program_counter(&self) -> u64 {
        self.0[PROGRAM_COUNTER]
    }

    /// The same registers with another address of the next instruction.
    #[must_use]
    pub fn at(mut self, address: u64) -> Self {
        self.0[PROGRAM_COUNTER] = address;
        self
    }

    /// The same registers, of which the one with this DWARF number has another value.
    #[must_use]
    pub fn with(mut self, number: u16, value: u64) -> Self {
        self.0.iter_mut().skip(number.into()).take(1).for_each(|register| *register = value);
        self
    }

    /// The register with this DWARF number.
    pub fn get(&self, number: u16) -> Option<u64> {
        self.0.get(usize::from(number)).copied()
    }

    /// The registers that a function has to give back.
    pub fn callee_saved(&self) -> [u64; SAVED_COUNT] {
        CALLEE_SAVED.map(|number| self.0[usize::from(number)])
    }

    /// All registers, with their DWARF numbers.
    pub fn iter(&self) -> impl Iterator<Item = (u16, u64)> + '_ {
        (0..).zip(self.0.iter().copied())
    }
}
