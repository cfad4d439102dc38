//! What the lint asks of a processor and its calling convention.

use crate::instruction::Instruction;
use crate::register::{Register, Registers};

/// A processor with its calling convention, and its decoder.
pub struct Machine {
    /// The machine's number in ELF files (`e_machine`).
    pub number: u16,
    /// How many bytes an address has, and so a slot of the stack.
    pub address_bytes: u8,
    /// The names of its registers, by their numbers.
    pub names: &'static [&'static str],
    /// How many registers are followed, which are the first ones, at most [`MOST_FOLLOWED`].
    pub followed: u8,
    /// The register with a DWARF number. Those that aren't followed may all be the same one.
    pub register: fn(u16) -> Register,
    /// The stack pointer.
    pub stack_pointer: Register,
    /// The register that compilers use as the frame pointer.
    pub frame_pointer: Register,
    /// The register of the return address in rows. It isn't followed if a call pushes the address.
    pub return_address: Register,
    /// The registers that a function has to give back as it got them, at most [`MOST_CALLEE_SAVED`].
    pub callee_saved: &'static [Register],
    /// Those of them that are judged only in FDEs with a rule for them.
    pub callee_saved_if_named: Registers,
    /// What the stack pointer is always a multiple of, by what the processor demands. 1 if it demands
    /// nothing.
    pub stack_alignment: i64,
    /// Whether compilers write FDEs whose rows are right at calls only.
    pub has_rows_for_calls: bool,
    /// The registers that a function may change.
    pub changeable: Registers,
    /// Whether functions may remove arguments from the stack that their callers have put there.
    pub callees_pop: bool,
    /// The registers that the instruction of a call overwrites.
    pub call_writes: Registers,
    /// The CFA minus the stack pointer, where a function begins.
    pub entry_offset: i64,
    /// The offset from the CFA where the return address is when a function begins. `None` if it is in its
    /// register.
    pub return_slot: Option<i64>,
    /// Registers for which rows of functions that call `__builtin_eh_return` have rules.
    pub exception_data: Registers,
    /// The register that has the number of a system call, and the numbers of those that don't return.
    pub exits: (Register, &'static [i64]),
    /// The address of the pointer by which the code at the first of these bytes jumps, which is at this
    /// address, if that is all it does and [`Target::Pointer`](crate::instruction::Target) doesn't say so.
    pub stub: fn(&[u8], u64) -> Option<u64>,
    /// Decodes the instruction at the first of these bytes, which is at this address.
    pub decode: fn(&[u8], u64) -> Instruction,
    /// The text of the instruction at the first of these bytes, which is at this address.
    pub text: fn(&[u8], u64) -> String,
}

/// The most registers that a machine's functions give back as they got them.
pub const MOST_CALLEE_SAVED: usize = 19;

/// The most registers of a machine that are followed.
pub const MOST_FOLLOWED: usize = 40;

/// All machines whose code is read.
pub static MACHINES: [&Machine; 3] = [&crate::x86_64::X86_64, &crate::i386::I386, &crate::aarch64::AARCH64];

impl Machine {
    /// The machine with this number. `None` if its code isn't read.
    pub fn numbered(number: u16) -> Option<&'static Machine> {
        MACHINES.iter().copied().find(|machine| machine.number == number)
    }

    /// The name of a register.
    pub fn name(&self, register: Register) -> &'static str {
        self.names.get(register.index()).copied().unwrap_or("?")
    }

    /// The bits of an address.
    pub fn address_mask(&self) -> u64 {
        u64::MAX >> (64 - 8 * u32::from(self.address_bytes.min(8)))
    }

    /// Whether the value of a register is followed.
    pub fn is_followed(&self, register: Register) -> bool {
        register.0 < self.followed
    }

    /// The registers that are followed, ascending.
    pub fn followed(&self) -> impl Iterator<Item = Register> {
        (0..self.followed).map(Register)
    }
}
