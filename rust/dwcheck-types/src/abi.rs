//! What calling conventions say of registers, by their DWARF numbers.

use crate::target::AddressSize;

/// The general-purpose registers that are callee-saved, without the stack pointer. If calls leave the return address in
/// a register, that register is in the list too, because a leaf function doesn't change it.
pub mod callee_saved {
    /// x86-64: rbx, rbp and r12 to r15.
    pub const X86_64: [u16; 6] = [3, 6, 12, 13, 14, 15];

    /// i386: ebx, ebp, esi and edi.
    pub const I386: [u16; 4] = [3, 5, 6, 7];

    /// aarch64: x19 to x29, and x30 for the return address.
    pub const AARCH64: [u16; 12] = [19, 20, 21, 22, 23, 24, 25, 26, 27, 28, 29, 30];

    /// arm: r4 to r11, and r14 for the return address.
    pub const ARM: [u16; 9] = [4, 5, 6, 7, 8, 9, 10, 11, 14];

    /// powerpc and powerpc64: r14 to r31, and the link register, 65, for the return address.
    pub const POWERPC: [u16; 19] = [14, 15, 16, 17, 18, 19, 20, 21, 22, 23, 24, 25, 26, 27, 28, 29, 30, 31, 65];

    /// s390x: r6 to r13, r15, and r14 for the return address. r15 is the stack pointer, which is here because the CFA
    /// isn't its value in the caller: it is that value plus 160.
    pub const S390X: [u16; 10] = [6, 7, 8, 9, 10, 11, 12, 13, 15, 14];

    /// riscv: s0 to s11 (8, 9 and 18 to 27), and ra (1) for the return address.
    pub const RISCV: [u16; 13] = [8, 9, 18, 19, 20, 21, 22, 23, 24, 25, 26, 27, 1];

    /// mips: s0 to s7 (16 to 23), s8 (30), and ra (31) for the return address.
    pub const MIPS: [u16; 10] = [16, 17, 18, 19, 20, 21, 22, 23, 30, 31];
}

/// What the calling convention of an architecture says of registers, by their DWARF numbers.
#[derive(Clone, Copy, Debug, PartialEq, Eq)]
pub struct Abi {
    /// The architecture's name.
    pub name: &'static str,
    /// The machine's number (`e_machine`).
    pub machine: u16,
    /// The size of an address.
    pub address_size: AddressSize,
    /// The DWARF numbers of the [callee-saved](callee_saved) registers, ascending.
    pub callee_saved: &'static [u16],
    /// The DWARF number of the stack pointer, whose value in the caller is the CFA.
    pub stack_pointer: u16,
    /// The DWARF number of the instruction pointer.
    pub program_counter: u16,
    /// The DWARF number of the register that code with frame pointers uses for them.
    pub frame_pointer: u16,
    /// The DWARF number of the register in which a call leaves the return address. `None` if a call
    /// writes it to the stack.
    pub link_register: Option<u16>,
    /// The DWARF number of the register that has the address of the thread's own data, which C libraries
    /// put above the thread's stack. `None` if debuggers don't get it.
    pub thread_pointer: Option<u16>,
}

/// x86-64 with the calling convention of System V.
pub const X86_64: Abi = Abi {
    name: "x86-64",
    machine: 62,
    address_size: AddressSize::Eight,
    callee_saved: &callee_saved::X86_64,
    stack_pointer: 7,
    program_counter: 16,
    frame_pointer: 6,
    link_register: None,
    // fs_base
    thread_pointer: Some(58),
};

/// i386, with the DWARF numbers that ELF systems use.
pub const I386: Abi = Abi {
    name: "i386",
    machine: 3,
    address_size: AddressSize::Four,
    callee_saved: &callee_saved::I386,
    stack_pointer: 4,
    program_counter: 8,
    frame_pointer: 5,
    link_register: None,
    thread_pointer: None,
};

/// aarch64 with the calling convention of Arm's AAPCS64.
pub const AARCH64: Abi = Abi {
    name: "aarch64",
    machine: 183,
    address_size: AddressSize::Eight,
    callee_saved: &callee_saved::AARCH64,
    stack_pointer: 31,
    program_counter: 32,
    frame_pointer: 29,
    link_register: Some(30),
    // tpidr_el0
    thread_pointer: Some(36),
};

/// The calling convention of a machine (`e_machine`) with this address size. `None` if the two
/// aren't supported together.
pub fn abi(machine: u16, address_size: AddressSize) -> Option<&'static Abi> {
    const KNOWN: [&Abi; 3] = [&X86_64, &I386, &AARCH64];
    KNOWN.into_iter().find(|abi| abi.machine == machine && abi.address_size == address_size)
}

#[cfg(feature = "gimli")]
impl Abi {
    /// The name of a register, such as `rip`, by its DWARF number. A register without a name is `r`
    /// and its number.
    pub fn register_name(&self, number: u16) -> String {
        let register = gimli::Register(number);
        let name = match self.machine {
            machine if number == self.program_counter => program_counter_name(machine),
            machine if machine == X86_64.machine => gimli::X86_64::register_name(register),
            machine if machine == I386.machine => gimli::X86::register_name(register),
            _ => gimli::AArch64::register_name(register),
        };
        name.map_or_else(|| format!("r{}", number), str::to_lowercase)
    }
}

/// The name of the instruction pointer, for which gimli has that of the return address.
#[cfg(feature = "gimli")]
fn program_counter_name(machine: u16) -> Option<&'static str> {
    [(X86_64.machine, "rip"), (I386.machine, "eip"), (AARCH64.machine, "pc")]
        .into_iter()
        .find_map(|(known, name)| (known == machine).then_some(name))
}
