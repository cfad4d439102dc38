//! The registers of a task, by their DWARF numbers.

use super::recording::{Features, Sample, TaskRegisters};
use dwcheck::Registers;
use dwcheck_elf::internal::without_row::signed_bits;
use dwcheck_types::abi::{abi, Abi};
use dwcheck_types::target::{AddressSize, Order, Target};
use object::elf::{EM_386, EM_AARCH64, EM_X86_64};

/// A processor that was recorded.
#[derive(Clone, Copy, Debug, PartialEq, Eq)]
pub(super) enum Processor {
    X86,
    Arm64,
    Other,
}

/// The DWARF numbers of perf's registers of x86-64: ax, bx, cx, dx, si, di, bp, sp, ip, and from 16 on r8 to
/// r15. The numbers between are flags and segments.
const X86_64: [Option<u16>; 24] = [
    Some(0),
    Some(3),
    Some(2),
    Some(1),
    Some(4),
    Some(5),
    Some(6),
    Some(7),
    Some(16),
    None,
    None,
    None,
    None,
    None,
    None,
    None,
    Some(8),
    Some(9),
    Some(10),
    Some(11),
    Some(12),
    Some(13),
    Some(14),
    Some(15),
];

/// The same for tasks of i386.
const I386: [Option<u16>; 9] = [Some(0), Some(3), Some(1), Some(2), Some(6), Some(7), Some(5), Some(4), Some(8)];

/// perf's registers of aarch64, x0 to x30, sp and pc, have their DWARF numbers.
const AARCH64: u32 = 33;

impl Processor {
    /// The processor of a recording: by its architecture, as `uname -m` has it, or else by which registers
    /// samples have.
    pub fn of(features: &Features, registers: TaskRegisters<'_>) -> Processor {
        match features.architecture.as_deref() {
            Some("x86_64" | "i386" | "i486" | "i586" | "i686") => Processor::X86,
            Some("aarch64" | "aarch64_be" | "arm64") => Processor::Arm64,
            Some(_) => Processor::Other,
            // Flags and segments have the numbers 9 to 15, and nothing has 24 to 31.
            None if registers.has(24) => Processor::Arm64,
            None => Processor::X86,
        }
    }
}

/// A task whose stack can be walked.
pub(super) struct Task<'a> {
    pub target: Target,
    pub abi: &'static Abi,
    pub program_counter: u64,
    pub stack_pointer: u64,
    pub stack: &'a [u8],
}

impl<'a> Task<'a> {
    /// The task of a sample, whose registers go to `known`. `None` if the sample has no copy of the stack, or
    /// its registers aren't known here.
    pub fn of(sample: &Sample<'a>, features: &Features, order: Order, known: &mut Registers) -> Option<Task<'a>> {
        let registers = sample.registers.filter(|_| !sample.stack.is_empty())?;
        let (machine, address_size) = match (Processor::of(features, registers), registers.is_32_bit) {
            (Processor::X86, false) => (EM_X86_64, AddressSize::Eight),
            (Processor::X86, true) => (EM_386, AddressSize::Four),
            (Processor::Arm64, false) => (EM_AARCH64, AddressSize::Eight),
            _ => return None,
        };
        known.clear();
        for (number, value) in registers.iter() {
            let dwarf = match machine {
                EM_X86_64 => X86_64.get(number as usize).copied().flatten(),
                EM_386 => I386.get(number as usize).copied().flatten(),
                _ => u16::try_from(number).ok().filter(|_| number < AARCH64),
            };
            dwarf.into_iter().for_each(|dwarf| known.set(dwarf, value));
        }
        let abi = abi(machine, address_size)?;
        Some(Task {
            target: Target { order, address_size },
            abi,
            program_counter: known.get(abi.program_counter)?,
            stack_pointer: known.get(abi.stack_pointer)?,
            stack: sample.stack,
        })
    }

    /// What the calling convention says.
    pub fn convention(&self) -> dwcheck::Abi<'static> {
        dwcheck::Abi::new(self.abi.callee_saved, Some(self.abi.stack_pointer)).signed(self.signed_bits())
    }

    /// The bits of a return address that may have its signature. 0 for machines that sign no addresses.
    pub fn signed_bits(&self) -> u64 {
        match self.abi.link_register {
            Some(_) => signed_bits(None, self.stack_pointer | self.program_counter),
            None => 0,
        }
    }

    /// The bytes of the stack from an address on. `None` if the copy doesn't have the address.
    pub fn stack_from(&self, address: u64) -> Option<&'a [u8]> {
        let at = usize::try_from(address.checked_sub(self.stack_pointer)?).ok()?;
        self.stack.get(at..).filter(|bytes| !bytes.is_empty())
    }

    /// Whether an address is after the copy of the stack.
    pub fn is_after(&self, address: u64) -> bool {
        address >= self.stack_pointer.saturating_add(self.stack.len() as u64)
    }
}
