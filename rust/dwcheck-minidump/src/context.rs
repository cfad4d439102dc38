//! The registers of a thread, in the order of each machine (`CONTEXT`; Breakpad's `minidump_cpu_*.h`).

use crate::file::fields;
use crate::system::Machine;
use crate::threads::Registers;

/// Where the registers of a machine are in its context.
struct Layout {
    /// The offset of the flags, which have 4 bytes.
    flags: u64,
    /// The flag of the machine.
    machine: u64,
    /// The flag of the vector registers.
    vector: u64,
    /// Those that the flag [`CONTROL`] stands for: the offset, the size and the DWARF number of each.
    control: &'static [(u64, u8, u16)],
    /// Those that the flag [`INTEGER`] stands for.
    integer: &'static [(u64, u8, u16)],
    /// The offset, the number and the first DWARF number of the vector registers, each of which has 16 bytes.
    vectors: (u64, u16, u16),
}

/// The flag of the program counter and the stack pointer.
const CONTROL: u64 = 1;

/// The flag of the other general registers.
const INTEGER: u64 = 2;

const X86_64: Layout = Layout {
    flags: 48,
    machine: 0x10_0000,
    vector: 8,
    // cs, ss, eflags, rsp, rip.
    control: &[(56, 2, 51), (66, 2, 52), (68, 4, 49), (152, 8, 7), (248, 8, 16)],
    // rax, rcx, rdx, rbx, rbp, rsi, rdi, r8 to r15.
    integer: &[
        (120, 8, 0),
        (128, 8, 2),
        (136, 8, 1),
        (144, 8, 3),
        (160, 8, 6),
        (168, 8, 4),
        (176, 8, 5),
        (184, 8, 8),
        (192, 8, 9),
        (200, 8, 10),
        (208, 8, 11),
        (216, 8, 12),
        (224, 8, 13),
        (232, 8, 14),
        (240, 8, 15),
    ],
    vectors: (416, 16, 17),
};

const I386: Layout = Layout {
    flags: 0,
    machine: 0x1_0000,
    vector: 0,
    // ebp, eip, cs, eflags, esp, ss.
    control: &[(180, 4, 5), (184, 4, 8), (188, 4, 41), (192, 4, 9), (196, 4, 4), (200, 4, 42)],
    // edi, esi, ebx, edx, ecx, eax.
    integer: &[(156, 4, 7), (160, 4, 6), (164, 4, 3), (168, 4, 2), (172, 4, 1), (176, 4, 0)],
    vectors: (0, 0, 0),
};

const AARCH64: Layout = Layout {
    flags: 0,
    machine: 0x40_0000,
    vector: 4,
    control: &AARCH64_CONTROL,
    integer: &AARCH64_INTEGER,
    vectors: (272, 32, 64),
};

/// The flags have 8 bytes here, of which the upper 4 are 0.
const AARCH64_OLD: Layout = Layout { machine: 0x8000_0000, vectors: (284, 32, 64), ..AARCH64 };

/// x29, x30, sp, pc.
const AARCH64_CONTROL: [(u64, u8, u16); 4] = [(240, 8, 29), (248, 8, 30), (256, 8, 31), (264, 8, 32)];

/// x0 to x28.
const AARCH64_INTEGER: [(u64, u8, u16); 29] = {
    let mut all = [(8, 8, 0); 29];
    let mut number = 0;
    while number < 29 {
        all[number] = (8 + 8 * number as u64, 8, number as u16);
        number += 1;
    }
    all
};

impl Layout {
    fn of(machine: Machine) -> &'static Layout {
        match machine {
            Machine::X86_64 => &X86_64,
            Machine::I386 => &I386,
            Machine::Aarch64 => &AARCH64,
            Machine::Aarch64Old => &AARCH64_OLD,
        }
    }

    /// The registers in a context, by their DWARF numbers, ascending. `None` if it is another machine's, or too short,
    /// or has no program counter.
    fn registers(&self, context: &[u8]) -> Option<Registers> {
        let flags = number_at(context, self.flags, 4)?;
        if flags & self.machine == 0 || flags & CONTROL == 0 {
            return None;
        }
        let integer = if flags & INTEGER == 0 { &[] } else { self.integer };
        let all = self.control.iter().chain(integer);
        let general: Option<Vec<_>> =
            all.map(|(offset, size, register)| Some((*register, number_at(context, *offset, *size)?))).collect();
        let mut general = general?;
        general.sort_unstable();
        let vectors = if flags & self.vector == 0 { Vec::new() } else { self.vectors(context).unwrap_or_default() };
        Some(Registers { general, vectors })
    }

    /// The low 8 bytes of each vector register. `None` if the context is too short.
    fn vectors(&self, context: &[u8]) -> Option<Vec<(u16, u64)>> {
        let (offset, count, first) = self.vectors;
        let vector = |place: u16| Some((first + place, number_at(context, offset + 16 * u64::from(place), 8)?));
        (0..count).map(vector).collect()
    }
}

/// The number at an offset.
fn number_at(bytes: &[u8], offset: u64, size: u8) -> Option<u64> {
    let mut cursor = fields(bytes);
    cursor.take(offset).ok()?;
    cursor.number(size).ok()
}

/// The registers in a context of a machine. `None` if they can't be read.
pub(crate) fn registers_of_context(machine: Machine, context: &[u8]) -> Option<Registers> {
    Layout::of(machine).registers(context)
}

#[cfg(test)]
mod tests {
    use super::*;

    /// LLDB's contexts have 720 bytes, and Crashpad's 1,232.
    #[test]
    fn contexts_of_other_sizes_and_of_other_machines() {
        let mut context = [0; 1232];
        context[48..52].copy_from_slice(&0x10_000fu32.to_le_bytes());
        context[248..256].copy_from_slice(&0x1234u64.to_le_bytes());
        context[416..424].copy_from_slice(&7u64.to_le_bytes());
        for (size, vectors) in [(1232, 16), (720, 16), (256, 0)] {
            let found = registers_of_context(Machine::X86_64, &context[..size]).unwrap();
            assert_eq!(found.general.last(), Some(&(52, 0)));
            assert!(found.general.contains(&(16, 0x1234)), "{:?}", found);
            assert_eq!(found.vectors.len(), vectors);
        }
        assert!(registers_of_context(Machine::X86_64, &context[..255]).is_none());
        assert!(registers_of_context(Machine::I386, &context).is_none());
        assert!(registers_of_context(Machine::Aarch64, &context).is_none());
    }
}
