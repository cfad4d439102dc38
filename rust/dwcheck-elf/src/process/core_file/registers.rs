//! Reads the id, the signal and the registers of a thread (`struct elf_prstatus` of Linux).

use dwcheck_types::abi::Abi;
use dwcheck_types::cursor::{Cursor, ReadError};
use dwcheck_types::target::{AddressSize, Target};
use object::elf;

/// A thread of a core file.
#[derive(Clone, Debug, PartialEq, Eq)]
pub struct Thread {
    /// Its id.
    pub id: u32,
    /// Its name, if it is known. Core files have only the name of the process's first thread:
    /// [`CoreFile::process`](super::CoreFile::process).
    pub name: Option<String>,
    /// The signal that the thread received, 0 if it received none.
    pub signal: u16,
    /// Its registers by their DWARF numbers, ascending.
    pub registers: Vec<(u16, u64)>,
    /// The low 8 bytes of its vector registers by their DWARF numbers, ascending: numbers with a fraction are there.
    pub vectors: Vec<(u16, u64)>,
}

impl Thread {
    /// The value of a register, by its DWARF number. `None` if the core doesn't have the register.
    pub fn register(&self, number: u16) -> Option<u64> {
        let found = self.registers.binary_search_by_key(&number, |(number, _)| *number).ok()?;
        self.registers.get(found).map(|(_, value)| *value)
    }
}

/// In the tables below, this stands for a register that isn't read, because it has no DWARF number.
const NO: u16 = u16::MAX;

/// The DWARF numbers of the registers of x86-64, in the order in which a core file has them: r15 to
/// r12, rbp, rbx, r11 to r8, rax, rcx, rdx, rsi, rdi, orig_rax, rip, cs, eflags, rsp, ss, fs_base,
/// gs_base, ds, es, fs, gs.
const X86_64: [u16; 27] =
    [15, 14, 13, 12, 6, 3, 11, 10, 9, 8, 0, 2, 1, 4, 5, NO, 16, 51, 49, 7, 52, 58, 59, 53, 50, 54, 55];

/// The DWARF numbers of the registers of i386, in the order in which a core file has them: ebx,
/// ecx, edx, esi, edi, ebp, eax, ds, es, fs, gs, orig_eax, eip, cs, eflags, esp, ss.
const I386: [u16; 17] = [3, 1, 2, 6, 7, 5, 0, 43, 40, 44, 45, NO, 8, 41, 9, 4, 42];

/// The DWARF numbers of the registers of aarch64, in the order in which a core file has them: x0 to
/// x30, sp, pc, pstate.
const AARCH64: [u16; 34] = [
    0, 1, 2, 3, 4, 5, 6, 7, 8, 9, 10, 11, 12, 13, 14, 15, 16, 17, 18, 19, 20, 21, 22, 23, 24, 25, 26, 27, 28, 29, 30,
    31, 32, NO,
];

fn general_register_numbers(abi: &Abi) -> &'static [u16] {
    match abi.machine {
        elf::EM_X86_64 => &X86_64,
        elf::EM_386 => &I386,
        elf::EM_AARCH64 => &AARCH64,
        _ => &[],
    }
}

/// Reads a note of type `NT_PRSTATUS`.
pub(super) fn read_prstatus(bytes: &[u8], target: Target, abi: &Abi) -> Result<Thread, ReadError> {
    // The note begins with three numbers of 4 bytes, the signal in 2 bytes, 2 bytes of padding, two
    // signal masks of one word, four ids of 4 bytes, and four times (`struct timeval`) of two
    // words. The first id is the thread's. The registers come next.
    let (id, registers) = match target.address_size {
        AddressSize::Four => (24, 72),
        AddressSize::Eight => (32, 112),
    };
    let mut cursor = Cursor::new(bytes, target);
    cursor.take(12)?;
    let signal = cursor.number(2)? as u16;
    cursor.take(id - 14)?;
    let id = cursor.number(4)? as u32;
    cursor.take(registers - cursor.at() as u64)?;
    let registers = read_general_registers(cursor.rest(), target, abi)?;
    Ok(Thread { id, name: None, signal, registers, vectors: Vec::new() })
}

/// Reads the general registers of a thread, as the kernel writes them for debuggers
/// (`elf_gregset_t`). The result is in ascending order of the DWARF numbers.
pub(crate) fn read_general_registers(bytes: &[u8], target: Target, abi: &Abi) -> Result<Vec<(u16, u64)>, ReadError> {
    let word = target.address_size.bytes();
    let mut cursor = Cursor::new(bytes, target);
    let mut held = Vec::new();
    for number in general_register_numbers(abi) {
        let value = cursor.number(word)?;
        if *number != NO {
            held.push((*number, value));
        }
    }
    held.sort_unstable();
    Ok(held)
}

/// Adds the thread pointer to a thread's registers, which are in ascending order of their DWARF numbers, unless it is
/// there.
pub(crate) fn add_thread_pointer(registers: &mut Vec<(u16, u64)>, abi: &Abi, pointer: u64) {
    if let Some(number) = abi.thread_pointer {
        if let Err(place) = registers.binary_search_by_key(&number, |(number, _)| *number) {
            registers.insert(place, (number, pointer));
        }
    }
}

/// Reads the low 8 bytes of the vector registers of a thread, as the kernel writes them for debuggers
/// (`elf_fpregset_t`): xmm0 to xmm15 of x86-64, and v0 to v31 of aarch64.
pub(crate) fn read_vector_registers(bytes: &[u8], target: Target, abi: &Abi) -> Result<Vec<(u16, u64)>, ReadError> {
    // On x86-64, 32 bytes of flags and 8 registers of the x87 come first.
    let (first, before, count) = match abi.machine {
        elf::EM_X86_64 => (17, 160, 16),
        elf::EM_AARCH64 => (64, 0, 32),
        _ => return Ok(Vec::new()),
    };
    let mut cursor = Cursor::new(bytes, target);
    cursor.take(before)?;
    let mut vector = || {
        let low = cursor.number(8)?;
        cursor.take(8).map(|_| low)
    };
    (first..first + count).map(|number| Ok((number, vector()?))).collect()
}
