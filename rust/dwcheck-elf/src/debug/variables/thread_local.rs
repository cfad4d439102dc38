//! Finds where the variables of a thread (`_Thread_local`, `thread_local!`) are, on x86-64.
//!
//! Each file has a block of them in each thread. For files that are loaded at the start, the block is at a
//! fixed distance from the thread pointer, which the dynamic linker has stored where relocations of the file
//! say. For others, it has stored the file's number, by which glibc's array of blocks (the DTV) is indexed.

use super::value_location::Machine;
use object::elf::{R_X86_64_DTPMOD64, R_X86_64_TPOFF64};
use object::read::elf::{ElfFile64, ProgramHeader};
use object::{elf, LittleEndian, Object, ObjectSymbol, ObjectSymbolTable, RelocationKind, RelocationTarget};

/// A file that is loaded in a process, as far as the variables of its threads depend on it.
#[derive(Clone, Copy, Debug)]
pub struct Loaded<'a> {
    /// Its bytes.
    pub bytes: &'a [u8],
    /// What is added to addresses of the file to get those in the process.
    pub bias: u64,
    /// Whether it is the program, and not a library.
    pub is_program: bool,
    /// Whether the C library is glibc.
    pub has_glibc: bool,
}

/// Where a file's block of variables is in the thread with this thread pointer. `None` if that isn't known, or
/// the thread has no block yet.
pub(super) fn thread_local_block(file: &Loaded<'_>, pointer: u64, machine: &Machine<'_>) -> Option<u64> {
    let read = ElfFile64::<LittleEndian>::parse(file.bytes).ok()?;
    if read.raw_header().e_machine.get(LittleEndian) != elf::EM_X86_64 {
        return None;
    }
    let segment = read.raw_segments().iter().find(|segment| segment.p_type(LittleEndian) == elf::PT_TLS)?;
    let number = |address: u64| -> Option<u64> {
        let bytes = machine.memory(address, 8).ok()?;
        Some(u64::from_le_bytes(bytes.try_into().ok()?))
    };
    let stored = |kind: u32| {
        thread_local_relocation(&read, kind).and_then(|(at, past)| Some((number(file.bias.wrapping_add(at))?, past)))
    };
    if let Some((offset, past)) = stored(R_X86_64_TPOFF64) {
        return Some(pointer.wrapping_add(offset).wrapping_sub(past));
    }
    if let Some((module, _)) = stored(R_X86_64_DTPMOD64).filter(|_| file.has_glibc) {
        return block_by_module_number(pointer, module, &number);
    }
    let (size, alignment) = (segment.p_memsz(LittleEndian), segment.p_align(LittleEndian).max(1));
    let size = size.checked_add(alignment - 1)? / alignment * alignment;
    Some(pointer.wrapping_sub(size)).filter(|_| file.is_program)
}

/// Where a relocation of this kind for the file's own variables is applied, and the offset in the block of the
/// variable that it is for.
fn thread_local_relocation(file: &ElfFile64<'_, LittleEndian>, kind: u32) -> Option<(u64, u64)> {
    let symbols = file.dynamic_symbol_table()?;
    file.dynamic_relocations()?.find_map(|(at, relocation)| {
        if relocation.kind() != RelocationKind::Elf(kind) {
            return None;
        }
        let past = match relocation.target() {
            RelocationTarget::Symbol(index) if index.0 > 0 => {
                let symbol = symbols.symbol_by_index(index).ok()?;
                Some(symbol.address()).filter(|_| !symbol.is_undefined())?
            }
            _ => 0,
        };
        Some((at, past.wrapping_add(relocation.addend() as u64)))
    })
}

/// The block of the file with a number, by glibc's array. Its address is in the second word of the thread's
/// data. Each element has two words, the first of which is the block's address. The element before the array
/// has the number of elements.
fn block_by_module_number(pointer: u64, module: u64, number: &dyn Fn(u64) -> Option<u64>) -> Option<u64> {
    const ELEMENT: u64 = 16;
    const NO_BLOCK: u64 = u64::MAX;
    let array = number(pointer.wrapping_add(8))?;
    let count = number(array.wrapping_sub(ELEMENT))?;
    let at = module.checked_mul(ELEMENT).filter(|_| (1..=count).contains(&module))?;
    number(array.wrapping_add(at)).filter(|block| *block != NO_BLOCK)
}
