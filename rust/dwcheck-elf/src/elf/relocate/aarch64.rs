//! Relocations of instructions of aarch64: those by which code finds code and tables of jumps.

use object::elf;
use object::RelocationKind;

/// The type of a relocation of an instruction. `None` if it is of another kind, or of another machine.
pub(super) fn instruction_relocation(machine: u16, kind: RelocationKind) -> Option<u32> {
    match kind {
        RelocationKind::PltRelative if machine == elf::EM_AARCH64 => Some(elf::R_AARCH64_CALL26),
        RelocationKind::Elf(code) if machine == elf::EM_AARCH64 && is_known_relocation(code) => Some(code),
        _ => None,
    }
}

fn is_known_relocation(code: u32) -> bool {
    let known = [
        elf::R_AARCH64_CALL26,
        elf::R_AARCH64_JUMP26,
        elf::R_AARCH64_CONDBR19,
        elf::R_AARCH64_TSTBR14,
        elf::R_AARCH64_ADR_PREL_LO21,
        elf::R_AARCH64_ADR_PREL_PG_HI21,
        elf::R_AARCH64_ADD_ABS_LO12_NC,
    ];
    known.contains(&code)
}

/// Changes the instruction at `address`, which the field holds, as a relocation of a type says. `symbol` is
/// the address of the relocation's symbol plus the addend.
pub(super) fn relocate_instruction(field: &mut [u8], code: u32, symbol: u64, address: u64) {
    let mut word = [0; 4];
    word.copy_from_slice(&field[..4]);
    let word = u32::from_le_bytes(word);
    let distance = symbol.wrapping_sub(address);
    let words = (distance >> 2) as u32;
    let set = |high: u32, low: u32, number: u32| {
        let mask = (u32::MAX >> (31 - (high - low))) << low;
        word & !mask | number << low & mask
    };
    let offset = |number: u64| {
        let low = (number as u32 & 3) << 29;
        set(23, 5, (number >> 2) as u32) & !(3 << 29) | low
    };
    let changed = match code {
        elf::R_AARCH64_CALL26 | elf::R_AARCH64_JUMP26 => set(25, 0, words),
        elf::R_AARCH64_CONDBR19 => set(23, 5, words),
        elf::R_AARCH64_TSTBR14 => set(18, 5, words),
        elf::R_AARCH64_ADR_PREL_LO21 => offset(distance),
        elf::R_AARCH64_ADR_PREL_PG_HI21 => offset((symbol >> 12).wrapping_sub(address >> 12)),
        _ => set(21, 10, symbol as u32 & 0xfff),
    };
    field[..4].copy_from_slice(&changed.to_le_bytes());
}
