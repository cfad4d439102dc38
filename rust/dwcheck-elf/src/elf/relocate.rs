//! Applies the relocations of an unlinked object to one of its sections.

mod aarch64;

use crate::elf::layout::Layout;
use dwcheck_types::target::Target;
use object::elf;
use object::read::{Object as _, ObjectSection, ObjectSymbol, RelocationTarget, SymbolSection};
use object::{Relocation, RelocationKind, SymbolIndex};
use std::fmt;

/// How far apart the addresses are that stand for two symbols.
pub(super) const APART: u64 = 16;

/// A relocation that can't be applied.
#[derive(Clone, Debug, PartialEq, Eq)]
pub enum RelocationError {
    /// The relocation's type isn't known.
    Type(String),
    /// The field isn't inside the section.
    Place,
    /// The relocation names a symbol that the file doesn't have.
    Symbol,
}

/// What a relocation does to its field. Here, the symbol's address includes the addend of the
/// relocation.
#[derive(Clone, Copy, Debug)]
enum Action {
    Nothing,
    /// Sets the field to the symbol's address.
    Absolute,
    /// Sets the field to the symbol's address minus the field's address.
    Relative,
    /// Sets the field to the symbol's address minus the address of the second word after the field's
    /// first one, from which hppa counts.
    RelativeAfterTwoWords,
    /// Adds the symbol's address to the field.
    Add,
    /// Subtracts the symbol's address from the field.
    Subtract,
}

/// What a relocation does to its field, and the size of the field in bits.
#[derive(Clone, Copy, Debug)]
struct Step {
    action: Action,
    bits: u8,
}

/// The addresses that stand for the symbols of an unlinked object which it doesn't define, and for the
/// pointers in the global offset table. They are after all sections.
#[derive(Clone, Copy, Debug)]
pub(crate) struct Outside {
    /// The first of these addresses.
    pub base: u64,
}

impl Outside {
    /// The address that stands for a symbol.
    pub fn symbol(self, index: SymbolIndex) -> u64 {
        self.base.wrapping_add((index.0 as u64).wrapping_mul(APART))
    }

    /// The address of the pointer to a symbol.
    pub fn pointer(self, index: SymbolIndex) -> u64 {
        self.symbol(index).wrapping_add(APART / 2)
    }
}

/// An unlinked object whose relocations are applied.
#[derive(Clone, Copy)]
pub(crate) struct Object<'file, 'data> {
    /// The file.
    pub file: &'file object::File<'data>,
    /// Where its sections are.
    pub layout: &'file Layout,
    /// The machine's number (`e_machine`).
    pub machine: u16,
    /// The byte order and the address size.
    pub target: Target,
}

impl Object<'_, '_> {
    /// Applies all relocations of a section to its bytes. If a relocation names a symbol that the
    /// object doesn't define, its field stays unchanged. Returns the offsets of these fields,
    /// ascending. An error has the offset of the field whose relocation can't be applied.
    pub fn relocate(
        &self,
        section: &object::Section<'_, '_>,
        bytes: &mut [u8],
    ) -> Result<Vec<u64>, (u64, RelocationError)> {
        let mut unresolved = Vec::new();
        let start = self.layout.address(section.index());
        for (offset, relocation) in section.relocations() {
            let fail = |error| (offset, error);
            let step = relocation_step(self.machine, &relocation).map_err(fail)?;
            let symbol = match self.symbol(&relocation).map_err(fail)? {
                Some(symbol) => symbol,
                None => {
                    unresolved.push(offset);
                    continue;
                }
            };
            let field = field_bytes(bytes, offset, step.bits).ok_or_else(|| fail(RelocationError::Place))?;
            self.apply(field, start.wrapping_add(offset), symbol, step, &relocation);
        }
        unresolved.sort_unstable();
        Ok(unresolved)
    }

    /// Applies the relocations of a section of code or data, as far as they are known: all others leave
    /// their fields unchanged. What the object doesn't define is at addresses of `outside`.
    pub fn relocate_all(&self, section: &object::Section<'_, '_>, bytes: &mut [u8], outside: Outside) {
        let start = self.layout.address(section.index());
        for (offset, relocation) in section.relocations() {
            if let Some(code) = aarch64::instruction_relocation(self.machine, relocation.kind()) {
                if let (Some(field), Some(symbol)) = (field_bytes(bytes, offset, 32), self.known(&relocation, outside))
                {
                    let symbol = symbol.wrapping_add(relocation.addend() as u64);
                    aarch64::relocate_instruction(field, code, symbol, start.wrapping_add(offset));
                }
                continue;
            }
            let (step, symbol) = match self.code_step(&relocation, outside) {
                Some(found) => found,
                None => continue,
            };
            if let Some(field) = field_bytes(bytes, offset, step.bits) {
                self.apply(field, start.wrapping_add(offset), symbol, step, &relocation);
            }
        }
    }

    /// What a relocation of code or data does, and the address of its symbol or of the pointer to that.
    fn code_step(&self, relocation: &Relocation, outside: Outside) -> Option<(Step, u64)> {
        if self.machine == elf::EM_X86_64 && is_x86_64_pointer(relocation.kind()) {
            let step = Step { action: Action::Relative, bits: 32 };
            return match relocation.target() {
                RelocationTarget::Symbol(index) => Some((step, outside.pointer(index))),
                _ => None,
            };
        }
        if self.machine == elf::EM_386 {
            if let Some(found) = self.i386_step(relocation, outside) {
                return Some(found);
            }
        }
        Some((relocation_step(self.machine, relocation).ok()?, self.known(relocation, outside)?))
    }

    /// The same for the relocations of i386 that are relative to the global offset table, which is at address 0 here: what
    /// is relative to it is then an address.
    fn i386_step(&self, relocation: &Relocation, outside: Outside) -> Option<(Step, u64)> {
        let step = |action| Step { action, bits: 32 };
        match (relocation.kind(), relocation.target()) {
            (RelocationKind::GotBaseRelative, _) => Some((step(Action::Relative), 0)),
            (RelocationKind::GotBaseOffset, _) => Some((step(Action::Absolute), self.known(relocation, outside)?)),
            (RelocationKind::Got | RelocationKind::Elf(elf::R_386_GOT32X), RelocationTarget::Symbol(index)) => {
                Some((step(Action::Absolute), outside.pointer(index)))
            }
            _ => None,
        }
    }

    /// The address of the symbol that a relocation names, or the one that stands for it.
    fn known(&self, relocation: &Relocation, outside: Outside) -> Option<u64> {
        match (self.symbol(relocation).ok()?, relocation.target()) {
            (Some(symbol), _) => Some(symbol),
            (None, RelocationTarget::Symbol(index)) => Some(outside.symbol(index)),
            _ => None,
        }
    }

    /// The address of the symbol that a relocation names. `None` if the object doesn't define the
    /// symbol. An error if the file has no such symbol.
    fn symbol(&self, relocation: &Relocation) -> Result<Option<u64>, RelocationError> {
        let index = match relocation.target() {
            RelocationTarget::Symbol(index) => index,
            RelocationTarget::Section(index) => return Ok(Some(self.layout.address(index))),
            RelocationTarget::Absolute => return Ok(Some(0)),
            _ => return Err(RelocationError::Symbol),
        };
        let symbol = self.file.symbol_by_index(index).map_err(|_| RelocationError::Symbol)?;
        Ok(match symbol.section() {
            SymbolSection::Section(index) => Some(self.layout.symbol_base(index).wrapping_add(symbol.address())),
            SymbolSection::Absolute => Some(symbol.address()),
            _ => None,
        })
    }

    /// Changes the field at `address` as a relocation says. `symbol` is the address of the
    /// relocation's symbol.
    fn apply(&self, field: &mut [u8], address: u64, symbol: u64, step: Step, relocation: &Relocation) {
        let held = self.target.number(field);
        let implicit = if relocation.has_implicit_addend() { sign_extended(held, step.bits) } else { 0 };
        let value = symbol.wrapping_add(relocation.addend() as u64).wrapping_add(implicit);
        let number = match step.action {
            Action::Nothing => held,
            Action::Absolute => value,
            Action::Relative => value.wrapping_sub(address),
            Action::RelativeAfterTwoWords => value.wrapping_sub(address.wrapping_add(8)),
            Action::Add => held.wrapping_add(value),
            Action::Subtract => held.wrapping_sub(value),
        };
        let kept = u64::MAX.checked_shl(u32::from(step.bits)).unwrap_or(0);
        let mut written = Vec::with_capacity(8);
        self.target.push(&mut written, held & kept | number & !kept, field.len() as u8);
        field.iter_mut().zip(written).for_each(|(byte, new)| *byte = new);
    }
}

/// The bytes that hold the field of `bits` bits at an offset, at most 8 bytes. `None` if they
/// aren't all in the section.
fn field_bytes(bytes: &mut [u8], offset: u64, bits: u8) -> Option<&mut [u8]> {
    let size = usize::from(bits.min(64).checked_add(7)? / 8);
    let begin = usize::try_from(offset).ok()?;
    bytes.get_mut(begin..begin.checked_add(size)?)
}

fn sign_extended(number: u64, bits: u8) -> u64 {
    let unused = 64u32.saturating_sub(u32::from(bits)).min(63);
    (((number << unused) as i64) >> unused) as u64
}

fn relocation_step(machine: u16, relocation: &Relocation) -> Result<Step, RelocationError> {
    let step = |action, bits| Ok(Step { action, bits });
    match relocation.kind() {
        RelocationKind::Absolute => step(Action::Absolute, relocation.size()),
        RelocationKind::Relative | RelocationKind::PltRelative => step(Action::Relative, relocation.size()),
        RelocationKind::Elf(0) => step(Action::Nothing, 0),
        RelocationKind::Elf(code) => {
            machine_step(machine, code).ok_or_else(|| RelocationError::Type(format!("{} of machine {}", code, machine)))
        }
        kind => Err(RelocationError::Type(format!("{:?}", kind))),
    }
}

/// Whether a relocation of x86-64 stands for the pointer to a symbol in the global offset table, relative
/// to the field.
fn is_x86_64_pointer(kind: RelocationKind) -> bool {
    let relaxed = [elf::R_X86_64_GOTPCRELX, elf::R_X86_64_REX_GOTPCRELX];
    kind == RelocationKind::GotRelative || matches!(kind, RelocationKind::Elf(code) if relaxed.contains(&code))
}

/// The type `R_MIPS_PC32`, for which the crate `object` has no name.
const MIPS_PC32: u32 = 248;

/// What a relocation does, for the types that the crate `object` doesn't decode. `None` if the type
/// isn't known.
fn machine_step(machine: u16, code: u32) -> Option<Step> {
    let (action, bits) = match (machine, code) {
        (elf::EM_X86_64, elf::R_X86_64_PC64) => (Action::Relative, 64),
        // The offset of a variable in the data of its thread, which debug information has.
        (elf::EM_X86_64, elf::R_X86_64_DTPOFF32) => (Action::Absolute, 32),
        (elf::EM_X86_64, elf::R_X86_64_DTPOFF64) => (Action::Absolute, 64),
        (elf::EM_386, elf::R_386_TLS_LDO_32) => (Action::Absolute, 32),
        (elf::EM_PPC, elf::R_PPC_REL32) | (elf::EM_PPC64, elf::R_PPC64_REL32) => (Action::Relative, 32),
        (elf::EM_PPC64, elf::R_PPC64_REL64) => (Action::Relative, 64),
        (elf::EM_ARM, elf::R_ARM_REL32) => (Action::Relative, 32),
        (elf::EM_MIPS, MIPS_PC32) => (Action::Relative, 32),
        (elf::EM_ALPHA, elf::R_ALPHA_REFLONG) => (Action::Absolute, 32),
        (elf::EM_ALPHA, elf::R_ALPHA_REFQUAD) => (Action::Absolute, 64),
        (elf::EM_ALPHA, elf::R_ALPHA_SREL32) => (Action::Relative, 32),
        (elf::EM_ALPHA, elf::R_ALPHA_SREL64) => (Action::Relative, 64),
        (elf::EM_PARISC, elf::R_PARISC_DIR32) => (Action::Absolute, 32),
        (elf::EM_PARISC, elf::R_PARISC_PCREL32) => (Action::RelativeAfterTwoWords, 32),
        (elf::EM_SPARC | elf::EM_SPARC32PLUS | elf::EM_SPARCV9, elf::R_SPARC_DISP32) => (Action::Relative, 32),
        (elf::EM_SPARC | elf::EM_SPARC32PLUS | elf::EM_SPARCV9, elf::R_SPARC_DISP64) => (Action::Relative, 64),
        (elf::EM_RISCV, _) => riscv_action(code)?,
        _ => return None,
    };
    Some(Step { action, bits })
}

/// What a RISC-V relocation does, and the size of its field in bits. A RISC-V assembler leaves the
/// difference of two addresses to the linker: one relocation sets or adds the first address, and
/// another one subtracts the second.
fn riscv_action(code: u32) -> Option<(Action, u8)> {
    Some(match code {
        elf::R_RISCV_ADD8 => (Action::Add, 8),
        elf::R_RISCV_ADD16 => (Action::Add, 16),
        elf::R_RISCV_ADD32 => (Action::Add, 32),
        elf::R_RISCV_ADD64 => (Action::Add, 64),
        elf::R_RISCV_SUB6 => (Action::Subtract, 6),
        elf::R_RISCV_SUB8 => (Action::Subtract, 8),
        elf::R_RISCV_SUB16 => (Action::Subtract, 16),
        elf::R_RISCV_SUB32 => (Action::Subtract, 32),
        elf::R_RISCV_SUB64 => (Action::Subtract, 64),
        elf::R_RISCV_SET6 => (Action::Absolute, 6),
        elf::R_RISCV_SET8 => (Action::Absolute, 8),
        elf::R_RISCV_SET16 => (Action::Absolute, 16),
        elf::R_RISCV_SET32 => (Action::Absolute, 32),
        elf::R_RISCV_32_PCREL => (Action::Relative, 32),
        _ => return None,
    })
}

impl fmt::Display for RelocationError {
    fn fmt(&self, f: &mut fmt::Formatter<'_>) -> fmt::Result {
        match self {
            RelocationError::Type(code) => write!(f, "the relocation type {} isn't known", code),
            RelocationError::Place => f.write_str("the relocation's field isn't in the section"),
            RelocationError::Symbol => f.write_str("the relocation names a symbol that isn't there"),
        }
    }
}

impl std::error::Error for RelocationError {}
