//! The address of each section of a file in memory: those of an unlinked object are laid out one after another.

use dwcheck_types::target::Target;
use object::elf::{ET_REL, SHF_ALLOC, SHF_EXECINSTR};
use object::read::{Object, ObjectSection, SectionIndex};
use object::SectionFlags;
use std::collections::HashMap;

/// The address of each section of a file.
///
/// In a linked file, these are the addresses in its section headers. In an unlinked object, each
/// section that would be loaded gets an address here: first code, from address 0 on, then data
/// whose bytes the file has, then data that starts as zeros.
#[derive(Clone, Debug, Default)]
pub(crate) struct Layout {
    addresses: HashMap<usize, u64>,
    /// Whether the file is an unlinked object.
    is_object: bool,
}

/// The error that the sections of an unlinked object don't fit below the highest address.
#[derive(Clone, Copy, Debug, PartialEq, Eq)]
pub(crate) struct TooLarge;

impl Layout {
    /// The section addresses of a file with this ELF type (`e_type`).
    pub fn of(file: &object::File<'_>, elf_type: u16, target: Target) -> Result<Self, TooLarge> {
        if elf_type != ET_REL {
            let addresses = file.sections().map(|section| (section.index().0, section.address())).collect();
            return Ok(Layout { addresses, is_object: false });
        }
        let mut sections: Vec<_> = file.sections().filter(|section| is_loaded_section(section.flags())).collect();
        sections.sort_by_key(|section| section_rank(section.flags(), section.file_range().is_some()));
        let mut addresses = HashMap::new();
        let mut next = 0u64;
        for section in sections {
            let alignment = section.align().max(16);
            let address = align_up(next, alignment).ok_or(TooLarge)?;
            // Leave one byte free between two sections, so that the end of one isn't the start of
            // the next.
            next = address.checked_add(section.size()).and_then(|end| end.checked_add(1)).ok_or(TooLarge)?;
            if next > target.address_size.highest() {
                return Err(TooLarge);
            }
            addresses.insert(section.index().0, address);
        }
        Ok(Layout { addresses, is_object: true })
    }

    /// The address of a section, 0 for a section that isn't loaded.
    pub fn address(&self, section: SectionIndex) -> u64 {
        self.addresses.get(&section.0).copied().unwrap_or(0)
    }

    /// What a symbol's value is relative to: the address of its section in an unlinked object, else 0.
    pub fn symbol_base(&self, section: SectionIndex) -> u64 {
        if self.is_object {
            self.address(section)
        } else {
            0
        }
    }
}

fn elf_flags(flags: SectionFlags) -> u64 {
    match flags {
        SectionFlags::Elf { sh_flags } => sh_flags,
        _ => 0,
    }
}

/// Whether a section with these flags is loaded into memory.
pub(crate) fn is_loaded_section(flags: SectionFlags) -> bool {
    elf_flags(flags) & u64::from(SHF_ALLOC) != 0
}

/// The rank of a section in the order of addresses: 0 for code, 1 for data whose bytes the file
/// has, 2 for data that starts as zeros.
fn section_rank(flags: SectionFlags, has_bytes: bool) -> u8 {
    match (elf_flags(flags) & u64::from(SHF_EXECINSTR) != 0, has_bytes) {
        (true, _) => 0,
        (false, true) => 1,
        (false, false) => 2,
    }
}

fn align_up(address: u64, alignment: u64) -> Option<u64> {
    let past = address.checked_rem(alignment)?;
    if past == 0 {
        Some(address)
    } else {
        address.checked_add(alignment - past)
    }
}
