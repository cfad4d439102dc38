//! The memory of a loaded file that its process doesn't change: its read-only segments, and `.data.rel.ro`, where
//! the dynamic linker stores addresses before it makes the section read-only.

use dwcheck_types::target::Target;
use object::elf::{self, PF_W};
use object::read::{Object as _, ObjectSection, ObjectSegment, ObjectSymbol, ObjectSymbolTable, RelocationTarget};
use object::{Relocation, RelocationKind, SegmentFlags};
use std::borrow::Cow;
use std::ops::Range;

/// Parts of memory that stay as they are, each with its first address.
pub type Constants<'data> = Vec<(u64, Cow<'data, [u8]>)>;

/// A linked file that is loaded in a process.
pub(crate) struct Loaded<'file, 'data> {
    /// The file.
    pub file: &'file object::File<'data>,
    /// The machine's number (`e_machine`).
    pub machine: u16,
    /// The byte order and the address size.
    pub target: Target,
    /// What is added to addresses of the file to get those in the process.
    pub load: u64,
    /// Whether it is the program, and not a library: its own symbols are then those that it uses.
    pub is_program: bool,
}

/// Where the dynamic linker stores an address, and the address. `None` if it isn't known.
type Stored = (u64, Option<u64>);

impl<'data> Loaded<'_, 'data> {
    /// The constants. Bytes that aren't known are left out. This takes time and memory in proportion to the
    /// relocations and to `.data.rel.ro`.
    pub fn constants(&self) -> Constants<'data> {
        let read_only = self.file.segments().filter(|segment| !is_writable_segment(segment.flags()));
        let part =
            |segment: object::Segment<'data, '_>| self.part(segment.address(), Cow::Borrowed(segment.data().ok()?));
        let mut all: Constants<'data> = read_only.filter_map(part).collect();
        // `object` doesn't read relocations that are packed.
        let is_packed = self.file.section_by_name(".relr.dyn").is_some();
        if let Some(section) = self.file.section_by_name(".data.rel.ro").filter(|_| !is_packed) {
            all.extend(self.relocated(section.address(), section.data().unwrap_or(&[])));
        }
        all
    }

    /// A part of the memory that begins at an address of the file. `None` if it is empty or passes the highest
    /// address.
    fn part(&self, address: u64, bytes: Cow<'data, [u8]>) -> Option<(u64, Cow<'data, [u8]>)> {
        let begin = self.target.wrap(address.wrapping_add(self.load));
        let last = begin.checked_add(bytes.len().checked_sub(1)? as u64)?;
        Some((begin, bytes)).filter(|_| last <= self.target.address_size.highest())
    }

    /// The bytes of a section with the addresses that the dynamic linker stores in it.
    fn relocated(&self, address: u64, bytes: &[u8]) -> Constants<'data> {
        let width = usize::from(self.target.address_size.bytes());
        let mut bytes = bytes.to_vec();
        let mut known = 0;
        let mut parts = Vec::new();
        for (at, value) in self.relocations_in(address..address.saturating_add(bytes.len() as u64), &bytes) {
            let begin = (at - address) as usize;
            let end = bytes.len().min(begin + width);
            match value {
                Some(value) => self.store(&mut bytes[begin..end], value),
                None => {
                    parts.push(known..begin.max(known));
                    known = end;
                }
            }
        }
        parts.push(known..bytes.len());
        let part = |range: Range<usize>| {
            let begin = address.wrapping_add(range.start as u64);
            self.part(begin, Cow::Owned(bytes.get(range)?.to_vec()))
        };
        parts.into_iter().filter_map(part).collect()
    }

    fn store(&self, field: &mut [u8], value: u64) {
        let mut stored = Vec::with_capacity(8);
        self.target.push(&mut stored, value, self.target.address_size.bytes());
        field.iter_mut().zip(stored).for_each(|(byte, stored)| *byte = stored);
    }

    /// What the dynamic linker stores in a range of addresses of the file that has these bytes, ascending.
    fn relocations_in(&self, range: Range<u64>, bytes: &[u8]) -> Vec<Stored> {
        let symbols = self.file.dynamic_symbol_table();
        let width = usize::from(self.target.address_size.bytes());
        let relocations = self.file.dynamic_relocations().into_iter().flatten();
        let inside = relocations.filter(|(at, _)| range.contains(at));
        let stored = inside.map(|(at, relocation)| {
            let begin = (at - range.start) as usize;
            let held = bytes.get(begin..begin.saturating_add(width)).map(|field| self.target.number(field));
            (at, held.and_then(|held| self.value(&relocation, held, symbols.as_ref())))
        });
        let mut stored: Vec<_> = stored.collect();
        stored.sort_by_key(|(at, _)| *at);
        stored
    }

    /// The address that is stored for a relocation of a field that has this number.
    fn value(
        &self,
        relocation: &Relocation,
        held: u64,
        symbols: Option<&object::SymbolTable<'data, '_>>,
    ) -> Option<u64> {
        let addend = if relocation.has_implicit_addend() { held } else { relocation.addend() as u64 };
        let base = match (relocation.kind(), relocation.target()) {
            (RelocationKind::Elf(kind), _) if relative_relocation_type(self.machine) == Some(kind) => 0,
            (RelocationKind::Absolute, RelocationTarget::Symbol(index)) if self.is_program => {
                let symbol = symbols?.symbol_by_index(index).ok()?;
                let is_word = relocation.size() == 8 * self.target.address_size.bytes();
                symbol.is_definition().then(|| symbol.address()).filter(|_| is_word)?
            }
            _ => return None,
        };
        Some(self.target.wrap(base.wrapping_add(addend).wrapping_add(self.load)))
    }
}

fn is_writable_segment(flags: SegmentFlags) -> bool {
    !matches!(flags, SegmentFlags::Elf { p_flags } if p_flags & PF_W == 0)
}

/// The type of relocations that add where the file is loaded, of a machine.
fn relative_relocation_type(machine: u16) -> Option<u32> {
    Some(match machine {
        elf::EM_X86_64 => elf::R_X86_64_RELATIVE,
        elf::EM_386 => elf::R_386_RELATIVE,
        elf::EM_AARCH64 => elf::R_AARCH64_RELATIVE,
        _ => return None,
    })
}
