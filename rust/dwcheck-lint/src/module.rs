//! A program or a library: its code, its FDEs, and what its pointers name.

use crate::instruction::{Instruction, Key};
use crate::machine::Machine;
use crate::table::{Fde, Rows};
use std::collections::HashMap;

/// A part of the file that is loaded.
#[derive(Clone, Copy, Debug)]
pub struct Segment<'a> {
    /// The address of the first byte.
    pub address: u64,
    /// The bytes that the file has.
    pub bytes: &'a [u8],
    /// Whether it may be executed.
    pub is_executable: bool,
}

/// Whether the code follows the convention that a function gives registers back.
#[derive(Clone, Copy, Debug, PartialEq, Eq)]
pub enum Convention {
    /// It does, as C does.
    KeepsRegisters,
    /// No function keeps a register, as in OCaml: only the CFA and the return address are judged.
    KeepsNone,
    /// The same, and each FDE of `.debug_frame` is that of a function, as in Go.
    Go,
}

/// A program or a library.
pub struct Module<'a> {
    /// Its machine.
    pub machine: &'static Machine,
    /// What is loaded, ascending by address.
    pub segments: Vec<Segment<'a>>,
    /// In an unlinked object, the first address and the name of each section, ascending. Otherwise
    /// empty: the addresses are those that the file says.
    pub sections: Vec<(u64, &'a str)>,
    /// The FDEs, ascending by their first address, without two that share an address.
    pub fdes: Vec<Fde>,
    /// The names of functions of other modules, by the addresses of the pointers to them, and in an
    /// unlinked object by the addresses that stand for them.
    pub imports: HashMap<u64, &'a str>,
    /// What its functions do with registers.
    pub convention: Convention,
    /// The rows of the FDEs.
    pub rows: Box<dyn Rows + 'a>,
    /// The name of the table that has the rows, for findings. `None` for frame sections.
    pub table: Option<String>,
}

impl<'a> Module<'a> {
    /// Whether the return address is signed at an address, as the FDEs say.
    pub fn is_signed(&self, address: u64) -> bool {
        self.fde_at(address).map_or(false, |fde| self.fdes[fde].is_signed(address))
    }

    /// With which key the return address is signed, as the FDE of an address says.
    pub fn key(&self, address: u64) -> Option<Key> {
        self.fde_at(address).and_then(|fde| self.fdes[fde].key)
    }

    /// The bytes from an address to the end of what the file has there. Empty if it has none.
    pub fn bytes_at(&self, address: u64) -> &'a [u8] {
        let count = self.segments.partition_point(|segment| segment.address <= address);
        let found = count.checked_sub(1).and_then(|last| self.segments.get(last));
        let bytes = found.and_then(|segment| segment.bytes.get(usize::try_from(address - segment.address).ok()?..));
        bytes.unwrap_or(&[])
    }

    /// The name of a section, and how far an address is from its beginning. `None` in a linked file.
    pub fn section_of(&self, address: u64) -> Option<(&'a str, u64)> {
        let count = self.sections.partition_point(|(begin, _)| *begin <= address);
        let (begin, name) = *self.sections.get(count.checked_sub(1)?)?;
        Some((name, address - begin))
    }

    /// Whether an address stands for a function of another module, as in unlinked objects.
    pub fn stands_for_import(&self, address: u64) -> bool {
        !self.sections.is_empty() && self.imports.contains_key(&address)
    }

    /// The instruction at an address.
    pub fn instruction_at(&self, address: u64) -> Instruction {
        (self.machine.decode)(self.bytes_at(address), address)
    }

    /// The index of the FDE that contains an address.
    pub fn fde_at(&self, address: u64) -> Option<usize> {
        let index = self.fdes.partition_point(|fde| fde.begin <= address).checked_sub(1)?;
        Some(index).filter(|index| self.fdes[*index].contains(address))
    }

    /// Whether an FDE begins at an address.
    pub fn begins_fde(&self, address: u64) -> bool {
        self.fdes.binary_search_by_key(&address, |fde| fde.begin).is_ok()
    }

    /// Whether an FDE ends at an address.
    pub fn ends_fde(&self, address: u64) -> bool {
        let index = self.fdes.partition_point(|fde| fde.begin < address).checked_sub(1);
        index.map_or(false, |index| self.fdes[index].end == address)
    }
}
