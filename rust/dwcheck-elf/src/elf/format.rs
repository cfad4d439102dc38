//! The sections that are checked, and what has to be known of a frame section, besides its bytes, to read it.

use dwcheck::{EhFrame, FrameSection, Module};
use dwcheck_types::target::Target;
use gimli::BaseAddresses;
use object::elf::EM_AARCH64;
use std::fmt;
use std::num::NonZeroU64;

/// A section's compiled rows may take this many times the section's bytes in memory. For sections
/// that compilers write, they take about 1.5 times the section's bytes.
const ROOM_TIMES: usize = 64;

/// A section's compiled rows may always take this many bytes in memory, however short the section
/// is.
const LEAST_ROOM: usize = 64 << 20;

/// How many bytes the compiled rows of a section may take in memory.
fn room_for_rows(section: &[u8]) -> usize {
    section.len().saturating_mul(ROOM_TIMES).max(LEAST_ROOM)
}

/// A section that can be checked.
#[derive(Clone, Copy, Debug, PartialEq, Eq, PartialOrd, Ord, Hash)]
pub enum Name {
    /// `.debug_frame`.
    DebugFrame,
    /// `.eh_frame`.
    EhFrame,
    /// `.sframe`, rows of the CFA, the return address and the frame pointer.
    Sframe,
    /// `.debug_loc`, the location lists of DWARF 4 and before.
    DebugLoc,
    /// `.debug_loclists`, the location lists of DWARF 5.
    DebugLoclists,
}

/// What has to be known of a frame section, besides its bytes, to read it. All addresses are as linked.
#[derive(Clone, Copy, Debug, PartialEq, Eq)]
pub struct Format {
    /// Which section it is: [`Name::DebugFrame`] or [`Name::EhFrame`].
    pub name: Name,
    /// The byte order and the address size.
    pub target: Target,
    /// The machine's number (`e_machine`).
    pub machine: u16,
    /// The address of the section's first byte.
    pub address: u64,
    /// The address of the text section, which pointers with `DW_EH_PE_textrel` are relative to.
    pub text: Option<u64>,
    /// The address of the global offset table, which pointers with `DW_EH_PE_datarel` are relative
    /// to.
    pub data: Option<u64>,
}

impl Format {
    /// Whether the section is `.eh_frame`.
    pub fn is_eh_frame(&self) -> bool {
        self.name == Name::EhFrame
    }

    /// Whether the section is for aarch64, which has instructions of its own.
    pub(crate) fn is_aarch64(&self) -> bool {
        self.machine == EM_AARCH64
    }

    /// The section with these bytes, as the library takes it to check it or to read its records.
    pub fn section<'a>(&self, bytes: &'a [u8]) -> FrameSection<'a> {
        self.section_as(bytes, self.eh_frame())
    }

    /// The same, with what the library is told of an `.eh_frame` section.
    pub(crate) fn section_as<'a>(&self, bytes: &'a [u8], eh_frame: Option<EhFrame>) -> FrameSection<'a> {
        match eh_frame {
            Some(section) => FrameSection::eh_frame(bytes, section, self.target),
            None => FrameSection::debug_frame(bytes, self.target),
        }
    }

    /// A module with the section, which has these bytes, as the library takes it. It is loaded at `load`,
    /// and its compiled rows may take some 64 times as much memory as the bytes.
    pub fn module(&self, bytes: &[u8], load: u64) -> Module {
        let module = Module::at(load).room(room_for_rows(bytes));
        match self.eh_frame() {
            Some(section) => module.eh_frame(section),
            None => module,
        }
    }

    /// What the library is told of an `.eh_frame` section. `None` for `.debug_frame`.
    pub(crate) fn eh_frame(&self) -> Option<EhFrame> {
        let mut section = EhFrame::at(self.address);
        section.text_start = self.text.and_then(NonZeroU64::new);
        section.data_start = self.data.and_then(NonZeroU64::new);
        section.is_aarch64 = self.is_aarch64();
        Some(section).filter(|_| self.is_eh_frame())
    }

    /// The addresses that the section's pointers are relative to, as gimli takes them.
    pub(crate) fn bases(&self) -> BaseAddresses {
        let mut bases = BaseAddresses::default().set_eh_frame(self.address);
        if let Some(address) = self.text {
            bases = bases.set_text(address);
        }
        if let Some(address) = self.data {
            bases = bases.set_got(address);
        }
        bases
    }

    /// The same, but the section begins `distance` bytes later, modulo 2^64.
    pub(crate) fn moved_by(self, distance: u64) -> Self {
        Format { address: self.target.wrap(self.address.wrapping_add(distance)), ..self }
    }
}

impl fmt::Display for Name {
    fn fmt(&self, f: &mut fmt::Formatter<'_>) -> fmt::Result {
        f.pad(match self {
            Name::DebugFrame => ".debug_frame",
            Name::EhFrame => ".eh_frame",
            Name::Sframe => ".sframe",
            Name::DebugLoc => ".debug_loc",
            Name::DebugLoclists => ".debug_loclists",
        })
    }
}
