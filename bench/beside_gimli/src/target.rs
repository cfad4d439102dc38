//! The target of a section: its byte order, and the size of its addresses.

use gimli::{Encoding, Format, RunTimeEndian};

#[derive(Clone, Copy, Debug, PartialEq)]
pub struct Target {
    pub big: bool,
    pub small: bool,
}

/// Both byte orders with both address sizes.
pub const TARGETS: [Target; 4] = [
    Target { big: false, small: false },
    Target { big: true, small: false },
    Target { big: false, small: true },
    Target { big: true, small: true },
];

impl Target {
    /// The size of an address in bytes.
    pub fn size(self) -> u8 {
        if self.small { 4 } else { 8 }
    }

    pub fn greatest(self) -> u64 {
        if self.small { 0xffff_ffff } else { u64::MAX }
    }

    pub fn order(self) -> RunTimeEndian {
        if self.big { RunTimeEndian::Big } else { RunTimeEndian::Little }
    }

    pub fn encoding(self) -> Encoding {
        Encoding { address_size: self.size(), format: Format::Dwarf32, version: 5 }
    }

    /// The `size` low bytes of a number, in the target's byte order.
    pub fn number(self, number: u64, size: usize) -> Vec<u8> {
        let mut bytes = number.to_le_bytes()[..size].to_vec();
        if self.big {
            bytes.reverse();
        }
        bytes
    }
}
