//! Addresses as they are shown: a function and an offset.

use crate::elf::demangle::{demangled, shown_characters};
use crate::elf::functions::Functions;
use std::fmt::{self, Write};

/// An address, as a function and the offset from the function's first address.
///
/// Its text is `main+0x4`, or `main` if the offset is 0.
#[derive(Clone, Copy, Debug, PartialEq, Eq)]
pub struct FunctionOffset<'a> {
    /// The function's name, as it is in the file.
    pub name: &'a str,
    /// The number of bytes from the function's first address.
    pub offset: u64,
}

impl<'a> FunctionOffset<'a> {
    /// The function and offset of an address. `None` if the file has no name for the address.
    pub fn at(functions: &'a Functions<'_>, address: u64) -> Option<Self> {
        functions.at(address).map(|(function, offset)| FunctionOffset { name: &function.name, offset })
    }

    /// The function and offset of a return address. The function is the one that contains the call,
    /// even if the call is its last instruction.
    pub fn after_call(functions: &'a Functions<'_>, address: u64) -> Option<Self> {
        let FunctionOffset { name, offset } = FunctionOffset::at(functions, address.wrapping_sub(1))?;
        Some(FunctionOffset { name, offset: offset.saturating_add(1) })
    }
}

impl fmt::Display for FunctionOffset<'_> {
    fn fmt(&self, f: &mut fmt::Formatter<'_>) -> fmt::Result {
        shown_characters(&demangled(self.name)).try_for_each(|c| f.write_char(c))?;
        if self.offset == 0 {
            Ok(())
        } else {
            write!(f, "+{:#x}", self.offset)
        }
    }
}
