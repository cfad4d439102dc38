//! The machines of symbol files, and the names of their registers.

use dwcheck_types::abi::{Abi, AARCH64, I386, X86_64};
use std::fmt;

/// A machine whose rows are known.
#[derive(Clone, Copy, Debug, PartialEq, Eq)]
pub enum Architecture {
    /// i386.
    X86,
    /// x86-64.
    X86_64,
    /// aarch64.
    Arm64,
}

/// The names of the general registers by their DWARF numbers, from 0 on.
const X86_NAMES: [&str; 9] = ["eax", "ecx", "edx", "ebx", "esp", "ebp", "esi", "edi", "eip"];
const X86_64_NAMES: [&str; 17] = [
    "rax", "rdx", "rcx", "rbx", "rsi", "rdi", "rbp", "rsp", "r8", "r9", "r10", "r11", "r12", "r13", "r14", "r15", "rip",
];
const ARM64_NAMES: [&str; 33] = [
    "x0", "x1", "x2", "x3", "x4", "x5", "x6", "x7", "x8", "x9", "x10", "x11", "x12", "x13", "x14", "x15", "x16", "x17",
    "x18", "x19", "x20", "x21", "x22", "x23", "x24", "x25", "x26", "x27", "x28", "x29", "x30", "sp", "pc",
];

/// Other names of registers of aarch64, which some writers use.
const ARM64_OTHERS: [(&str, u16); 2] = [("fp", 29), ("lr", 30)];

impl Architecture {
    /// All that are known.
    pub const ALL: [Architecture; 3] = [Architecture::X86, Architecture::X86_64, Architecture::Arm64];

    /// The one with a name, such as `x86_64`.
    pub fn named(name: &str) -> Option<Self> {
        Architecture::ALL.into_iter().find(|one| one.name() == name)
    }

    /// The one of a calling convention.
    pub fn of_abi(abi: &Abi) -> Option<Self> {
        Architecture::ALL.into_iter().find(|one| one.abi() == abi)
    }

    /// Its name in a symbol file.
    pub fn name(self) -> &'static str {
        match self {
            Architecture::X86 => "x86",
            Architecture::X86_64 => "x86_64",
            Architecture::Arm64 => "arm64",
        }
    }

    /// Its calling convention.
    pub fn abi(self) -> &'static Abi {
        match self {
            Architecture::X86 => &I386,
            Architecture::X86_64 => &X86_64,
            Architecture::Arm64 => &AARCH64,
        }
    }

    fn names(self) -> &'static [&'static str] {
        match self {
            Architecture::X86 => &X86_NAMES,
            Architecture::X86_64 => &X86_64_NAMES,
            Architecture::Arm64 => &ARM64_NAMES,
        }
    }

    /// What is before the name of a register.
    pub(crate) fn prefix(self) -> &'static str {
        match self {
            Architecture::X86 | Architecture::X86_64 => "$",
            Architecture::Arm64 => "",
        }
    }

    /// The name of a general register, without a dollar sign, by its DWARF number.
    pub fn register_name(self, number: u16) -> Option<&'static str> {
        self.names().get(usize::from(number)).copied()
    }

    /// The DWARF number of a register, whose name may begin with a dollar sign.
    pub fn register(self, name: &str) -> Option<u16> {
        let name = name.strip_prefix('$').unwrap_or(name);
        let others = if self == Architecture::Arm64 { &ARM64_OTHERS[..] } else { &[] };
        let place = self.names().iter().position(|known| *known == name);
        place.map(|place| place as u16).or_else(|| Some(others.iter().find(|(known, _)| *known == name)?.1))
    }
}

impl fmt::Display for Architecture {
    fn fmt(&self, f: &mut fmt::Formatter<'_>) -> fmt::Result {
        f.write_str(self.name())
    }
}

#[cfg(test)]
mod tests {
    use super::*;

    /// The numbers are those of the System V ABIs: rsp is 7, esp is 4, sp is 31.
    #[test]
    fn names_of_registers_are_those_of_the_abi() {
        for architecture in Architecture::ALL {
            let abi = architecture.abi();
            let name = |number| architecture.register_name(number);
            let expected = match architecture {
                Architecture::X86 => ["esp", "ebp", "eip"],
                Architecture::X86_64 => ["rsp", "rbp", "rip"],
                Architecture::Arm64 => ["sp", "x29", "pc"],
            };
            let found = [abi.stack_pointer, abi.frame_pointer, abi.program_counter].map(name);
            assert_eq!(found, expected.map(Some));
            let numbers = (0..architecture.names().len() as u16).filter_map(name);
            assert!(numbers.enumerate().all(|(number, name)| architecture.register(name) == Some(number as u16)));
        }
        assert_eq!(Architecture::X86_64.register("$rbx"), Some(3));
        assert_eq!(Architecture::Arm64.register("fp"), Some(29));
        assert_eq!(Architecture::X86_64.register("x29"), None);
    }
}
