//! The machine and the system (`MINIDUMP_SYSTEM_INFO`).

use crate::directory::Directory;
use crate::file::{fields, File};
use crate::problem::{MinidumpError, StreamKind};
use dwcheck_types::abi::{Abi, AARCH64, I386, X86_64};

/// The numbers of Linux and of Android.
const SYSTEMS: [u32; 2] = [0x8201, 0x8203];

/// A machine whose registers are read.
#[derive(Clone, Copy, Debug, Default, PartialEq, Eq)]
pub enum Machine {
    /// x86-64.
    #[default]
    X86_64,
    /// i386.
    I386,
    /// aarch64.
    Aarch64,
    /// aarch64, with the order of registers that Breakpad used before Microsoft had one.
    Aarch64Old,
}

impl Machine {
    /// The machine with this number (`PROCESSOR_ARCHITECTURE_*`).
    fn numbered(number: u16) -> Result<Self, MinidumpError> {
        Ok(match number {
            0 => Machine::I386,
            9 => Machine::X86_64,
            12 => Machine::Aarch64,
            0x8003 => Machine::Aarch64Old,
            _ => return Err(MinidumpError::Machine(number)),
        })
    }

    /// Its calling convention.
    pub fn abi(self) -> &'static Abi {
        match self {
            Machine::X86_64 => &X86_64,
            Machine::I386 => &I386,
            Machine::Aarch64 | Machine::Aarch64Old => &AARCH64,
        }
    }
}

/// The machine of a program for Linux.
pub(crate) fn read_machine(file: File<'_>, directory: &Directory) -> Result<Machine, MinidumpError> {
    let missing = MinidumpError::NoStream(StreamKind::System);
    let mut system = fields(directory.bytes(file, StreamKind::System).ok_or(missing)?);
    let number = system.number(2).map_err(|_| missing)? as u16;
    // The processor's level, revision, count and type, and the system's three numbers of its version come before.
    let platform = system.take(18).and_then(|_| system.number(4)).map_err(|_| missing)? as u32;
    if !SYSTEMS.contains(&platform) {
        return Err(MinidumpError::System(platform));
    }
    Machine::numbered(number)
}
