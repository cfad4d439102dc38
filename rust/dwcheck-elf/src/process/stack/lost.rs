//! The modules that a minidump lists, and whose files aren't known: where they are, and their build ids, by which frames
//! can be named on another machine.

use super::{Position, Stacks};
use crate::cfi::text::Address;
use crate::elf::debug_files::build_id_hex;
use crate::process::core_file::{CoreFile, Files, Loaded};
use std::path::PathBuf;

/// How far from a stack pointer a function touches its part of the stack.
const NEAR: u64 = 1 << 16;

/// A module whose file isn't known.
#[derive(Clone, Debug)]
pub(super) struct Lost {
    /// Its path, or only a name.
    pub name: PathBuf,
    /// Its build id, in hex digits. `None` if the minidump doesn't have it.
    pub build_id: Option<String>,
    /// The address at which the beginning of its file is.
    pub begin: u64,
    /// The address after its last one.
    pub end: u64,
}

impl Lost {
    /// Those of a minidump, by their addresses. Core files have none.
    pub fn of(core: &CoreFile<'_>, files: &Files) -> Vec<Self> {
        let all = core.listed().unwrap_or(&[]).iter().enumerate();
        let is_lost = |index: usize| files.listed(index).map_or(true, |file| file.is_lost());
        let lost = all.filter(|(index, _)| is_lost(*index)).map(|(_, Loaded { name, begin, end, build_id })| Lost {
            name: name.clone(),
            build_id: build_id.map(|id| build_id_hex(id.bytes())),
            begin: *begin,
            end: *end,
        });
        let mut lost: Vec<_> = lost.collect();
        lost.sort_by_key(|module| module.begin);
        lost
    }

    /// Where an address is: the module that has the address `looked_up`, and how far past its beginning it is. That is
    /// the address in the file of a library or a position-independent program.
    pub fn position(all: &[Self], address: u64, looked_up: u64) -> Position {
        let next = all.partition_point(|module| module.begin <= looked_up);
        let last = next.checked_sub(1).and_then(|last| all.get(last));
        last.filter(|module| looked_up < module.end).map_or_else(Position::default, |module| Position {
            module: Some(module.name.clone()),
            build_id: module.build_id.clone(),
            address_in_module: Some(address.wrapping_sub(module.begin)),
            ..Position::default()
        })
    }
}

impl Stacks<'_> {
    /// Says that the first thread's stack isn't in a minidump, if that is so: then only its first frame is known.
    /// Crashpad's minidumps have no memory of a stack that overflowed.
    pub fn without_stack(&self) -> Option<String> {
        let thread = self.core.threads().first().filter(|_| self.core.is_minidump())?;
        let pointer = thread.register(self.core.abi().stack_pointer)?;
        if self.memory.from(pointer).is_some() {
            return None;
        }
        let signal = self.core.signal().filter(|signal| signal.is_fault() && signal.is_of_memory());
        let touched = signal.and_then(|signal| signal.fault_address());
        let is_near = touched.map_or(false, |touched| touched.wrapping_add(NEAR).wrapping_sub(pointer) < 2 * NEAR);
        let why = if is_near { "; the address of the fault is near it, so the stack may have overflowed" } else { "" };
        let pointer = Address(self.core.target(), pointer);
        Some(format!("thread {}: it has no memory at the stack pointer, {}{}", thread.id, pointer, why))
    }
}
