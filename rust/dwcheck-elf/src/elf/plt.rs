//! Finds the stubs of procedure linkage tables: code that jumps to a function of another file, whose
//! address the dynamic linker stores in a slot. A relocation of the slot has the function's name.

use crate::elf::image::dynamic_imports;
use dwcheck_lint::instruction::{Effect, Target};
use dwcheck_lint::machine::Machine;
use object::read::{Object, ObjectSection};
use std::collections::HashMap;
use std::ops::Range;

/// The longest stub, in bytes: on aarch64, with landing and authentication.
const LONGEST: u64 = 24;

/// A stub, and the name of the function that it jumps to.
#[derive(Clone, Debug, PartialEq, Eq)]
pub(crate) struct Stub<'data> {
    /// The addresses of its code.
    pub range: Range<u64>,
    /// The function's name.
    pub function: &'data str,
}

/// The stubs of a linked file for x86-64, i386 or aarch64, in its sections `.plt`, `.plt.sec` and
/// `.plt.got`. A stub whose slot has no relocation with a name is left out. Empty for other machines.
pub(crate) fn plt_stubs<'data>(file: &object::File<'data>, machine: u16) -> Vec<Stub<'data>> {
    let machine = match Machine::numbered(machine) {
        Some(machine) => machine,
        None => return Vec::new(),
    };
    let tables = file.sections().filter(|section| section.name().map_or(false, |name| name.starts_with(".plt")));
    let mut tables = tables.filter_map(|section| Some((section.address(), section.data().ok()?))).peekable();
    if tables.peek().is_none() {
        return Vec::new();
    }
    let slots: HashMap<u64, &str> = dynamic_imports(file).into_iter().collect();
    tables.flat_map(|(address, code)| stubs_in_section(machine, address, code, &slots)).collect()
}

/// The stubs in the code of a section. Each begins at a multiple of 8 bytes, and ends where the next
/// one begins.
fn stubs_in_section<'data>(
    machine: &Machine,
    address: u64,
    code: &[u8],
    slots: &HashMap<u64, &'data str>,
) -> Vec<Stub<'data>> {
    let mut stubs: Vec<Stub<'data>> = Vec::new();
    for start in (0..code.len()).step_by(8) {
        let begin = address.saturating_add(start as u64);
        let slot = slot_of_stub(machine, &code[start..], begin);
        let function = match slot.and_then(|slot| slots.get(&slot)) {
            Some(function) => function,
            None => continue,
        };
        if let Some(before) = stubs.last_mut() {
            before.range.end = before.range.end.min(begin);
        }
        let end = address.saturating_add(code.len() as u64).min(begin.saturating_add(LONGEST));
        stubs.push(Stub { range: begin..end, function });
    }
    stubs
}

/// The address of the slot by which the code at the first of these bytes jumps, if that is all it
/// does, perhaps after an instruction that marks where jumps may lead.
fn slot_of_stub(machine: &Machine, code: &[u8], address: u64) -> Option<u64> {
    let slot = (machine.stub)(code, address);
    slot.or_else(|| {
        let first = (machine.decode)(code, address);
        let rest = usize::from(if first.effect == Effect::Nothing { first.length } else { 0 });
        let jump = (machine.decode)(code.get(rest..)?, address.wrapping_add(rest as u64));
        match jump.effect {
            Effect::Jump { target: Target::Pointer(slot) } => Some(slot),
            _ => None,
        }
    })
}
