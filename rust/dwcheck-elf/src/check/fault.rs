//! Describes the faults that `dwcheck` finds in terms of the ELF file: which section, which CIE or
//! FDE, which instruction or operation, and which function.

pub use crate::cfi::defect::{Defect, Within};

use crate::cfi::frames::{Frames, Kind, Name, Record};
use crate::cfi::instructions::{instructions, Instruction};
use crate::cfi::one_by_one::{Found, Shared};
use crate::debug::expression;
use crate::elf::function_offset::FunctionOffset;
use crate::elf::functions::Functions;
use dwcheck::{Fault, FaultKind};
use dwcheck_types::target::Target;

/// A frame section, with what is needed to describe its faults.
pub struct Terms<'a> {
    frames: &'a Frames<'a>,
    functions: &'a Functions<'a>,
    /// The FDEs that share an address with an earlier one.
    shared: Shared,
}

impl<'a> Terms<'a> {
    /// Finds the FDEs of a section that share addresses. Its faults can then be described.
    pub fn of(frames: &'a Frames<'a>, functions: &'a Functions<'a>) -> Self {
        Terms { frames, functions, shared: Shared::of(frames) }
    }

    /// Describes the first fault of the section.
    pub fn first(&self, fault: Fault) -> Defect {
        self.described(fault, self.frames.record_of(&fault))
    }

    /// Describes a fault of a record.
    pub fn defect(&self, found: &Found) -> Defect {
        self.described(found.fault, self.frames.record(found.record))
    }

    fn described(&self, fault: Fault, record: Option<&Record>) -> Defect {
        let what = record.map_or_else(|| "a record".to_string(), |record| what_is_at_fault(self, &fault, record));
        let within = record.map(Within::of);
        let offset = u64::from(fault.offset);
        Defect {
            section: self.frames.name(),
            // A record that took bytes of those after it ends where they end.
            offset: record.map_or(offset, |record| offset.min(record.next)),
            at: record.map_or(offset, |record| record.offset),
            fault: fault.name(),
            what,
            function: within.as_ref().and_then(|within| within.function(self.functions)),
            record: within,
            rule: fault.kind.rule().to_string(),
            hint: None,
        }
    }
}

impl Defect {
    /// Describes a fault that `dwcheck` found in `lists`, the bytes of `.debug_loclists`.
    pub fn of_lists(lists: &[u8], fault: Fault, target: Target) -> Self {
        let code = lists.get(fault.offset as usize).copied();
        let what = what_of_lists(fault.kind, code);
        Defect {
            section: Name::DebugLoclists,
            offset: u64::from(fault.offset),
            at: u64::from(fault.offset),
            fault: fault.name(),
            what,
            record: crate::debug::loclists::table_of(lists, target, fault.offset as usize).map(Within::Record),
            function: None,
            rule: fault.kind.rule().to_string(),
            hint: code.and_then(|code| list_hint(fault.kind, code)),
        }
    }
}

/// Says in words what is at a fault of location lists, by its first byte.
pub(crate) fn what_of_lists(kind: FaultKind, code: Option<u8>) -> String {
    match (kind.number(), code) {
        (30..=39 | 41 | 42, Some(code)) => expression::name_of(code),
        (40, _) => "the end of an expression".to_string(),
        (51..=53, Some(code)) => format!("entry {:#04x}", code),
        (54, _) => "the end of a table".to_string(),
        (55, _) => "an offset".to_string(),
        _ => "a field".to_string(),
    }
}

impl Within {
    fn of(record: &Record) -> Self {
        match record.kind {
            Kind::Cie { .. } => Within::Cie(record.offset),
            Kind::Fde { begin, end, .. } => Within::Fde(begin..end),
            Kind::Empty | Kind::Unread(_) => Within::Record(record.offset),
        }
    }

    /// The function at an FDE's first address. `None` if this isn't an FDE, or if the file has no
    /// name for the function.
    fn function(&self, functions: &Functions<'_>) -> Option<String> {
        match self {
            Within::Fde(range) => FunctionOffset::at(functions, range.start).map(|spot| spot.to_string()),
            _ => None,
        }
    }
}

/// A hint for a fault in location lists, by the byte at the fault: for an operation or an entry that
/// compilers write and that isn't supported.
fn list_hint(kind: FaultKind, code: u8) -> Option<&'static str> {
    match (kind, code) {
        (FaultKind::UnknownEntry, code) => entry_hint(code),
        // DW_OP_entry_value, which gcc and clang write for arguments.
        (FaultKind::UnknownOperation, 0xa3) => {
            Some("this is an entry value: see docs/TROUBLESHOOTING.md, or use check --no-lists")
        }
        _ => None,
    }
}

/// A hint for an entry of a location list whose kind isn't supported, by the entry's first byte.
fn entry_hint(code: u8) -> Option<&'static str> {
    match code {
        // DW_LLE_base_addressx, DW_LLE_startx_endx and DW_LLE_startx_length, which clang writes. Or
        // gcc's view numbers, which by default precede a list and aren't marked as such.
        0x01..=0x03 => {
            Some("these are view numbers or address indexes: see docs/TROUBLESHOOTING.md, or use check --no-lists")
        }
        // DW_LLE_GNU_view_pair, which gcc writes with -gvariable-location-views=incompat5.
        0x09 => Some("these are view numbers: see docs/TROUBLESHOOTING.md, or use check --no-lists"),
        _ => None,
    }
}

/// Says in words what is at a fault: an instruction, an operation, a field, or the end of the
/// instructions of a CIE or FDE.
fn what_is_at_fault(terms: &Terms<'_>, fault: &Fault, record: &Record) -> String {
    let field = match fault.kind {
        FaultKind::Version => "version",
        FaultKind::Augmentation => "augmentation",
        FaultKind::AddressSize => "address_size",
        FaultKind::SegmentSize => "segment_selector_size",
        FaultKind::ReservedLength => "length",
        FaultKind::NoSuchCie => "CIE_pointer",
        FaultKind::RangePastTop => "address_range",
        FaultKind::Unrestored => "the end of the program",
        FaultKind::Overlap => return describe_overlap(&terms.shared, record),
        _ => return fault_in_program(terms.frames, fault, record),
    };
    field.to_string()
}

/// Names the instruction or operation at a fault's offset. If the offset is before the instructions
/// of the CIE or FDE, or if these can't be found, this is `a field`. If it is after them, this is
/// `the end of the program`.
fn fault_in_program(frames: &Frames<'_>, fault: &Fault, record: &Record) -> String {
    let offset = fault.offset as usize;
    // `EndsEmpty` is reported where the expression ends, which is where the next instruction
    // begins.
    let is_end = fault.kind == FaultKind::EndsEmpty;
    let program = record.program();
    if offset < program.start || matches!(record.kind, Kind::Empty | Kind::Unread(_)) {
        return "a field".to_string();
    }
    if offset >= program.end && !is_end {
        return "the end of the program".to_string();
    }
    let target = frames.target();
    let all = instructions(frames.whole(), program, target);
    let holds = |instruction: &Instruction| instruction.offset + usize::from(is_end) <= offset;
    match all.take_while(holds).last() {
        Some(instruction) => instruction_at_fault(frames, &instruction, offset),
        None => "an instruction".to_string(),
    }
}

/// The name of an instruction. If `offset` is in its expression, also the name of the operation
/// there. If `offset` is where the expression ends, this says so.
fn instruction_at_fault(frames: &Frames<'_>, instruction: &Instruction, offset: usize) -> String {
    let machine = frames.format().machine;
    let (begin, length) = match instruction.expression {
        Some((begin, length)) if offset > instruction.offset => (begin, length),
        _ => return instruction.name(machine),
    };
    let bytes = frames.whole().get(begin..begin + length).unwrap_or(&[]);
    let all = expression::operations(bytes, frames.target());
    match all.iter().rev().find(|operation| begin + operation.offset <= offset) {
        Some(operation) if offset < begin + length => {
            format!("{} of {}", expression::name_of(operation.code), instruction.name(machine))
        }
        _ => format!("the end of the expression of {}", instruction.name(machine)),
    }
}

/// Says which FDE before `record` shares an address with it, and which addresses that FDE covers.
/// If there are several, this is the first one in the section.
fn describe_overlap(shared: &Shared, record: &Record) -> String {
    match shared.first(record.offset).and_then(|first| Some((first, first.addresses()?))) {
        Some((first, range)) => {
            format!("shares addresses with {:#x}..{:#x} of the FDE at {:#x}", range.start, range.end, first.offset)
        }
        None => "shares addresses with an FDE before it".to_string(),
    }
}
