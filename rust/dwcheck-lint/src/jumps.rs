//! Tables of jumps: where they end, and where they lead.

use crate::code::Code;
use crate::instruction::{Effect, Entry};
use crate::module::Module;
use dwcheck_types::cursor::Cursor;
use dwcheck_types::target::Target;

/// How far before a jump its comparison is looked for, in instructions.
const FARTHEST: usize = 10;

/// How many entries are read of a table whose bound isn't known.
const MOST_ENTRIES: u64 = 20_000;

/// A table of jumps.
#[derive(Clone, Copy, Debug)]
pub struct Table {
    /// Its address.
    pub address: u64,
    /// The address that is added to its entries.
    pub anchor: u64,
    /// Its entries.
    pub entry: Entry,
    /// How many entries it has, if the code says so.
    pub bound: Option<u64>,
    /// How many entries are read at most.
    pub limit: u64,
}

/// Rule "bounded tables": the number of entries of the table that a jump uses, by the comparison with
/// a number and the conditional jump before it.
pub fn jump_table_bound(code: &Code<'_>, jump: u32) -> Option<u64> {
    let (mut at, mut has_condition) = (jump, false);
    for _ in 0..FARTHEST {
        at = code.before(at)?;
        match code.effect(at) {
            Effect::JumpIf { .. } => has_condition = true,
            Effect::CompareNumber { number } if has_condition => return u64::try_from(*number).ok()?.checked_add(1),
            Effect::Jump { .. } | Effect::Return { .. } | Effect::Call { .. } => return None,
            _ => {}
        }
    }
    None
}

impl Table {
    /// The offsets in the code where the table leads, ascending. The table ends where another table
    /// in `known` begins, or where an entry doesn't lead to an instruction of the code. If the bound
    /// is known, entries that lead to the first address of an FDE, such as that of a cold part, are
    /// left out instead.
    pub fn targets(&self, module: &Module<'_>, code: &Code<'_>, known: &[u64]) -> Vec<u32> {
        let mut targets = Vec::new();
        for index in 0..self.bound.unwrap_or(MOST_ENTRIES).min(self.limit) {
            let place = self.address.wrapping_add(index.wrapping_mul(u64::from(self.entry.bytes)));
            let place = place & module.machine.address_mask();
            let is_other = index > 0 && known.binary_search(&place).is_ok();
            let target = match self.target(module, place) {
                Some(target) if !is_other => target,
                _ => break,
            };
            match code.offset(target) {
                Some(offset) if code.get(offset).is_some() => targets.push(offset),
                None if self.bound.is_some() && module.begins_fde(target) => {}
                _ => break,
            }
        }
        targets.sort_unstable();
        targets.dedup();
        targets
    }

    /// Where the entry at an address leads.
    fn target(&self, module: &Module<'_>, place: u64) -> Option<u64> {
        let Entry { bytes, is_signed, shift } = self.entry;
        let mut reader = Cursor::new(module.bytes_at(place), Target::LITTLE_64);
        let entry = match is_signed {
            true => reader.signed(bytes).ok()?,
            false => reader.number(bytes).ok()?,
        };
        Some(self.anchor.wrapping_add(entry << shift) & module.machine.address_mask())
    }
}
