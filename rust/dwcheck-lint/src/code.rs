//! The instructions of an FDE, decoded: the next and the one before, and the leaders where blocks begin.

use crate::instruction::{Effect, Instruction};
use crate::machine::Machine;
use crate::table::{Fde, Row};

/// No instruction was decoded at an offset.
const NONE: u32 = u32::MAX;

/// How many bytes an instruction has that is rather short, so that nearly all code has fewer instructions.
const SHORT: usize = 3;

/// How many bytes of code lists are kept for. Few functions have more.
pub const USUAL_BYTES: usize = 1 << 16;

/// The instructions of a range of code. Offsets are relative to its first address.
pub struct Code<'a> {
    machine: &'a Machine,
    begin: u64,
    bytes: &'a [u8],
    lists: Lists,
    leader_count: usize,
}

/// The lists of a range of code. They are emptied and used again for the next one.
#[derive(Default)]
pub struct Lists {
    instructions: Vec<Instruction>,
    /// For each offset, the index of the instruction that begins there.
    at: Vec<u32>,
    /// For each offset, whether a block begins there.
    leaders: Vec<bool>,
    /// The offsets that are still to be decoded. Empty between calls.
    work: Vec<u32>,
    /// The offsets at which rows begin, ascending.
    rows: Vec<u32>,
}

impl Lists {
    /// Begins with code of this many bytes.
    fn begin(&mut self, bytes: usize) {
        self.instructions.clear();
        self.instructions.reserve(bytes / SHORT);
        self.at.clear();
        self.at.resize(bytes, NONE);
        self.leaders.clear();
        self.leaders.resize(bytes, false);
        self.rows.clear();
    }

    /// Frees what is more than most code needs.
    fn shrink(&mut self) {
        self.instructions.clear();
        self.instructions.shrink_to(USUAL_BYTES / SHORT);
        self.at.clear();
        self.at.shrink_to(USUAL_BYTES);
        self.leaders.clear();
        self.leaders.shrink_to(USUAL_BYTES);
        self.rows.clear();
        self.rows.shrink_to(USUAL_BYTES / SHORT);
    }
}

impl<'a> Code<'a> {
    /// Decodes all instructions of an FDE with these rows: what is reached by jumps that are direct, from the first
    /// address and from the landing pads, and then what is between.
    pub fn decode(machine: &'a Machine, fde: &Fde, bytes: &'a [u8], rows: &[Row<'_>], mut lists: Lists) -> Code<'a> {
        lists.begin(bytes.len());
        let mut code = Code { machine, begin: fde.begin, bytes, lists, leader_count: 0 };
        code.lists.rows = rows.iter().filter_map(|row| code.offset(row.begin)).collect();
        code.lead(0);
        for offset in fde.landings.iter().filter_map(|landing| code.offset(landing.pad)).collect::<Vec<_>>() {
            code.lead(offset);
        }
        let mut offset = 0;
        while offset < code.length() {
            if code.get(offset).is_none() {
                code.lead(offset);
            }
            offset = code.next_certain(offset);
        }
        code
    }

    /// Takes the lists out, for the next code.
    pub fn take_lists(&mut self) -> Lists {
        let mut lists = std::mem::take(&mut self.lists);
        lists.shrink();
        lists
    }

    /// The number of bytes.
    pub fn length(&self) -> u32 {
        self.bytes.len() as u32
    }

    /// The address of an offset.
    pub fn address(&self, offset: u32) -> u64 {
        self.begin.wrapping_add(u64::from(offset))
    }

    /// The offset of an address. `None` if it isn't in the code.
    pub fn offset(&self, address: u64) -> Option<u32> {
        let offset = address.wrapping_sub(self.begin);
        Some(offset as u32).filter(|_| offset < self.bytes.len() as u64)
    }

    /// The instruction that begins at an offset. `None` if none was decoded there.
    pub fn get(&self, offset: u32) -> Option<&Instruction> {
        self.lists.instructions.get(*self.lists.at.get(offset as usize)? as usize)
    }

    /// What the instruction at an offset does. `Invalid` if none was decoded there.
    pub fn effect(&self, offset: u32) -> &Effect {
        self.get(offset).map_or(&Effect::Invalid, |instruction| &instruction.effect)
    }

    /// All instructions, in the order in which they were decoded.
    pub fn instructions(&self) -> &[Instruction] {
        &self.lists.instructions
    }

    /// The offset after the instruction at an offset.
    pub fn next(&self, offset: u32) -> u32 {
        offset + self.get(offset).map_or(1, |instruction| u32::from(instruction.length))
    }

    /// The offset after an offset at which an instruction begins for certain. After bytes that can't be decoded and
    /// whose number isn't known, that is where a row begins, or where decoding began for another reason.
    pub fn next_certain(&self, offset: u32) -> u32 {
        let next = self.next(offset);
        match self.get(offset) {
            Some(Instruction { length: 1, effect: Effect::Invalid }) => {
                let row = self.lists.rows.partition_point(|row| *row <= offset);
                let end = self.lists.rows.get(row).copied().unwrap_or_else(|| self.length());
                (next..end).find(|at| self.get(*at).is_some()).unwrap_or(end)
            }
            _ => next,
        }
    }

    /// The offset of an instruction that ends at an offset.
    pub fn before(&self, offset: u32) -> Option<u32> {
        (1..=15.min(offset)).map(|length| offset - length).find(|begin| self.next_if_decoded(*begin) == Some(offset))
    }

    fn next_if_decoded(&self, offset: u32) -> Option<u32> {
        self.get(offset).map(|instruction| offset + u32::from(instruction.length))
    }

    /// Whether a block begins at an offset.
    pub fn is_leader(&self, offset: u32) -> bool {
        self.lists.leaders.get(offset as usize).copied().unwrap_or(false)
    }

    /// At how many offsets blocks begin.
    pub fn leader_count(&self) -> usize {
        self.leader_count
    }

    /// Makes a block begin at an offset. Returns whether none began there before.
    fn mark(&mut self, offset: u32) -> bool {
        let is_new = !std::mem::replace(&mut self.lists.leaders[offset as usize], true);
        self.leader_count += usize::from(is_new);
        is_new
    }

    /// Whether the bytes at an offset are two zeros, which no compiler writes as an instruction.
    pub fn has_zeros(&self, offset: u32) -> bool {
        self.bytes[offset as usize..].starts_with(&[0, 0])
    }

    /// Makes a block begin at an offset, and decodes it. Returns whether none began there before.
    pub fn lead(&mut self, offset: u32) -> bool {
        if self.is_leader(offset) && self.get(offset).is_some() {
            return false;
        }
        let is_new = self.mark(offset);
        self.lists.work.push(offset);
        while let Some(offset) = self.lists.work.pop() {
            self.decode_from(offset);
        }
        is_new
    }

    /// Decodes instructions until one ends the flow or is decoded already. Adds the targets of jumps
    /// to `work`.
    fn decode_from(&mut self, mut offset: u32) {
        while offset < self.length() && self.lists.at[offset as usize] == NONE {
            let instruction = (self.machine.decode)(&self.bytes[offset as usize..], self.address(offset));
            self.lists.at[offset as usize] = self.lists.instructions.len() as u32;
            self.lists.instructions.push(instruction);
            let target = instruction.effect.jump_target().and_then(|target| self.offset(target));
            if let Some(target) = target {
                self.mark(target);
                self.lists.work.push(target);
            }
            offset += u32::from(instruction.length);
            if instruction.effect.is_end() {
                return;
            }
            let ends_block = matches!(instruction.effect, Effect::JumpIf { .. } | Effect::Call { .. });
            if ends_block && offset < self.length() {
                self.mark(offset);
            }
        }
    }
}
