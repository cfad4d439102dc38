//! Registers that a function has popped before it returns, and the slots from which it did.
//!
//! After `pop %rbp` or `leave`, tables of compilers still say that the register is in its slot. In the process it is,
//! but the slot is below the stack pointer now, and perf copies only what is above. The register has the same value.

use super::task::Task;
use dwcheck::{Block, CfaRule, Process, Registers, Row, Rule};

/// A slot below the stack pointer, with what was popped from it.
pub(super) struct Slot {
    address: u64,
    bytes: Vec<u8>,
}

impl Slot {
    /// The slot as memory of the task.
    pub fn block(&self) -> Block<'_> {
        Block::new(self.address, &self.bytes)
    }
}

/// The slots from which the innermost function, which is at this address as linked, has popped registers.
pub(super) fn popped_slots(process: &Process, address: u64, task: &Task<'_>, registers: &Registers) -> Vec<Slot> {
    let found = process.row(address).and_then(|row| Some((cfa_by_registers(&row, registers)?, row)));
    let (cfa, row) = match found {
        Some(found) => found,
        None => return Vec::new(),
    };
    let size = task.target.address_size.bytes();
    let slot = |(register, rule): &(u16, Rule)| {
        let offset = match rule {
            Rule::Offset(offset) if task.abi.callee_saved.contains(register) => *offset,
            _ => return None,
        };
        let address = task.target.wrap(cfa.wrapping_add(offset as u64));
        let is_below = address.checked_add(u64::from(size))? <= task.stack_pointer;
        let value = registers.get(*register).filter(|_| is_below)?;
        let mut bytes = Vec::new();
        task.target.push(&mut bytes, value, size);
        was_pushed_earlier(process, &row, *register, offset, task.abi.stack_pointer).then_some(Slot { address, bytes })
    };
    row.rules.iter().filter_map(slot).collect()
}

/// The CFA, if it is a register plus an offset.
fn cfa_by_registers(row: &Row, registers: &Registers) -> Option<u64> {
    match row.cfa {
        CfaRule::RegisterAndOffset { register, offset } => Some(registers.get(register)?.wrapping_add(offset as u64)),
        _ => None,
    }
}

/// Whether the slot of a register was above the stack pointer earlier in the function. If it never was, the register
/// may be saved below the stack pointer, in the red zone, and have another value now.
fn was_pushed_earlier(process: &Process, row: &Row, register: u16, offset: i64, stack_pointer: u16) -> bool {
    let earlier = std::iter::successors(row_before(process, row), |row| row_before(process, row));
    let is_above = |row: &Row| match row.cfa {
        CfaRule::RegisterAndOffset { register, offset: size } => {
            register == stack_pointer && size.checked_add(offset).map_or(false, |above| above >= 0)
        }
        _ => false,
    };
    earlier.take(MOST_ROWS).any(|row| row.rule(register) == Some(Rule::Offset(offset)) && is_above(&row))
}

/// How many rows of a function are looked at.
const MOST_ROWS: usize = 1 << 12;

/// The row before another one of the same function.
fn row_before(process: &Process, row: &Row) -> Option<Row> {
    process.row(row.addresses.start.checked_sub(1)?)
}
