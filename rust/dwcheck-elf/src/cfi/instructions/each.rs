//! Goes through the instructions of a CIE or an FDE.
//!
//! The library checks the instructions. This only finds where each begins, so that the library's answers can be
//! shown.

use super::{instruction_name, operands_of_instruction, skip_operands};
use dwcheck_types::cursor::Cursor;
use dwcheck_types::target::Target;
use std::iter::FusedIterator;
use std::ops::Range;

/// A call frame instruction.
#[derive(Clone, Copy, Debug, PartialEq, Eq)]
pub(crate) struct Instruction {
    /// The offset of its first byte in the section.
    pub offset: usize,
    /// Its first byte, which has the opcode.
    pub code: u8,
    /// The offset after its last byte. `None` if its code isn't known or its operands can't be read. Then no
    /// instruction follows.
    pub end: Option<usize>,
    /// The offset in the section and the length of its last operand, if that is an expression.
    pub expression: Option<(usize, usize)>,
}

impl Instruction {
    /// The instruction's name, such as `def_cfa_register`, or a text such as `instruction 0x3f` if
    /// its code has no name. Vendors use some codes for different instructions; `machine`
    /// (`e_machine`) then decides which one is meant.
    pub fn name(&self, machine: u16) -> String {
        instruction_name(self.code, machine).map_or_else(|| format!("instruction {:#04x}", self.code), str::to_string)
    }
}

/// The instructions between two offsets of a section, in order.
#[derive(Clone, Debug)]
pub(crate) struct Instructions<'a> {
    /// What is left of them. `None` after an instruction that can't be read.
    rest: Option<Cursor<'a>>,
}

/// The instructions between two offsets of a section. If an instruction can't be read, it is the
/// last one. The operand of `DW_CFA_set_loc` has the target's address size.
pub(crate) fn instructions(section: &[u8], program: Range<usize>, target: Target) -> Instructions<'_> {
    let mut cursor = Cursor::new(section.get(..program.end).unwrap_or(section), target);
    let begins = cursor.take(program.start as u64).is_ok();
    Instructions { rest: Some(cursor).filter(|_| begins) }
}

impl Iterator for Instructions<'_> {
    type Item = Instruction;

    fn next(&mut self) -> Option<Instruction> {
        let cursor = self.rest.as_mut()?;
        let offset = cursor.at();
        let code = cursor.byte().ok()?;
        let target = cursor.target();
        let read = operands_of_instruction(code).and_then(|operands| skip_operands(cursor, operands, target).ok());
        let (end, at) = (read.map(|_| cursor.at()), cursor.at());
        if read.is_none() {
            self.rest = None;
        }
        Some(Instruction { offset, code, end, expression: read.flatten().map(|length| (at - length, length)) })
    }
}

impl FusedIterator for Instructions<'_> {}
