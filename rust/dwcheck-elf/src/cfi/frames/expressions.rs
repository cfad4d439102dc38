//! The expressions of a frame section.

use super::{Frames, Record};
use crate::cfi::instructions::{instructions, DEF_CFA_EXPRESSION};
use dwcheck::{report, DebugFrame, DebugLoclists, Error};
use dwcheck_types::cursor::push_uleb;

/// An expression of a record that is used.
#[derive(Clone, Copy, Debug, PartialEq, Eq)]
pub struct Expression<'a> {
    /// The offset of its first byte in the section.
    pub offset: u64,
    /// Its bytes.
    pub bytes: &'a [u8],
    /// The code of the instruction that has it.
    code: u8,
}

/// What the check of an expression found.
#[derive(Clone, Copy, Debug, PartialEq, Eq)]
pub struct Measured {
    /// The offset of its first byte in the section.
    pub offset: u64,
    /// Whether it gives the CFA, and not the value of a register.
    pub is_cfa: bool,
    /// Its number of operations.
    pub operations: u32,
    /// The greatest number of values on its stack, on any path.
    pub depth: u32,
}

impl Frames<'_> {
    /// The expressions of the records that are used: those of CIEs, and then those of FDEs, each in the order of
    /// the section. This takes time in proportion to the section's length.
    pub fn expressions(&self) -> impl Iterator<Item = Expression<'_>> {
        let cies = self.used().filter(|record| record.is_cie());
        let fdes = self.used().filter(|record| !record.is_cie());
        cies.chain(fdes).flat_map(move |record| self.expressions_of(record))
    }

    fn expressions_of<'a>(&'a self, record: &Record) -> impl Iterator<Item = Expression<'a>> {
        let bytes = self.whole();
        instructions(bytes, record.program(), self.target()).filter_map(move |one| {
            let (offset, length) = one.expression?;
            Some(Expression { offset: offset as u64, bytes: bytes.get(offset..offset + length)?, code: one.code })
        })
    }

    /// The expressions of an accepted section, each with its number of operations and the depth of its stack. The
    /// library checks them once more, in a `.debug_frame` section that has nothing else.
    ///
    /// # Errors
    ///
    /// [`Error::NoMemory`]; or [`Error::Refused`] if one of the expressions isn't accepted.
    pub fn measure_expressions(&self) -> Result<Vec<Measured>, Error> {
        let all: Vec<_> = self.expressions().collect();
        let made = self.section_of_expressions(&all);
        let found = report(DebugFrame(&made), DebugLoclists(&[]), self.target())?.expressions;
        let measured = |(one, found): (&Expression<'_>, dwcheck::CheckedExpression)| Measured {
            offset: one.offset,
            is_cfa: one.code == DEF_CFA_EXPRESSION,
            operations: found.operations,
            depth: found.depth,
        };
        Ok(all.iter().zip(found).map(measured).collect())
    }

    /// A `.debug_frame` section with one FDE, which has all these expressions. They are rules of the CFA or of register
    /// 0.
    fn section_of_expressions(&self, expressions: &[Expression<'_>]) -> Vec<u8> {
        let target = self.target();
        let mut program = Vec::new();
        for one in expressions {
            program.push(one.code);
            program.extend((one.code != DEF_CFA_EXPRESSION).then_some(0));
            push_uleb(&mut program, one.bytes.len() as u64);
            program.extend_from_slice(one.bytes);
        }
        let mut section = Vec::new();
        // A CIE of version 1 whose CFA is register 0 plus 0.
        target.push(&mut section, 12, 4);
        target.push(&mut section, u64::MAX, 4);
        section.extend([1, 0, 1, 1, 0, 0x0c, 0, 0]);
        let size = target.address_size.bytes();
        target.push(&mut section, 4 + 2 * u64::from(size) + program.len() as u64, 4);
        target.push(&mut section, 0, 4);
        // It covers the address 0.
        target.push(&mut section, 0, size);
        target.push(&mut section, 1, size);
        section.extend(program);
        section
    }
}
