//! gimli's rows of a section, and their rules in the form in which they are compared.

use super::{RowError, RowSource};
use crate::cfi::row::{Cfa, Row, Rule};
use dwcheck_types::target::Target;
use gimli::{
    CfaRule, EndianSlice, Reader, Register, RegisterRule, RunTimeEndian, UnwindContextStorage, UnwindTable,
    UnwindTableRow,
};

pub(super) type Bytes<'a> = EndianSlice<'a, RunTimeEndian>;

/// gimli's storage for rules and remembered rows. It has room for 192 rules and 32 remembered rows,
/// more than `dwcheck` accepts. It is used because gimli's default storage has no bound on the
/// number of remembered rows.
pub(super) struct Bounded;

impl<R: Reader> UnwindContextStorage<R> for Bounded {
    type Rules = [(Register, RegisterRule<R>); 192];
    type Stack = [UnwindTableRow<R, Self>; 32];
}

/// gimli's rows of one FDE, except those that cover no address.
pub struct GimliRows<'data, 'a, 'ctx> {
    pub(super) table: UnwindTable<'a, 'ctx, Bytes<'data>, Bounded>,
    pub(super) target: Target,
}

impl<'data> RowSource<'data> for GimliRows<'data, '_, '_> {
    fn next_row(&mut self, row: &mut Row<'data>) -> Result<bool, RowError> {
        while let Some(read) = self.table.next_row().map_err(RowError::Gimli)? {
            row.begin = self.target.wrap(read.start_address());
            row.end = self.target.wrap(read.end_address());
            if row.begin != row.end {
                fill_row(row, read);
                return Ok(true);
            }
        }
        Ok(false)
    }
}

/// Copies the rules of a row that gimli has read to `row`.
fn fill_row<'a>(row: &mut Row<'a>, read: &UnwindTableRow<Bytes<'a>, Bounded>) {
    row.cfa = match read.cfa() {
        CfaRule::RegisterAndOffset { register, offset } => {
            Cfa::RegisterOffset { register: register.0, offset: *offset }
        }
        CfaRule::Expression(expression) => Cfa::Expression(expression.0.slice().into()),
    };
    row.rules.clear();
    row.rules.extend(read.registers().map(|(register, rule)| (register.0, rule_of_gimli(rule))));
    row.rules.sort_unstable_by_key(|(register, _)| *register);
}

fn rule_of_gimli<'a>(rule: &RegisterRule<Bytes<'a>>) -> Rule<'a> {
    match rule {
        RegisterRule::Undefined => Rule::Undefined,
        RegisterRule::SameValue => Rule::SameValue,
        RegisterRule::Offset(offset) => Rule::Offset(*offset),
        RegisterRule::ValOffset(offset) => Rule::ValOffset(*offset),
        RegisterRule::Register(register) => Rule::Register(register.0),
        RegisterRule::Expression(expression) => Rule::Expression(expression.0.slice().into()),
        RegisterRule::ValExpression(expression) => Rule::ValExpression(expression.0.slice().into()),
        RegisterRule::Architectural => Rule::Architectural,
    }
}
