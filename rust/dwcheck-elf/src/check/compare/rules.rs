//! Compares the rules of two rows, as far as both tables can speak.

use super::cfa::{self, Alike, Values};
use super::difference::Kind;
use super::pair::NotSaid;
use crate::cfi::row::Rule;
use crate::cfi::table_row::TableRow;
use dwcheck_symbols::Architecture;

/// What is compared: which registers the second table can speak of.
#[derive(Clone, Copy)]
pub(super) enum Speech {
    /// Of all.
    All,
    /// Of the return address and this register only, as SFrame does.
    Frame(u16),
    /// Of the general registers of a machine only, and not of signed return addresses, as symbol files do.
    General(Architecture),
}

/// What comparing two rows has found.
#[derive(Debug, Default, PartialEq, Eq)]
pub(super) struct Found {
    /// What differs, the worst first found; and the registers whose rules do.
    pub different: Option<(Kind, Vec<u16>)>,
    /// What one of them can't say, or what can't be compared.
    pub not_said: Vec<NotSaid>,
}

impl Found {
    fn add(&mut self, answer: Answer, kind: Kind, register: u16) {
        match (answer, &mut self.different) {
            (Answer::Same, _) => {}
            (Answer::Not(why), _) => self.not_said.push(why),
            (Answer::Different, None) => self.different = Some((kind, vec![register])),
            (Answer::Different, Some((known, registers))) if *known == kind => registers.push(register),
            (Answer::Different, Some(_)) => {}
        }
    }
}

/// The result for one rule.
enum Answer {
    Same,
    Different,
    Not(NotSaid),
}

/// Compares the rows of an address.
pub(super) fn compared(rows: [&TableRow; 2], address: u64, speech: Speech, values: Option<&Values>) -> Found {
    let [first, second] = rows;
    let mut found = Found::default();
    if !first.is_outermost && !second.is_outermost {
        match cfa::compared(&first.row.cfa, &second.row.cfa, address, values) {
            Alike::Same | Alike::SameHere => {}
            Alike::Unknown => found.not_said.push(NotSaid::Expression),
            Alike::Different => {
                found.different = Some((Kind::Cfa, Vec::new()));
                // The other rules build on the CFA.
                return found;
            }
        }
    }
    match first.return_register == second.return_register {
        true => found.add(return_address(first, second), Kind::ReturnAddress, first.return_register),
        false => found.not_said.push(NotSaid::ReturnRegister),
    }
    if first.is_signed != second.is_signed && found.different.is_none() && !second.is_outermost {
        match speech {
            Speech::General(_) => found.not_said.push(NotSaid::Signed),
            _ => found.different = Some((Kind::Signing, Vec::new())),
        }
    }
    match speech {
        Speech::All => all_registers(first, second, &|_| true, &mut found),
        Speech::General(architecture) => {
            let is_general = |register| architecture.register_name(register).is_some();
            all_registers(first, second, &is_general, &mut found);
            if first.row.rules.iter().any(|(register, _)| *register != first.return_register && !is_general(*register))
            {
                found.not_said.push(NotSaid::Registers);
            }
        }
        Speech::Frame(_) if second.is_outermost => {}
        Speech::Frame(pointer) => {
            found.add(frame_pointer(first.rule(pointer), second.rule(pointer)), Kind::Register, pointer);
            let is_other = |register: u16| register != pointer && register != first.return_register;
            if first.row.rules.iter().any(|(register, _)| is_other(*register)) {
                found.not_said.push(NotSaid::Registers);
            }
        }
    }
    found
}

fn is_expression(rule: &Rule<'_>) -> bool {
    matches!(rule, Rule::Expression(_) | Rule::ValExpression(_))
}

fn return_address(first: &TableRow, second: &TableRow) -> Answer {
    let register = first.return_register;
    match (first.rule(register), second.rule(register)) {
        (one, other) if one == other => Answer::Same,
        (None, Some(Rule::SameValue)) | (Some(Rule::SameValue), None) => Answer::Same,
        // What follows from no rule for the column of x86's return address isn't said.
        (None, Some(_)) | (Some(_), None) if is_column(first) => Answer::Not(NotSaid::Unspecified),
        (Some(one), Some(other)) if is_expression(one) || is_expression(other) => Answer::Not(NotSaid::Expression),
        _ => Answer::Different,
    }
}

/// Whether the register of the return address is no register of the processor, as on x86.
fn is_column(row: &TableRow) -> bool {
    matches!(row.return_register, 8 | 16)
}

/// Compares the rule of the frame pointer in a frame section with what SFrame says.
fn frame_pointer(first: Option<&Rule<'_>>, second: Option<&Rule<'_>>) -> Answer {
    match (first, second) {
        (one, other) if one == other => Answer::Same,
        (Some(Rule::SameValue), None) => Answer::Same,
        // SFrame can't say that it is lost.
        (Some(Rule::Undefined), None) => Answer::Not(NotSaid::Undefined),
        (Some(one), Some(_)) if is_expression(one) => Answer::Not(NotSaid::Expression),
        _ => Answer::Different,
    }
}

/// Compares the rules of these registers but those of the return address. Both lists are ascending.
fn all_registers(first: &TableRow, second: &TableRow, is_compared: &dyn Fn(u16) -> bool, found: &mut Found) {
    if first.row.rules == second.row.rules {
        return;
    }
    let mut others = second.row.rules.iter().peekable();
    let mut add = |register, one, other| {
        if register != first.return_register && is_compared(register) {
            found.add(register_rule(one, other), Kind::Register, register);
        }
    };
    for (register, rule) in &first.row.rules {
        while let Some((other, theirs)) = others.next_if(|(other, _)| other < register) {
            add(*other, None, Some(theirs));
        }
        let theirs = others.next_if(|(other, _)| other == register).map(|(_, rule)| rule);
        add(*register, Some(rule), theirs);
    }
    others.for_each(|(register, rule)| add(*register, None, Some(rule)));
}

fn register_rule(first: Option<&Rule<'_>>, second: Option<&Rule<'_>>) -> Answer {
    match (first, second) {
        (one, other) if one == other => Answer::Same,
        // Without a rule the ABI decides: the register is as it was, or it is lost.
        (None, Some(Rule::SameValue | Rule::Undefined)) | (Some(Rule::SameValue | Rule::Undefined), None) => {
            Answer::Not(NotSaid::Unspecified)
        }
        (Some(one), Some(other)) if is_expression(one) || is_expression(other) => Answer::Not(NotSaid::Expression),
        _ => Answer::Different,
    }
}
